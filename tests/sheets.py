"""Sheets for the tests of the programs, and a small run of their rules."""
import glob
import os

ROOT = os.path.join(os.path.dirname(os.path.abspath(__file__)), "..")


def line(letter, *numbers):
    return letter + "".join("%9d" % n for n in numbers) + "\n"


def sheet(form):
    """The text of lines written like "K 1 2; B 1 1 2; H 1 2 3; R 1 7 8"."""
    words = [part.split() for part in form.split(";") if part.strip()]
    return "".join(line(word[0], *map(int, word[1:])) for word in words)


def parts(text):
    """The widths of a sheet's kinds, its rules, each a B line and its H lines, and its rows; a line is its numbers."""
    widths, rules, rows = [], [], []
    for text_line in text.splitlines():
        numbers = tuple(int(n) for n in text_line[1:].split())
        if text_line[0] == "K":
            widths.append(numbers[1])
        elif text_line[0] == "B":
            rules.append([numbers])
        elif text_line[0] == "H":
            rules[-1].append(numbers)
        elif text_line[0] == "R":
            rows.append(numbers)
    return widths, rules, rows


def made(rule, record, fresh):
    """The carried values, the records that a rule makes, and the next fresh number; None where it does not fire. A record is its kind and its values."""
    body, heads = rule[0], rule[1:]
    if body[0] != record[0]:
        return None
    value = {}
    for mark, number in zip(body[1:], record[1:]):
        if value.setdefault(mark, number) != number:
            return None
    marks = sorted({mark for head in heads for mark in head[1:]})
    carried = tuple(value[mark] for mark in marks if mark in value)
    for mark in marks:
        if mark not in value:
            value[mark] = fresh
            fresh += 1
    return carried, [(head[0],) + tuple(value[mark] for mark in head[1:]) for head in heads], fresh


def numbered(rows):
    """The rows with the next number after the table's largest in the place of each 0, by row and then by field."""
    last = max((value for row in rows for value in row[1:]), default=0)
    new = []
    for row in rows:
        values = []
        for value in row[1:]:
            if value == 0:
                value = last = last + 1
            values.append(value)
        new.append((row[0],) + tuple(values))
    return new


def run(text, most):
    """The rules carried out, until there are more than `most` records: the records, the fired pairs of rule and carried values, the generation of each value,
    and the next fresh number."""
    _, rules, rows = parts(text)
    rows = numbered(rows)
    records = list(dict.fromkeys(rows))
    known, fired = set(records), set()
    generation = {value: 0 for row in rows for value in row[1:]}
    fresh = 1 + max(generation, default=0)
    for record in records:
        for number, rule in enumerate(rules):
            making = made(rule, record, fresh)
            if making is None or (number, making[0]) in fired:
                continue
            carried, new_records, after = making
            fired.add((number, carried))
            later = 1 + max((generation[value] for value in carried), default=0)
            generation.update((value, later) for value in range(fresh, after))
            fresh = after
            for new in new_records:
                if new not in known:
                    known.add(new)
                    records.append(new)
        if len(records) > most:
            break
    return records, fired, generation, fresh


WIDE = "K 1 6; K 2 6; K 3 6; B 1 1 2 3 4 5 6; H 1 2 1 3 4 5 6; H 1 2 3 4 5 6 1; H 1 1 1 3 4 5 6; B 1 1 2 3 4 5 6; H 2 1 2 3 4 5 6; H 3 1 2 3 4 5 6; R 1 1 2 3 4 5 6"

# What is refused before any rule is carried out.
REFUSED = [
    ("endless", sheet("K 1 2; B 1 1 2; H 1 2 3; R 1 7 8"), line("N", 21, 0)),
    ("609 shapes", sheet(WIDE), line("N", 11, 0)),
    ("32,769 bytes", "x" * 32769, line("N", 1, 0)),
    ("far more than 32,768 bytes", sheet("K 1 1") + "x" * 200000, line("N", 1, 0)),
    ("not in the form", sheet("K 1 1") + "R        1       07\n", line("N", 2, 2)),
    ("out of place", sheet("K 1 1; R 1 1; B 1 1; H 1 1"), line("N", 3, 3)),
    ("a rule without H", sheet("K 1 1; B 1 1"), line("N", 3, 3)),
    ("a kind that is not declared", sheet("K 1 1; R 2 1"), line("N", 4, 2)),
    ("a mark that skips one", sheet("K 1 2; B 1 1 3; H 1 2 3; R 1 7 8"), line("N", 5, 2)),
    ("257 rules", sheet("K 1 1;" + "B 1 1; H 1 1;" * 257), line("N", 6, 514)),
]


def examples(printed):
    """The sheets of examples/, by what the judging program says of them; what must be printed for one that settles is given by `printed`."""
    for path in sorted(glob.glob(os.path.join(ROOT, "examples", "*.sheet"))):
        with open(path, encoding="ascii", newline="") as f:
            text = f.read()
        with open(path[: -len("sheet")] + "expected", encoding="ascii", newline="") as f:
            judged = f.readline()
        if judged[0] == "N":
            yield os.path.basename(path), text, judged
        else:
            yield os.path.basename(path), text, printed(text) if judged.split()[1] == "1" else line("N", 21, 0)


def settling(draw):
    """A random sheet that settles: rules make fresh numbers for later kinds alone. Often some of the rows' values are 0, sometimes all."""
    widths = [draw.randint(1, 6) for _ in range(draw.randint(2, 8))]
    text = "".join(line("K", kind, width) for kind, width in enumerate(widths, 1))
    for _ in range(draw.randint(0, 12)):
        body = draw.randint(1, len(widths))
        top = width = widths[body - 1]
        text += line("B", body, *range(1, width + 1))
        for _ in range(draw.randint(1, 4)):
            head = draw.randint(body, len(widths))
            marks = []
            for _ in range(widths[head - 1]):
                marks.append(draw.randint(1, width if head == body else min(12, top + 1)))
                top = max(top, marks[-1])
            text += line("H", head, *marks)
    most, missing = draw.choice([2, 5, 50]), draw.choice([0, 0, 0, 0.1, 0.3, 1])
    for _ in range(draw.choice([1, 3, 10, 40])):
        kind = draw.randint(1, len(widths))
        text += line("R", kind, *(0 if draw.random() < missing else draw.randint(1, most) for _ in range(widths[kind - 1])))
    return text
