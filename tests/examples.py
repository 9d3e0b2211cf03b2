"""Keeps the examples and docs/SHEETS.md true: examples.py PROGRAM [--write]

PROGRAM is the judging program. What it prints for each examples/NAME.sheet is stored in examples/NAME.expected.
In docs/SHEETS.md the word after a block's opening fence says what the block is:
  sheet                      a whole sheet
  sheet FILE                 the same, which stands in FILE
  sheet last line N times    the same with its last line written N times
  change FILE A-B            the sheet FILE with the block's lines in place of its lines A to B
  answer                     what the program prints for the sheet or change before it; each of those has one
  answer FILE                what the program prints for the sheet FILE
  words FILE                 what host/judge_file.expected has for FILE
  sentences FILE             what the explaining program, which stands beside PROGRAM, prints for the sheet FILE
README.md shows examples/loop.sheet in the same words and sentences.
Other blocks are not looked at. The tables of kinds, rules and rows are those of examples/bank_day.sheet with the names of bank_day.names.
With --write the stored outputs and the answers are written anew; the words around them are for a person to mend.
"""
import glob
import os
import re
import subprocess
import sys

ROOT = os.path.join(os.path.dirname(os.path.abspath(__file__)), "..")
PAGE = "docs/SHEETS.md"
failed = []


def line(letter, *numbers):
    return letter + "".join("%9d" % n for n in numbers) + "\n"


# What the page tells without a block: a sheet and the beginning of what the program prints for it.
K2, RULE = line("K", 1, 2), line("K", 1, 3) + line("K", 2, 2) + line("K", 3, 1)
TOLD = [
    ("an empty text", "", line("V", 1, 0, 0, 0, 0, 0, 0, 0)),
    ("Windows line ends", K2.replace("\n", "\r\n"), line("N", 2, 1)),
    ("no line feed at the end", K2 + line("R", 1, 7, 8)[:-1], line("N", 2, 2)),
    ("a tab", "K\t       1        2\n", line("N", 2, 1)),
    ("a blank after the last column", K2[:-1] + " \n", line("N", 2, 1)),
    ("kind 65", line("K", 65, 2), line("N", 4, 1)),
    ("kinds left out", line("K", 3, 2) + line("K", 60, 2), "V"),
    ("the 257th rule", line("K", 1, 1) + (line("B", 1, 1) + line("H", 1, 1)) * 257, line("N", 6, 514)),
    ("a thirteenth mark", line("K", 1, 6) + line("B", 1, 1, 2, 3, 4, 5, 6) + line("H", 1, 7, 8, 9, 10, 11, 12) + line("H", 1, 13, 1, 1, 1, 1, 1), line("N", 5, 4)),
    ("marks 1 2 3, then 4 1", RULE + line("B", 1, 1, 2, 3) + line("H", 2, 4, 1), "V"),
    ("marks 1 2 1, then 2 3", RULE + line("B", 1, 1, 2, 1) + line("H", 2, 2, 3), "V"),
    ("marks 1 3, then 2", RULE + line("B", 2, 1, 3) + line("H", 3, 2), line("N", 5, 4)),
    ("marks 2 1, then 3", RULE + line("B", 2, 2, 1) + line("H", 3, 3), line("N", 5, 4)),
    ("marks 1 2, then 4 3", RULE + line("B", 2, 1, 2) + line("H", 2, 4, 3), line("N", 5, 5)),
]


def read(name):
    with open(os.path.join(ROOT, name), encoding="utf-8", newline="") as f:
        return f.read()


def write(name, text):
    with open(os.path.join(ROOT, name), "w", encoding="utf-8", newline="") as f:
        f.write(text)


def printed(program, text):
    return subprocess.run([program], input=text.encode(), stdout=subprocess.PIPE).stdout.decode()


def says(text):
    """What the program prints for a text."""
    return printed(sys.argv[1], text)


def explained(sheet):
    """What the explaining program prints for a sheet's file."""
    return printed(os.path.join(os.path.dirname(sys.argv[1]), "explain"), read(sheet))


def expect(what, good):
    if not good:
        failed.append(what)


def stored_outputs(writing):
    names = sorted(glob.glob(os.path.join(ROOT, "examples", "*.sheet")))
    for name in names:
        sheet = "examples/" + os.path.basename(name)
        stored = sheet[: -len("sheet")] + "expected"
        if writing:
            write(stored, says(read(sheet)))
        expect("%s is not what the program prints" % stored, read(stored) == says(read(sheet)))
    return len(names)


def shown(info, body):
    """The sheet that a block shows; None where it shows none."""
    words = info.split()
    if words == ["sheet"]:
        return body
    if words[:1] == ["sheet"] and len(words) == 2:
        expect("%s: %s is another sheet" % (PAGE, words[1]), body == read(words[1]))
        return body
    if words[:3] == ["sheet", "last", "line"] and words[4:] == ["times"]:
        return body + body.splitlines(True)[-1] * (int(words[3]) - 1)
    if words[:1] == ["change"] and len(words) == 3:
        first, last = words[2].split("-")
        lines = read(words[1]).splitlines(True)
        return "".join(lines[: int(first) - 1]) + body + "".join(lines[int(last) :])
    return None


def said_in_words(sheet):
    """The part of the example program's stored output that is about a sheet."""
    return re.search("^%s: .*?(?=^exit status)" % re.escape(sheet), read("host/judge_file.expected"), re.M | re.S).group()


def page_blocks(writing):
    """Each answer on the page is what the program prints for the sheet before it or named by it."""
    parts = re.split(r"^```(.*)\n((?:(?!```).*\n)*)```\n", read(PAGE), flags=re.M)
    sheet, count = None, 0
    for k in range(1, len(parts), 3):
        info, body = parts[k : k + 2]
        words = info.split()
        if words[:1] in (["answer"], ["words"], ["sentences"]):
            count += 1
            if words[0] == "words":
                wanted = said_in_words(words[1])
            elif words[0] == "sentences":
                wanted = explained(words[1])
            elif len(words) == 2:
                wanted = says(read(words[1]))
            else:
                expect("%s, block %d: an answer without a sheet" % (PAGE, count), sheet is not None)
                wanted, sheet = says(sheet or ""), None
            expect("%s, block %d: wanted %r" % (PAGE, count, wanted), writing or body == wanted)
            parts[k + 1] = wanted
            continue
        expect("%s: a sheet without its answer, before block %d" % (PAGE, count + 1), sheet is None)
        sheet = shown(info, body)
    expect("%s: a sheet without its answer at the end" % PAGE, sheet is None)
    if writing:
        write(PAGE, "".join("```%s\n%s```\n" % (p, parts[k + 1]) if k % 3 == 1 else p for k, p in enumerate(parts) if k % 3 != 2))
    return count


def taken_apart(sheet):
    """Widths of the kinds, rules and rows of a sheet."""
    widths, rules, rows = {}, [], []
    for text in read(sheet).splitlines():
        numbers = [int(n) for n in text[1:].split()]
        if text[0] == "K":
            widths[numbers[0]] = numbers[1]
        elif text[0] == "B":
            rules.append([numbers])
        elif text[0] == "H":
            rules[-1].append(numbers)
        else:
            rows.append(numbers)
    return widths, rules, rows


def bank_day():
    """The tables on the page are the sheet's; the endless sheet differs by one rule."""
    widths, rules, rows = taken_apart("examples/bank_day.sheet")
    names = {int(n): name for n, name in (entry.split(" ", 1) for entry in read("examples/bank_day.names").splitlines())}
    expect("bank_day.names names other kinds than the sheet has", sorted(names) == sorted(widths))
    page = read(PAGE).splitlines()

    def record(numbers, between):
        return names[numbers[0]] + ("(%s)" if between == "," else " (%s)") % between.join(str(n) for n in numbers[1:])

    wanted = [r"\| %d \| %s \| [^,|]*(, [^,|]*){%d} \|" % (k, names[k], widths[k] - 1) for k in widths]
    for n, rule in enumerate(rules, 1):
        wanted.append(re.escape("| %d | `%s → %s` | " % (n, record(rule[0], ","), ", ".join(record(h, ",") for h in rule[1:]))) + ".*")
    wanted += [re.escape("| %d | %s | " % (n, record(row, ", "))) + ".*" for n, row in enumerate(rows, 1)]
    for entry in wanted:
        expect("%s has no line %s" % (PAGE, entry), any(re.fullmatch(entry, at) for at in page))
    others = taken_apart("examples/bank_day_endless.sheet")
    differing = [n for n, (one, other) in enumerate(zip(rules, others[1]), 1) if one != other]
    expect("bank_day_endless.sheet differs by other than one rule", (widths, rows) == (others[0], others[2]) and len(rules) == len(others[1]) and len(differing) == 1)


def main():
    writing = sys.argv[2:] == ["--write"]
    sheets = stored_outputs(writing)
    answers = page_blocks(writing)
    for what, text, wanted in TOLD:
        expect("%s: the program prints %r" % (what, says(text)), says(text).startswith(wanted))
    for told in (said_in_words("examples/loop.sheet"), explained("examples/loop.sheet")):
        expect("README.md does not show %r" % told, "```\n%s```\n" % told in read("README.md"))
    bank_day()
    drawn = subprocess.run([sys.executable, os.path.join(ROOT, "docs", "figures", "draw.py"), "--check"], stdout=subprocess.PIPE)
    expect(drawn.stdout.decode().strip() or "draw.py failed", drawn.returncode == 0)
    for what in failed:
        print("examples: " + what)
    print("examples: %d sheets, %d answers on the page, %d failed" % (sheets, answers, len(failed)))
    return 1 if failed else 0


sys.exit(main())
