"""Tries the forecasting program: forecast.py PROGRAM

Computed examples, sheets at the limits and refused ones are named with what must be printed: F with the figures of the values, the records, and the pairs of
rule and carried values, or N with number and line. For random sheets, which settle, and for those of examples/ it is what a small forecast in this file gives;
the rules of the random ones are carried out too (sheets.py), and no count may be over its figure.
"""
import random
import subprocess
import sys

from inputs import failures
from sheets import REFUSED, examples, line, parts, run, settling, sheet

LARGEST, MOST_SHAPES = 4294967295, 512
# A random sheet whose run has more records is left out.
MOST_RECORDS = 8000


def result(*figures):
    """The F line; None is beyond."""
    return "F" + "".join("%12s" % ("beyond" if n is None else n) for n in figures) + "\n"


def figures(text, deepest):
    """The three figures as numbers of any size."""
    widths, rules, rows = parts(text)
    counts = []
    for body, *heads in rules:
        marks = {mark for head in heads for mark in head[1:]}
        counts.append((len(marks - set(body[1:])), len(marks & set(body[1:]))))
    values = [value for row in rows for value in row[1:]]
    first = t = len(set(values) - {0}) + values.count(0)
    for _ in range(deepest):
        t = first + sum(fresh * t**carried for fresh, carried in counts)
    return t, sum(t**width for width in widths), sum(t**carried for _, carried in counts)


def foretold(text, ran):
    """What must be printed for a sheet that settles, whose rules were carried out."""
    records, _, generation, _ = ran
    shapes = {(record[0],) + tuple(record.index(value, 1) for value in record[1:]) for record in records}
    if len(shapes) > MOST_SHAPES:
        return line("N", 11, 0)
    return result(*(n if n <= LARGEST else None for n in figures(text, max(generation.values(), default=0))))


def over(text, ran):
    """Whether the run has more values, records or firings than is foretold."""
    records, fired, generation, _ = ran
    counts = len({value for record in records for value in record[1:]}), len(records), len(fired)
    return any(count > figure for count, figure in zip(counts, figures(text, max(generation.values(), default=0))))


def rows(kind, width, count):
    """So many rows of a kind, no two numbers the same."""
    return "".join("R %d %s;" % (kind, " ".join(str(width * row + field) for field in range(1, width + 1))) for row in range(count))


# 255 to the 4, 4 times 255 to the 3, 6 times 255 to the 2 and 4 times 255 are 4,294,967,295.
WIDTHS = [4] + [3] * 4 + [2] * 6 + [1] * 4
VALUES = rows(2, 3, 85)


def marks(width):
    return " ".join(map(str, range(1, width + 1)))


def kinds(widths):
    return "".join("K %d %d;" % kind for kind in enumerate(widths, 1))


def carrying(widths):
    """For each kind a rule that carries all."""
    return "".join("B %d %s; H %d %s;" % (kind, marks(width), kind, marks(width)) for kind, width in enumerate(widths, 1))


def making(rule=""):
    """Rules that make one fresh number each, for a kind that no rule fires on: with the 255 of the table 4,294,967,295 values, but for the further rule."""
    rules = "".join("B %d %s; H %d %s;" % (5 - width, marks(width), 16, marks(width) + " %d" % (width + 1) * (5 - width)) for width in WIDTHS[:-1])
    return sheet(kinds([4, 3, 2, 1]) + "K 16 5;" + rules + rule + VALUES)


def deep(generations):
    """P1(1,2) -> P2(2,3), P2(1,2) -> P3(2,3) and so on."""
    rules = "".join("B %d 1 2; H %d 2 3;" % (kind, kind + 1) for kind in range(1, generations + 1))
    return sheet(kinds([2] * (generations + 1)) + rules + "R 1 7 8")


CASES = [
    ("empty text", "", result(0, 0, 0)),
    ("P(1,2) -> P(1,3)", sheet("K 1 2; B 1 1 2; H 1 1 3; R 1 7 8"), result(4, 16, 4)),
    ("P(1) -> Q(2), Q(1) -> T(1,2)", sheet("K 1 1; K 2 1; K 3 2; B 1 1; H 2 2; B 2 1; H 3 1 2; R 1 5"), result(5, 35, 6)),
    ("P(1) -> Q(2,3), Q(3,2)", sheet("K 1 1; K 2 2; B 1 1; H 2 2 3; H 2 3 2; R 1 4; R 1 8"), result(4, 20, 1)),
    ("the sheet that docs/SHEETS.md works out by hand", sheet("K 1 1; K 2 2; K 3 3; B 1 1; H 2 1 2; B 2 1 2; H 3 2 1 3; H 1 1; R 1 5; R 1 9; R 1 5"), result(74, 410774, 5550)),
    ("no rows, and a rule that carries nothing", sheet("K 1 1; B 1 1; H 1 2"), result(0, 0, 1)),
    ("no rows, and a rule that carries", sheet("K 1 2; B 1 1 2; H 1 1 3"), result(0, 0, 0)),
    ("a kind that is not used", sheet("K 1 1; K 2 2; R 1 5; R 1 6"), result(2, 6, 0)),
    ("a fresh mark in two H lines", sheet("K 1 1; K 2 2; K 3 1; B 1 1; H 2 1 2; H 3 2; R 1 5; R 1 6"), result(4, 24, 4)),
    ("a carried mark in two fields of B and of H", sheet("K 1 2; K 2 3; B 1 1 1; H 2 1 1 2; R 1 7 7"), result(2, 12, 2)),
    ("a rule that does not fire", sheet("K 1 2; K 2 3; B 1 1 1; H 2 1 1 2; R 1 7 8"), result(2, 12, 2)),
    ("a mark that only B has", sheet("K 1 2; K 2 1; B 1 1 2; H 2 2; R 1 7 8"), result(2, 6, 2)),
    ("equal rows", sheet("K 1 2; R 1 3 4; R 1 3 4; R 1 4 3"), result(2, 4, 0)),
    ("a 0 and a value", sheet("K 1 1; R 1 0; R 1 3"), result(2, 2, 0)),
    ("zeros and a value", sheet("K 1 2; B 1 1 1; H 1 2 1; R 1 0 0; R 1 0 0; R 1 7 7"), result(10, 100, 10)),
    ("zeros: no rule fires", sheet("K 1 2; B 1 1 1; H 1 2 1; R 1 0 0; R 1 0 0"), result(4, 16, 4)),
    ("equal rows with a 0", sheet("K 1 2; R 1 3 0; R 1 3 0; R 1 3 4; R 1 3 4"), result(4, 16, 0)),
    ("a 0 carried to two fields", sheet("K 1 1; K 2 2; K 3 2; B 1 1; H 2 1 1; B 2 1 1; H 3 1 2; R 1 0"), result(2, 10, 4)),
    ("1,024 zeros", sheet("K 1 1;" + "R 1 0;" * 1024), result(1024, 1024, 0)),
    ("255 zeros, 4,294,967,295 records", sheet(kinds(WIDTHS) + "R 2 0 0 0;" * 85), result(255, LARGEST, 0)),
    ("a 0 more", sheet(kinds(WIDTHS) + "R 2 0 0 0;" * 85 + "R 12 0;"), result(256, None, 0)),
    ("1,024 values in 1,024 rows", sheet("K 1 1;" + rows(1, 1, 1024)), result(1024, 1024, 0)),
    ("as many values as fit", sheet("K 1 6;" + rows(1, 6, 503)), result(3018, None, 0)),
    ("4,294,967,295 records", sheet(kinds(WIDTHS) + VALUES), result(255, LARGEST, 0)),
    ("a kind more", sheet(kinds(WIDTHS + [1]) + VALUES), result(255, None, 0)),
    ("4,294,967,295 pairs", sheet(kinds(WIDTHS) + carrying(WIDTHS) + VALUES), result(255, LARGEST, LARGEST)),
    ("a rule more", sheet(kinds(WIDTHS) + carrying(WIDTHS) + "B 2 1 2 3; H 2 2 2 2;" + VALUES), result(255, LARGEST, None)),
    ("4,294,967,295 values", making(), result(LARGEST, None, None)),
    ("a value more", making("B 1 1 2 3 4; H 16 5 5 5 5 5;"), result(None, None, None)),
    ("5 generations", deep(5), result(7812, 366164064, 39060)),
    ("63 generations", deep(63), result(None, None, None)),
]


def main():
    program = sys.argv[1]
    draw = random.Random(1)
    tried = [(text, run(text, MOST_RECORDS)) for text in (settling(draw) for _ in range(300))]
    tried = [(text, ran) for text, ran in tried if len(ran[0]) <= MOST_RECORDS]
    cases = CASES + REFUSED + list(examples(lambda text: foretold(text, run(text, MOST_RECORDS))))
    cases += [("random sheet %d" % k, text, foretold(text, ran)) for k, (text, ran) in enumerate(tried)]
    failed = 0
    for name, text, want in cases:
        got = subprocess.run([program], input=text.encode("latin-1"), stdout=subprocess.PIPE).stdout.decode("latin-1")
        if got != want:
            failed += 1
            print("forecast: %s: wanted %r, got %r" % (name, want[:200], got[:200]))
    for k, (text, ran) in enumerate(tried):
        if over(text, ran):
            failed += 1
            print("forecast: random sheet %d: its run has more than is foretold" % k)
    good, empty = CASES[1], CASES[0]
    inputs, wrong = failures(program, good[1].encode("latin-1"), good[2].encode("latin-1"), empty[2].encode("latin-1"))
    for name in wrong:
        failed += 1
        print("forecast: %s" % name)
    beyond = sum("beyond" in want for _, _, want in cases[-len(tried) :])
    print("forecast: %d sheets, %d of them random and %d of these with a figure beyond, and %d inputs, %d failed" % (len(cases), len(tried), beyond, inputs, failed))
    return 1 if failed else 0


sys.exit(main())
