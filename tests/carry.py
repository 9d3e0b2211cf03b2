"""Tries the program that carries the rules out: carry.py PROGRAM

Computed examples, sheets at the limits and refused ones are named with what must be printed: C with the counts of records and of firings, then each record as
an R line; or N with number and line. For random sheets, which settle, and for those of examples/ it is what a small run (sheets.py) gives.
"""
import random
import subprocess
import sys

from inputs import failures
from sheets import REFUSED, examples, line, run, settling, sheet

MOST_RECORDS, MOST_NUMBER = 4096, 99999999


def result(firings, form):
    records = sheet(form)
    return line("C", records.count("\n"), firings) + records


def printed(text):
    """What must be printed for a sheet that settles."""
    records, fired, _, fresh = run(text, MOST_RECORDS)
    if len(records) > MOST_RECORDS:
        return line("N", 22, 0)
    if fresh > MOST_NUMBER + 1:
        return line("N", 23, 0)
    return line("C", len(records), len(fired)) + "".join(line("R", *record) for record in records)


def full(rule="", last=1024):
    """P(1) -> Q(1), T(1), U(1) with 1,024 rows: 4,096 records but for the further rule."""
    rows = "".join(line("R", 1, row) for row in range(1, 1024)) + line("R", 1, last)
    return sheet("K 1 1; K 2 1; K 3 1; K 4 1; K 5 1; B 1 1; H 2 1; H 3 1; H 4 1;" + rule) + rows


CASES = [
    ("empty text", "", result(0, "")),
    ("no rows", sheet("K 1 2; B 1 1 2; H 1 2 3"), result(0, "")),
    ("repeats", sheet("K 1 1; R 1 3; R 1 4; R 1 3; R 1 4"), result(0, "R 1 3; R 1 4")),
    ("P(1,2) -> P(1,3)", sheet("K 1 2; B 1 1 2; H 1 1 3; R 1 7 8"), result(1, "R 1 7 8; R 1 7 9")),
    ("P(1) -> Q(2,3), Q(3,2)", sheet("K 1 1; K 2 2; B 1 1; H 2 2 3; H 2 3 2; R 1 4; R 1 8"), result(1, "R 1 4; R 1 8; R 2 9 10; R 2 10 9")),
    ("P(1) -> Q(1,2), Q(1,2) -> T(2,1,3), P(1)", sheet("K 1 1; K 2 2; K 3 3; B 1 1; H 2 1 2; B 2 1 2; H 3 2 1 3; H 1 1; R 1 5; R 1 9; R 1 5"),
     result(4, "R 1 5; R 1 9; R 2 5 10; R 2 9 11; R 3 10 5 12; R 3 11 9 13")),
    ("the same rule twice", sheet("K 1 1; K 2 1; B 1 1; H 2 2; B 1 1; H 2 2; R 1 5; R 1 6"), result(2, "R 1 5; R 1 6; R 2 7; R 2 8")),
    ("twelve marks", sheet("K 1 6; K 2 6; B 1 1 2 3 4 5 6; H 2 7 8 9 10 11 12; H 2 12 11 10 9 8 7; H 2 1 2 3 4 5 6; H 2 6 12 5 11 4 10; R 1 1 2 3 4 5 6"),
     result(1, "R 1 1 2 3 4 5 6; R 2 7 8 9 10 11 12; R 2 12 11 10 9 8 7; R 2 1 2 3 4 5 6; R 2 6 12 5 11 4 10")),
    ("the largest number", sheet("K 1 1; K 2 1; B 1 1; H 2 2; R 1 99999998"), result(1, "R 1 99999998; R 2 99999999")),
    ("a larger one", sheet("K 1 1; K 2 1; B 1 1; H 2 2; R 1 99999999"), line("N", 23, 0)),
    ("none is needed", sheet("K 1 1; K 64 1; B 1 1; H 64 1; R 1 99999999"), result(1, "R 1 99999999; R 64 99999999")),
    ("4,096 records", full(), printed(full())),
    ("4,097 records", full("B 1 1; H 5 2"), line("N", 22, 0)),
    ("22 before 23", full("B 1 1; H 5 2", MOST_NUMBER), line("N", 22, 0)),
    ("21 before 23", sheet("K 1 2; B 1 1 2; H 1 2 3; R 1 7 99999999"), line("N", 21, 0)),
    # labels that are not given
    ("zeros are never the same", sheet("K 1 2; B 1 1 1; H 1 2 1; R 1 0 0; R 1 0 0; R 1 7 7"), result(1, "R 1 8 9; R 1 10 11; R 1 7 7; R 1 12 7")),
    ("equal rows with a 0", sheet("K 1 2; K 2 2; B 1 1 2; H 2 2 3; R 1 0 4; R 1 3 4; R 1 0 4; R 1 3 4"), result(1, "R 1 5 4; R 1 3 4; R 1 6 4; R 2 4 7")),
    ("repeats and zeros", sheet("K 1 1; R 1 3; R 1 0; R 1 3; R 1 0"), result(0, "R 1 3; R 1 4; R 1 5")),
    ("zeros alone", sheet("K 1 2; R 1 0 0; R 1 0 0"), result(0, "R 1 1 2; R 1 3 4")),
    ("a 0 and a fresh number", sheet("K 1 1; K 2 1; B 1 1; H 2 2; R 1 0"), result(1, "R 1 1; R 2 2")),
    ("by row and then by field", sheet("K 1 3; K 2 1; R 2 0; R 1 0 5 0; R 2 5; R 1 9 0 9"), result(0, "R 2 10; R 1 11 5 12; R 2 5; R 1 9 13 9")),
    ("a 0 carried to two fields", sheet("K 1 1; K 2 2; K 3 2; B 1 1; H 2 1 1; B 2 1 1; H 3 1 2; R 1 0"), result(2, "R 1 1; R 2 1 1; R 3 1 2")),
    ("a 0 carried from two rows", sheet("K 1 1; K 2 2; B 1 1; H 2 1 2; R 1 0; R 1 0; R 1 7; R 1 7"), result(3, "R 1 8; R 1 9; R 1 7; R 2 8 10; R 2 9 11; R 2 7 12")),
    ("endless if zeros were the same", sheet("K 1 2; K 2 2; B 1 1 1; H 2 1 2; B 2 1 2; H 1 2 2; R 1 0 0"), result(0, "R 1 1 2")),
    ("endless with 7 7", sheet("K 1 2; K 2 2; B 1 1 1; H 2 1 2; B 2 1 2; H 1 2 2; R 1 7 7"), line("N", 21, 0)),
    ("a 0 is the largest number", sheet("K 1 2; R 1 99999998 0"), result(0, "R 1 99999998 99999999")),
    ("a 0 is a larger one", sheet("K 1 2; R 1 99999999 0"), line("N", 23, 0)),
    ("a 0 before the largest number", sheet("K 1 2; R 1 0 99999999"), line("N", 23, 0)),
    ("fresh after two zeros", sheet("K 1 2; K 2 1; B 1 1 2; H 2 3; R 1 0 99999996; R 1 0 99999996"),
     result(1, "R 1 99999997 99999996; R 1 99999998 99999996; R 2 99999999")),
    ("one number more", sheet("K 1 2; K 2 1; B 1 1 2; H 2 3; R 1 0 99999997; R 1 0 99999997"), line("N", 23, 0)),
    ("4,096 records, one from a 0", full(last=0), printed(full(last=0))),
    ("4,097 records, two numbers too many", full("B 1 1; H 5 2", MOST_NUMBER).replace(line("R", 1, 1), line("R", 1, 0)), line("N", 22, 0)),
]


def main():
    program = sys.argv[1]
    draw = random.Random(1)
    randoms = [settling(draw) for _ in range(300)]
    cases = CASES + REFUSED + list(examples(printed)) + [("random sheet %d" % k, text, printed(text)) for k, text in enumerate(randoms)]
    failed = 0
    for name, text, want in cases:
        got = subprocess.run([program], input=text.encode("latin-1"), stdout=subprocess.PIPE).stdout.decode("latin-1")
        if got != want:
            failed += 1
            print("carry: %s: wanted %r, got %r" % (name, want[:200], got[:200]))
    good, empty = CASES[3], CASES[0]
    tried, wrong = failures(program, good[1].encode("latin-1"), good[2].encode("latin-1"), empty[2].encode("latin-1"))
    for name in wrong:
        failed += 1
        print("carry: %s" % name)
    over = sum(want[0] == "N" for _, _, want in cases[-len(randoms) :])
    print("carry: %d sheets, %d of them random and %d of these refused, and %d inputs, %d failed" % (len(cases), len(randoms), over, tried, failed))
    return 1 if failed else 0


sys.exit(main())
