"""Tries the judging program on document 01's "Sheets to try" and on sheets at its limits: judge.py PROGRAM

A sheet is named with what must be printed: V with its eight numbers and S with five for each step, or N with number and line.
"""
import itertools
import subprocess
import sys

from inputs import failures


def line(letter, *numbers):
    return letter + "".join("%9d" % n for n in numbers) + "\n"


def verdict(numbers, *steps):
    return line("V", *numbers) + "".join(line("S", *s) for s in steps)


def patterns(width):
    """All patterns of so many fields, as rows."""
    found = []
    for digits in itertools.product(range(1, width + 1), repeat=width):
        top = 0
        for d in digits:
            if d > top + 1:
                break
            top = max(top, d)
        else:
            found.append(digits)
    return found


def rows_of_shapes(count):
    """A sheet without rules whose rows have so many different shapes."""
    kinds = (count + 14) // 15
    rows = [line("R", k, *p) for k in range(1, kinds + 1) for p in patterns(4)]
    return "".join(line("K", k, 4) for k in range(1, kinds + 1)) + "".join(rows[:count])


P1, P2 = line("K", 1, 1), line("K", 1, 2)
PQ = P2 + line("K", 2, 2) + line("B", 1, 1, 1) + line("H", 2, 1, 2) + line("B", 2, 1, 2) + line("H", 1, 2, 2)


def rules_fired(fired, count):
    """So many rules, of which so many fire."""
    return P1 + line("K", 2, 1) + (line("B", 1, 1) + line("H", 1, 1)) * fired + (line("B", 2, 1) + line("H", 2, 1)) * (count - fired) + line("R", 1, 5)


CASES = [
    ("document 01's example", P2 + line("B", 1, 1, 2) + line("H", 1, 2, 3) + line("R", 1, 7, 8), verdict((2, 0, 1, 1, 100, 1, 0, 1), (1, 1, 2, 2, 1))),
    ("empty text", "", verdict((1, 0, 0, 0, 0, 0, 0, 0))),
    ("the example without its row", P2 + line("B", 1, 1, 2) + line("H", 1, 2, 3), verdict((1, 0, 0, 0, 0, 0, 0, 0))),
    ("P(1) -> P(2)", P1 + line("B", 1, 1) + line("H", 1, 2) + line("R", 1, 5), verdict((1, 1, 1, 1, 100, 1, 1, 0), (1, 1, 0, 1, 1))),
    ("P(1,2) -> P(1,3)", P2 + line("B", 1, 1, 2) + line("H", 1, 1, 3) + line("R", 1, 7, 8), verdict((1, 1, 1, 1, 100, 1, 1, 0), (1, 1, 1, 2, 1))),
    ("P(1,2) -> P(3,1), row 7 7", P2 + line("B", 1, 1, 2) + line("H", 1, 3, 1) + line("R", 1, 7, 7), verdict((2, 0, 2, 1, 100, 1, 1, 1), (1, 1, 0, 0, 0), (1, 1, 1, 1, 1))),
    ("P(1,1) -> P(2,1), row 7 8", P2 + line("B", 1, 1, 1) + line("H", 1, 2, 1) + line("R", 1, 7, 8), verdict((1, 0, 1, 0, 0, 0, 0, 0))),
    ("P(1,1) -> P(2,1), row 7 7", P2 + line("B", 1, 1, 1) + line("H", 1, 2, 1) + line("R", 1, 7, 7), verdict((1, 1, 2, 1, 100, 1, 1, 0), (1, 1, 1, 1, 1))),
    ("document 002, example 4.3", line("K", 1, 4) + line("K", 2, 2) + line("B", 1, 1, 2, 1, 3) + line("H", 2, 1, 4) + line("B", 2, 1, 2) + line("H", 1, 1, 1, 2, 2) + line("R", 1, 5, 6, 5, 7), verdict((1, 1, 3, 2, 100, 1, 1, 0), (1, 1, 1, 2, 1))),
    ("P(1) -> Q(1,2), Q(1,2) -> P(2)", P1 + line("K", 2, 2) + line("B", 1, 1) + line("H", 2, 1, 2) + line("B", 2, 1, 2) + line("H", 1, 2) + line("R", 1, 5), verdict((2, 0, 2, 2, 100, 1, 0, 2), (1, 1, 1, 2, 1), (2, 1, 2, 1, 0))),
    ("P(1) -> Q(2), Q(1) -> T(1,2)", P1 + line("K", 2, 1) + line("K", 3, 2) + line("B", 1, 1) + line("H", 2, 2) + line("B", 2, 1) + line("H", 3, 1, 2) + line("R", 1, 5), verdict((1, 2, 3, 2, 100, 1, 2, 0), (1, 1, 0, 1, 1), (2, 1, 1, 2, 1))),
    ("S(1) -> Q(1), P(1) -> S(2)", P1 + line("K", 2, 1) + line("K", 3, 1) + line("B", 3, 1) + line("H", 2, 1) + line("B", 1, 1) + line("H", 3, 2) + line("R", 1, 1) + line("R", 2, 3), verdict((1, 1, 3, 2, 100, 1, 1, 0), (2, 1, 0, 1, 1))),
    ("P(1,1) -> P(2,1), row 0 0", P2 + line("B", 1, 1, 1) + line("H", 1, 2, 1) + line("R", 1, 0, 0), verdict((1, 0, 1, 0, 0, 0, 0, 0))),
    ("P(1,1) -> P(2,1), rows 0 0, 0 0, 7 7", P2 + line("B", 1, 1, 1) + line("H", 1, 2, 1) + line("R", 1, 0, 0) * 2 + line("R", 1, 7, 7), verdict((1, 1, 2, 1, 100, 3, 1, 0), (1, 1, 1, 1, 1))),
    ("P(1,1) -> Q(1,2), Q(1,2) -> P(2,2), row P 0 0", PQ + line("R", 1, 0, 0), verdict((1, 0, 1, 0, 0, 0, 0, 0))),
    ("P(1,1) -> Q(1,2), Q(1,2) -> P(2,2), row P 7 7", PQ + line("R", 1, 7, 7), verdict((2, 0, 2, 2, 100, 1, 0, 2), (1, 1, 1, 2, 1), (2, 1, 2, 1, 0))),
    ("P(1) -> Q(1,1), Q(1,1) -> T(1,2), row P 0", P1 + line("K", 2, 2) + line("K", 3, 2) + line("B", 1, 1) + line("H", 2, 1, 1) + line("B", 2, 1, 1) + line("H", 3, 1, 2) + line("R", 1, 0), verdict((1, 1, 3, 2, 100, 1, 2, 0), (1, 1, 0, 0, 0), (2, 1, 1, 2, 1))),
    ("one rule of eight fired", rules_fired(1, 8), verdict((1, 0, 1, 1, 12, 0, 0, 0))),
    ("three rules of eight fired", rules_fired(3, 8), verdict((1, 0, 1, 3, 38, 0, 0, 0))),
    ("one rule of 200 fired", rules_fired(1, 200), verdict((1, 0, 1, 1, 0, 0, 0, 0))),
    ("three rules of 200 fired", rules_fired(3, 200), verdict((1, 0, 1, 3, 2, 0, 0, 0))),
    ("512 rows of different shapes", rows_of_shapes(512), verdict((1, 0, 512, 0, 0, 0, 0, 0))),
    ("513 rows of different shapes", rows_of_shapes(513), line("N", 11, 0)),
    ("256 rules", P1 + (line("B", 1, 1) + line("H", 1, 1)) * 256 + line("R", 1, 5), verdict((1, 0, 1, 256, 100, 0, 0, 0))),
    ("257 rules", P1 + (line("B", 1, 1) + line("H", 1, 1)) * 257 + line("R", 1, 5), line("N", 6, 514)),
    ("32,769 bytes", "x" * 32769, line("N", 1, 0)),
    ("far more than 32,768 bytes", P1 + "x" * 200000, line("N", 1, 0)),
    ("a mark that skips one", P2 + line("B", 1, 1, 3) + line("H", 1, 2, 3) + line("R", 1, 7, 8), line("N", 5, 2)),
]


def main():
    program = sys.argv[1]
    failed = 0
    for name, text, want in CASES:
        got = subprocess.run([program], input=text.encode("latin-1"), stdout=subprocess.PIPE).stdout.decode("latin-1")
        if got != want:
            failed += 1
            print("judge: %s: wanted %r, got %r" % (name, want[:200], got[:200]))
    tried, wrong = failures(program, CASES[0][1].encode("latin-1"), CASES[0][2].encode("latin-1"), CASES[1][2].encode("latin-1"))
    for name in wrong:
        failed += 1
        print("judge: %s" % name)
    print("judge: %d sheets and %d inputs, %d failed" % (len(CASES), tried, failed))
    return 1 if failed else 0


if __name__ == "__main__":
    sys.exit(main())
