"""Writes the cases that the program `cases` tries: cases_stdin.py [--check [PROGRAM]]

They are document 01's "Sheets to try" with the figures that it gives, some more sheets, and the example sheets. The file's form is told in
crates/cases/src/main.rt. With --check nothing is written: it fails where the stored file is not what would be written. The program, target/bin/cases where
none is named, is then tried on inputs that cannot be read; it is left out where it is not built.
"""
import itertools
import os
import sys

from inputs import failures

ROOT = os.path.join(os.path.dirname(os.path.abspath(__file__)), "..")
STORED = os.path.join(ROOT, "crates", "cases", "stdin")
PRINTED = os.path.join(ROOT, "crates", "cases", "stdout")
BUILT = os.path.join(ROOT, "target", "bin", "cases")
SETTLES, ENDLESS = 1, 2


def line(letter, *numbers):
    return letter + "".join("%9d" % n for n in numbers) + "\n"


def kinds(*widths):
    """K lines for the kinds 1, 2 and so on."""
    return "".join(line("K", k, w) for k, w in enumerate(widths, 1))


def rule(body, *heads):
    return line("B", *body) + "".join(line("H", *h) for h in heads)


def rows(*records):
    return "".join(line("R", *r) for r in records)


def patterns(width):
    """All patterns of so many fields."""
    for digits in itertools.product(range(1, width + 1), repeat=width):
        if all(d <= max(digits[:i], default=0) + 1 for i, d in enumerate(digits)):
            yield digits


def different_shapes(count):
    """A sheet without rules whose rows have so many different shapes."""
    used = (count + 14) // 15
    shapes = [(k, *p) for k in range(1, used + 1) for p in patterns(4)]
    return kinds(*[4] * used) + rows(*shapes[:count])


def longest():
    """A sheet of 32,768 bytes."""
    text = kinds(5, 1) + rule((2, 1), (2, 2)) + rows(*[(1, i % 7 + 1, 2, 3, i % 7 + 1, 1) for i in range(583)], (2, 5), (2, 6))
    assert len(text) == 32768
    return text


def same_rules(count):
    return kinds(1) + rule((1, 1), (1, 1)) * count + rows((1, 5))


def example(name):
    with open(os.path.join(ROOT, "examples", name + ".sheet"), encoding="ascii") as f:
        return f.read()


def case(name, text, verdict=None, deepest=None, shapes=None, fired=None, share=None, row=None, trail=None, loop=None, lent=4096):
    """A case with the figures that are given."""
    return name, text, lent, "V", (verdict, deepest, shapes, fired, share, row, trail, loop)


def refused(name, text, number, at, lent=4096):
    return name, text, lent, "N", (number, at) + (None,) * 6


SHOWN = kinds(2) + rule((1, 1, 2), (1, 2, 3))
TWICE = kinds(2) + rule((1, 1, 1), (1, 2, 1))
NEXT = kinds(2, 2) + rule((1, 1, 1), (2, 1, 2)) + rule((2, 1, 2), (1, 2, 2))


def rules_fired(fired, count):
    """So many rules, of which so many fire."""
    return kinds(1, 1) + rule((1, 1), (1, 1)) * fired + rule((2, 1), (2, 1)) * (count - fired) + rows((1, 5))


CASES = [
    # document 01, "Sheets to try"; a share at a half by document 02
    case("the sheet that document 01 shows", SHOWN + rows((1, 7, 8)), ENDLESS, 0, 1, 1, 100, 1, 0, 1),
    case("empty text", "", SETTLES, 0, 0, share=0),
    case("the sheet above without its row", SHOWN, SETTLES, 0),
    case("P(1) -> P(2), row 5", kinds(1) + rule((1, 1), (1, 2)) + rows((1, 5)), SETTLES, 1, 1),
    case("P(1,2) -> P(1,3), row 7 8", kinds(2) + rule((1, 1, 2), (1, 1, 3)) + rows((1, 7, 8)), SETTLES, 1),
    case("P(1,2) -> P(3,1), row 7 7", kinds(2) + rule((1, 1, 2), (1, 3, 1)) + rows((1, 7, 7)), ENDLESS, shapes=2, trail=1, loop=1),
    case("P(1,1) -> P(2,1), row 7 8", TWICE + rows((1, 7, 8)), SETTLES, 0, share=0),
    case("P(1,1) -> P(2,1), row 7 7", TWICE + rows((1, 7, 7)), SETTLES, 1, 2),
    case("document 002, example 4.3", kinds(4, 2) + rule((1, 1, 2, 1, 3), (2, 1, 4)) + rule((2, 1, 2), (1, 1, 1, 2, 2)) + rows((1, 5, 6, 5, 7)), SETTLES, 1, 3, share=100),
    case("P(1) -> Q(1,2), Q(1,2) -> P(2), row P 5", kinds(1, 2) + rule((1, 1), (2, 1, 2)) + rule((2, 1, 2), (1, 2)) + rows((1, 5)), ENDLESS, loop=2),
    case("P(1) -> Q(2), Q(1) -> T(1,2), row P 5", kinds(1, 1, 2) + rule((1, 1), (2, 2)) + rule((2, 1), (3, 1, 2)) + rows((1, 5)), SETTLES, 2),
    case("one rule of eight fired", rules_fired(1, 8), SETTLES, fired=1, share=12),
    case("512 rows of different shapes", different_shapes(512), SETTLES, 0, 512),
    refused("513 rows of different shapes", different_shapes(513), 11, 0),
    case("text of 32,768 bytes", longest(), SETTLES),
    refused("text of 32,769 bytes", longest() + "x", 1, 0),
    case("256 rules", same_rules(256), SETTLES, 0, 1, 256, 100),
    refused("257 rules", same_rules(257), 6, 514),
    case("4,096 steps lent", SHOWN + rows((1, 7, 8)), ENDLESS, lent=4096),
    refused("4,095 steps lent", SHOWN + rows((1, 7, 8)), 12, 0, lent=4095),
    # shares at a half: document 02's other example and more
    case("three rules of eight fired", rules_fired(3, 8), SETTLES, fired=3, share=38),
    case("five rules of eight fired", rules_fired(5, 8), SETTLES, fired=5, share=62),
    case("seven rules of eight fired", rules_fired(7, 8), SETTLES, fired=7, share=88),
    case("one rule of 40 fired", rules_fired(1, 40), SETTLES, fired=1, share=2),
    case("one rule of 200 fired", rules_fired(1, 200), SETTLES, fired=1, share=0),
    # document 02: a 0 is not given, and equal to itself alone
    case("P(1,1) -> P(2,1), row 0 0", TWICE + rows((1, 0, 0)), SETTLES, 0, 1, 0, 0),
    case("P(1,1) -> P(2,1), rows 0 0, 0 0, 7 7", TWICE + rows((1, 0, 0), (1, 0, 0), (1, 7, 7)), SETTLES, 1, 2, 1, 100, row=3),
    case("endless if zeros were the same", NEXT + rows((1, 0, 0)), SETTLES, 0, 1, 0, 0),
    case("the same with 7 7", NEXT + rows((1, 7, 7)), ENDLESS, 0, 2, 2, 100, loop=2),
    case("a 0 carried to two fields", kinds(1, 2, 2) + rule((1, 1), (2, 1, 1)) + rule((2, 1, 1), (3, 1, 2)) + rows((1, 0)), SETTLES, 1, 3, 2, 100, 1, 2),
    case("a 0 carried to a loop", NEXT + rows((2, 7, 0)), ENDLESS, 0, 2, 2, 100, loop=2),
    # beyond the documents: longer ways, several H lines, several carried marks, value 0, equal rows and equal rules
    case("a chain of five kinds", kinds(1, 2, 2, 2, 2) + "".join(rule((k, *range(1, (k > 1) + 2)), (k + 1, (k > 1) + 1, (k > 1) + 2)) for k in range(1, 5)) + rows((1, 5)), SETTLES, 4, 5, 4, 100),
    case("four H lines that share a fresh mark", kinds(2, 3, 6) + rule((1, 1, 2), (2, 1, 3, 4), (2, 3, 3, 2), (3, 1, 2, 3, 4, 5, 1), (1, 3, 3)) + rows((1, 0, 0), (1, 0, 1)), ENDLESS),
    case("the larger of two carried values", kinds(1, 2, 2, 2) + rule((1, 1), (2, 1, 2)) + rule((2, 1, 2), (3, 1, 2), (3, 2, 3)) + rule((3, 1, 2), (4, 2, 3), (4, 1, 3)) + rows((1, 0)), SETTLES, 3),
    case("a loop of three after a trail", kinds(1, 1, 1, 2, 2, 2) + rule((1, 1), (2, 1)) + rule((2, 1), (3, 1)) + rule((3, 1), (4, 1, 1)) + rule((4, 1, 1), (5, 1, 2)) + rule((5, 1, 2), (6, 2, 1)) + rule((6, 1, 2), (4, 1, 1)) + rows((2, 9), (1, 9)), ENDLESS, shapes=6, fired=6, share=100, loop=3),
    case("equal rows, equal rules, one unfired", kinds(1, 2) + rule((1, 1), (2, 1, 2)) * 2 + rule((2, 1, 1), (1, 1)) + rows((1, 7), (1, 7), (1, 99999999)), SETTLES, 1, 2, 2, 67),
    # the example sheets
    case("examples/pallets.sheet", example("pallets"), SETTLES, 3),
    case("examples/loop.sheet", example("loop"), ENDLESS),
    case("examples/patterns.sheet", example("patterns"), SETTLES),
    case("examples/scans.sheet", example("scans"), SETTLES, 1, 3, 1, 100),
    refused("examples/refused.sheet", example("refused"), 5, 2),
]


def written(name, text, lent, letter, figures):
    assert len(name) <= 40 and len(text) <= 32769
    head = "C%9d%9d %-40s\n" % (len(text), lent, name)
    return head + letter + "".join("%9s" % ("" if n is None else n) for n in figures) + "\n" + text


def read(path):
    with open(path, "rb") as f:
        return f.read()


def tried(program):
    """Tries the program; says how much and what failed. An empty input has no sheets, only the patterns."""
    patterns_only = [at for at in read(PRINTED).splitlines(keepends=True) if at.startswith(b"pattern of ")]
    return failures(program, read(STORED), read(PRINTED), b"".join(patterns_only) + b"%d cases, all match\n" % len(patterns_only))


def main():
    made = "".join(written(*c) for c in CASES).encode("ascii")
    if sys.argv[1:2] != ["--check"]:
        with open(STORED, "wb") as f:
            f.write(made)
        return 0
    program = (sys.argv[2:] + [BUILT])[0]
    inputs, wrong = tried(program) if os.path.exists(program) else (0, [])
    for name in wrong:
        print("cases: %s" % name[:300])
    right = read(STORED) == made
    print(
        "cases: %d cases, the stored file is %s; %d inputs, %d failed"
        % (len(CASES), "up to date" if right else "not what would be written", inputs, len(wrong))
    )
    return 0 if right and not wrong else 1


if __name__ == "__main__":
    sys.exit(main())
