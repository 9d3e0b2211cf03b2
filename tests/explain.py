"""Tries the explaining program: explain.py PROGRAM JUDGE

Computed examples and refused sheets are named with what must be printed: a sentence for each step of the trail and the loop, or N with number and line. For the
sheets of judge.py and of examples/, for long ones and for random ones it follows from what JUDGE, the judging program, prints: the sentences of its S lines, with
the kinds of the sheet's B and H lines; 24 where the sheet settles; the same refusal. Each text of sentences is read back, and must give the S lines again.
"""
import random
import re
import subprocess
import sys

import judge
from inputs import failures
from sheets import REFUSED, examples, line, parts, settling, sheet

SENTENCE = re.compile(r"Rule (\d+), H line (\d+): kind (\d+) field (\d+) to kind (\d+) field (\d+), (fresh|carried|reaching), (trail|loop)\.\n")
SETTLES = line("N", 24, 0)
REACHING = "Rule 1, H line 1: kind 1 field 0 to kind 1 field 0, reaching, trail.\n"


def told(text, judged):
    """What must be printed, by what the judging program prints."""
    if judged[0] == "N":
        return judged
    figures, *steps = [[int(n) for n in printed[1:].split()] for printed in judged.splitlines()]
    if figures[0] == 1:
        return SETTLES
    _, rules, _ = parts(text)
    said = ""
    for k, (rule, head, source, to, fresh) in enumerate(steps):
        lines = rules[rule - 1]
        manner = "fresh" if fresh == 1 else "reaching" if source == to == 0 else "carried"
        place = "trail" if k < figures[6] else "loop"
        said += "Rule %d, H line %d: kind %d field %d to kind %d field %d, %s, %s.\n" % (rule, head, lines[0][0], source, lines[head][0], to, manner, place)
    return said


def read_back(printed):
    """The trail's length and the S lines that sentences tell; None where the bytes are anything else, or the trail does not come first."""
    steps, places, at = "", [], 0
    while at < len(printed):
        found = SENTENCE.match(printed, at)
        if found is None:
            return None
        rule, head, _, source, _, to = map(int, found.groups()[:6])
        steps += line("S", rule, head, source, to, found[7] == "fresh")
        places.append(found[8])
        at = found.end()
    trail = places.count("trail")
    return (trail, steps) if places == ["trail"] * trail + ["loop"] * (len(places) - trail) else None


def judged_steps(judged):
    """The trail's length and the S lines that the judging program prints."""
    first, steps = judged.split("\n", 1)
    return int(first[1:].split()[6]), steps


def long(trail, loop, unused, width):
    """A row that leads through so many kinds to so many in a loop, each by the fourth H line of its rule, after so many rules that are not part of it. The loop's
    last rule makes a fresh number in the last field."""
    marks = " ".join(map(str, range(1, width + 1)))
    kinds = trail + loop
    text = "".join("K %d %d;" % (kind, width) for kind in range(1, kinds + 1)) + "K 64 1;" + "B 64 1; H 64 1;" * unused
    for kind in range(1, kinds + 1):
        then = kind + 1 if kind < kinds else trail + 1
        made = marks if kind < kinds else " ".join([str(width)] * (width - 1) + [str(width + 1)])
        text += "B %d %s;" % (kind, marks) + "H 64 1;" * 3 + "H %d %s;" % (then, made)
    return sheet(text + "R 1 %s;" % marks)


def mixed(draw):
    """A random sheet whose rules make any kind."""
    widths = [draw.randint(1, 4) for _ in range(draw.randint(1, 12))]
    text = "".join(line("K", kind, width) for kind, width in enumerate(widths, 1))
    for _ in range(draw.randint(1, 12)):
        body, marks, top = draw.randint(1, len(widths)), [], 0
        for _ in range(widths[body - 1]):
            marks.append(draw.randint(max(1, top), top + 1))
            top = max(top, marks[-1])
        text += line("B", body, *marks)
        for _ in range(draw.randint(1, 4)):
            head, marks = draw.randint(1, len(widths)), []
            for _ in range(widths[head - 1]):
                marks.append(draw.randint(1, min(12, top + (draw.random() < 0.3))))
                top = max(top, marks[-1])
            text += line("H", head, *marks)
    for _ in range(draw.choice([1, 3, 10])):
        kind = draw.randint(1, len(widths))
        text += line("R", kind, *(draw.randint(0, 4) for _ in range(widths[kind - 1])))
    return text


CASES = [
    ("P(1,2) -> P(3,1), row 7 7", sheet("K 1 2; B 1 1 2; H 1 3 1; R 1 7 7"), REACHING + "Rule 1, H line 1: kind 1 field 1 to kind 1 field 1, fresh, loop.\n"),
    ("empty text", "", SETTLES),
    ("P(1,2) -> P(2,3)", sheet("K 1 2; B 1 1 2; H 1 2 3; R 1 7 8"), "Rule 1, H line 1: kind 1 field 2 to kind 1 field 2, fresh, loop.\n"),
    ("P(1,2) -> P(1,3)", sheet("K 1 2; B 1 1 2; H 1 1 3; R 1 7 8"), SETTLES),
    (
        "P(1) -> Q(1,2), Q(1,2) -> P(2)",
        sheet("K 1 1; K 2 2; B 1 1; H 2 1 2; B 2 1 2; H 1 2; R 1 5"),
        "Rule 1, H line 1: kind 1 field 1 to kind 2 field 2, fresh, loop.\nRule 2, H line 1: kind 2 field 2 to kind 1 field 1, carried, loop.\n",
    ),
    ("512 shapes", judge.rows_of_shapes(512), SETTLES),
    ("513 shapes", judge.rows_of_shapes(513), line("N", 11, 0)),
]
# The first is refused by the other programs as endless.
CASES += REFUSED[1:]

LONG = [
    ("40 kinds before 23 in a loop, rules over 200", long(40, 23, 190, 4)),
    ("63 kinds in a loop, six fields", long(0, 63, 100, 6)),
    ("62 kinds before one in a loop", long(62, 1, 193, 2)),
]


def main():
    program, judging = sys.argv[1:3]
    draw = random.Random(1)
    asked = [(name, text) for name, text, _ in judge.CASES + list(examples(str))] + LONG
    asked += [("random sheet %d" % k, mixed(draw)) for k in range(300)] + [("random sheet that settles %d" % k, settling(draw)) for k in range(50)]
    failed = sentences = longest = endless = 0

    def printed_by(which, text):
        return subprocess.run([which], input=text.encode("latin-1"), stdout=subprocess.PIPE).stdout.decode("latin-1")

    def expect(name, good, seen):
        nonlocal failed
        if not good:
            failed += 1
            print("explain: %s: %s" % (name, seen))

    for name, text, want in CASES:
        got = printed_by(program, text)
        expect(name, got == want, "wanted %r, got %r" % (want[:200], got[:200]))
    for name, text in asked:
        judged, got = printed_by(judging, text), printed_by(program, text)
        want = told(text, judged)
        expect(name, got == want, "wanted %r, got %r" % (want[:200], got[:200]))
        if want[0] != "N":
            expect(name, read_back(got) == judged_steps(judged), "read back as %r" % (read_back(got),))
            endless += 1
            sentences += got.count("\n")
            longest = max(longest, max(map(len, got.splitlines(True)), default=0))
    good, empty = CASES[0], CASES[1]
    inputs, wrong = failures(program, good[1].encode("latin-1"), good[2].encode("latin-1"), empty[2].encode("latin-1"))
    for name in wrong:
        expect(name, False, "wrong")
    expect("the longest sentence", longest == 73, "%d bytes" % longest)
    count = len(CASES) + len(asked)
    print("explain: %d sheets, %d of them endless with %d sentences of at most %d bytes, and %d inputs, %d failed" % (count, endless, sentences, longest, inputs, failed))
    return 1 if failed else 0


sys.exit(main())
