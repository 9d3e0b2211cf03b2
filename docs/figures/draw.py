"""Draws pipeline.svg and rule.svg beside this file: draw.py [--check]

With --check nothing is written: it fails where a stored picture is not what would be drawn.
"""
import os
import sys
from xml.sax.saxutils import escape

HERE = os.path.dirname(os.path.abspath(__file__))
INK, SOFT, FRESH, CARRIED, PAPER = "#222", "#777", "#b3541e", "#1f5f99", "#f4f6f8"
MONO = ' font-family="monospace" xml:space="preserve"'


class Picture:
    def __init__(self, width, height, title):
        self.parts = [
            '<svg xmlns="http://www.w3.org/2000/svg" viewBox="0 0 %d %d" width="%d" height="%d" font-family="sans-serif" font-size="13">'
            % (width, height, width, height),
            "<title>%s</title>" % escape(title),
            '<rect width="%d" height="%d" fill="white"/>' % (width, height),
        ]

    def text(self, x, y, words, size=13, anchor="middle", colour=INK, more=""):
        self.parts.append('<text x="%g" y="%g" font-size="%g" text-anchor="%s" fill="%s"%s>%s</text>' % (x, y, size, anchor, colour, more, escape(words)))

    def box(self, x, y, width, height, fill=PAPER, edge=SOFT):
        self.parts.append('<rect x="%g" y="%g" width="%g" height="%g" rx="5" fill="%s" stroke="%s"/>' % (x, y, width, height, fill, edge))

    def arrow(self, path, x, y, way, colour=INK, dash=""):
        """A line along the path and a head at (x, y) that points right, left or down."""
        self.parts.append('<path d="%s" fill="none" stroke="%s" stroke-width="1.5"%s/>' % (path, colour, dash))
        head = {"right": "l-8 -4 v8 z", "left": "l8 -4 v8 z", "down": "l-4 -8 h8 z"}[way]
        self.parts.append('<path d="M%g %g %s" fill="%s"/>' % (x, y, head, colour))

    def svg(self):
        return "\n".join(self.parts + ["</svg>"]) + "\n"


def pipeline():
    """From a sheet's text to the steps, with document 01's example; the crates below."""
    picture = Picture(880, 308, "From text to steps")
    # x, width, name, what it is, sample
    stages = [
        (10, 204, "text", "bytes, lent by the caller", ["K        1        2", "B        1        1        2", "H        1        2        3", "R        1        7        8"]),
        (266, 138, "lines", "eight numbers each", ["75 1 2 0 0 0 0 0", "66 1 1 2 0 0 0 0", "72 1 2 3 0 0 0 0", "82 1 7 8 0 0 0 0"]),
        (456, 108, "shapes", "kind and pattern", ["1, 1 2", "", "at most 512"]),
        (616, 120, "verdict", "and its figures", ["endless", "row 1, trail 0,", "loop 1"]),
        (788, 82, "steps", "five each", ["1 1 2 2 1"]),
    ]
    for x, width, name, kind, sample in stages:
        picture.box(x, 44, width, 128)
        picture.text(x + width / 2, 64, name, 15, more=' font-weight="bold"')
        picture.text(x + width / 2, 81, kind, 11, colour=SOFT)
        for k, words in enumerate(sample):
            picture.text(x + 8, 106 + 17 * k, words, 11, "start", more=MONO)
    # the arrows between them: what is done, and by which crates
    passes = [(214, 266, "read"), (404, 456, "search"), (564, 616, "follow"), (736, 788, "trace")]
    for left, right, does in passes:
        picture.arrow("M%g 96 H%g" % (left + 4, right - 10), right - 4, 96, "right")
        picture.text((left + right) / 2, 88, does, 12)
    picture.arrow("M262 136 H224", 218, 136, "left")
    picture.text(240, 128, "write", 12)
    # the crates
    bands = [(10, 394, "walker, columns, sheet"), (410, 326, "patterns, judging"), (742, 128, "judging, steps")]
    for x, width, crates in bands:
        picture.parts.append('<path d="M%g 186 v6 h%g v-6" fill="none" stroke="%s"/>' % (x, width, SOFT))
        picture.text(x + width / 2, 208, crates, 12, colour=SOFT)
    # who calls it, and what is refused
    picture.box(10, 224, 860, 48, "white")
    picture.text(440, 243, "followup: reading, writing, patterns and judging for a program in C", 12)
    picture.text(440, 261, "judge: the program, from standard input to V and S lines, or N", 12)
    picture.text(440, 294, "Refused with a number and a line: read 1 to 7; write 8, 1, 9; pattern 10; judge 12, 8, 11.", 12, colour=SOFT)
    picture.text(440, 24, "A sheet on its way: from its text to the verdict and the steps that show it", 14)
    return picture.svg()


def rule():
    """Rule 1 of examples/bank_day.sheet: two records with arrows."""
    picture = Picture(720, 330, "A rule drawn as two records")
    picture.text(20, 26, "B        1        1        2        3        4", 13, "start", more=MONO)
    picture.text(20, 46, "H        2        5        1        4", 13, "start", more=MONO)
    picture.text(410, 26, "when a pallet lands,", 13, "start")
    picture.text(410, 46, "make a batch with a fresh number", 13, "start")

    def record(y, kind, fields, left):
        picture.text(left - 14, y + 33, kind, 14, "end", more=' font-weight="bold"')
        for k, (name, mark, value, colour) in enumerate(fields):
            x = left + 130 * k
            picture.box(x, y, 120, 54, PAPER, colour)
            picture.text(x + 8, y + 17, "field %d" % (k + 1), 10, "start", SOFT)
            picture.text(x + 112, y + 17, "mark %d" % mark, 10, "end", colour)
            picture.text(x + 60, y + 32, name, 13)
            picture.text(x + 60, y + 48, value, 12, colour=colour, more=MONO)

    record(76, "pallet", [("pallet", 1, "1001", CARRIED), ("sender", 2, "201", SOFT), ("bank", 3, "31", SOFT), ("goods", 4, "402", CARRIED)], 120)
    record(232, "batch", [("batch", 5, "fresh", FRESH), ("origin", 1, "1001", CARRIED), ("goods", 4, "402", CARRIED)], 120)
    # carried marks
    picture.arrow("M196 130 C206 180 306 170 306 222", 306, 230, "down", CARRIED)
    picture.arrow("M580 130 C580 190 442 165 442 222", 442, 230, "down", CARRIED)
    # the fresh number depends on the carried values
    dash = ' stroke-dasharray="5 4"'
    picture.arrow("M156 130 V222", 156, 230, "down", FRESH, dash)
    picture.parts.append('<path d="M552 130 C540 186 220 172 184 222" fill="none" stroke="%s" stroke-width="1.5"%s/>' % (FRESH, dash))
    picture.parts.append('<path d="M180 230 l1 -9 l7 4 z" fill="%s"/>' % FRESH)
    picture.text(20, 318, "blue: carried from field to field", 12, "start", CARRIED)
    picture.text(250, 318, "brown: fresh, fixed by the carried numbers", 12, "start", FRESH)
    picture.text(548, 318, "grey: goes no further", 12, "start", SOFT)
    return picture.svg()


def main():
    stale = []
    for name, drawn in (("pipeline.svg", pipeline()), ("rule.svg", rule())):
        path = os.path.join(HERE, name)
        if sys.argv[1:] == ["--check"]:
            with open(path, encoding="utf-8") as f:
                if f.read() != drawn:
                    stale.append(name)
        else:
            with open(path, "w", encoding="utf-8") as f:
                f.write(drawn)
    for name in stale:
        print("draw: %s is not what draw.py draws" % name)
    return 1 if stale else 0


sys.exit(main())
