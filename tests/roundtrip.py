"""Tries the program roundtrip on texts at and past every limit: roundtrip.py PROGRAM

A text that is a sheet must come back byte for byte; any other gives its refusal's number and line.
"""
import subprocess
import sys

from inputs import failures


def line(letter, *numbers):
    return letter + "".join("%9d" % n for n in numbers) + "\n"


def kinds(count, width=1):
    return "".join(line("K", k, width) for k in range(1, count + 1))


def rules(count, heads=1):
    return (line("B", 1, 1) + line("H", 1, 1) * heads) * count


def rows(count):
    return "".join(line("R", 1, v) for v in range(count))


ONE = line("K", 1, 1)
TWO = line("K", 1, 2)
EXAMPLE = TWO + line("B", 1, 1, 2) + line("H", 1, 2, 3) + line("R", 1, 7, 8)


def of_size(size):
    """A sheet of exactly so many bytes: lines have 20, 29, 38, 47, 56 or 65."""
    text = "".join(line("K", k, k) for k in range(1, 7))
    lengths = {k: 11 + 9 * k for k in range(1, 7)}
    left = size - len(text)
    best = {0: None}
    for at in range(left + 1):
        if at in best:
            for k, length in lengths.items():
                if at + length <= left and at + length not in best:
                    best[at + length] = k
    counts = []
    while left:
        k = best[left]
        counts.append(k)
        left -= lengths[k]
    return text, counts


def sized(size):
    text, counts = of_size(size)
    rows_of = "".join(line("R", k, *range(k)) for k in sorted(counts, reverse=True))
    assert len(text + rows_of) == size and len(counts) <= 1024
    return text + rows_of


# name, text, and the number and line of its refusal
CASES = [
    ("empty text", "", None),
    ("document 01's example", EXAMPLE, None),
    ("all four letters, widths 1 to 6", "".join(line("K", k, k) for k in range(1, 7)) + line("B", 6, 1, 2, 3, 4, 5, 6) + line("H", 6, 7, 8, 9, 10, 11, 12) * 4 + line("R", 3, 0, 99999999, 5), None),
    ("largest and smallest numbers", TWO + line("R", 1, 0, 99999999), None),
    ("kinds with gaps", line("K", 3, 1) + line("K", 64, 6) + line("R", 3, 9), None),
    # 1
    ("32,768 bytes", sized(32768), None),
    ("32,769 bytes", sized(32768) + "R", (1, 0)),
    ("32,769 bytes of noise", "\x00" * 32769, (1, 0)),
    ("far more than 32,768 bytes", ONE + "x" * 100000, (1, 0)),
    # 2
    ("no final byte 10", EXAMPLE[:-1], (2, 4)),
    ("no byte 10 at all", "K        1        2", (2, 1)),
    ("an empty line", ONE + "\n" + line("R", 1, 5), (2, 2)),
    ("a leading zero", TWO + "R        1       07        8\n", (2, 2)),
    ("a zero before a number of eight digits", TWO + "R        1        8 01234567\n", (2, 2)),
    ("eight zeros", ONE + "R        1 00000000\n", (2, 2)),
    ("nine digits", ONE + "R        1123456789\n", (2, 2)),
    ("a blank after a digit", ONE + "R        1      7 \n", (2, 2)),
    ("a blank within a number", ONE + "R        1      7 7\n", (2, 2)),
    ("a column of blanks", ONE + "R        1         \n", (2, 2)),
    ("a sign", ONE + "R        1       -7\n", (2, 2)),
    ("a tab", ONE + "R        1\t       7\n", (2, 2)),
    ("carriage return", ONE + "R        1        7\r\n", (2, 2)),
    ("lower case", "k        1        1\n", (2, 1)),
    ("unknown letter", ONE + "X        1        1\n", (2, 2)),
    ("K with one column", "K        1\n", (2, 1)),
    ("K with three columns", line("K", 1, 1, 1), (2, 1)),
    ("B with one column", ONE + line("B", 1), (2, 2)),
    ("R with eight columns", ONE + line("R", 1, 1, 2, 3, 4, 5, 6, 7), (2, 2)),
    ("form before place", line("H", 1) + ONE, (2, 1)),
    # 3
    ("K after a row", ONE + line("R", 1, 5) + line("K", 2, 1), (3, 3)),
    ("K after a rule", ONE + rules(1) + line("K", 2, 1), (3, 4)),
    ("H first", line("H", 1, 1), (3, 1)),
    ("H after a row", ONE + line("R", 1, 1) + line("H", 1, 1), (3, 3)),
    ("B after B", ONE + line("B", 1, 1) + line("B", 1, 1), (3, 3)),
    ("B after a row", ONE + line("R", 1, 1) + line("B", 1, 1), (3, 3)),
    ("R after B", ONE + line("B", 1, 1) + line("R", 1, 1), (3, 3)),
    ("a rule without H at the end", ONE + line("B", 1, 1), (3, 3)),
    ("place before kind", ONE + line("H", 9, 1), (3, 2)),
    # 4
    ("kind 0", line("K", 0, 1), (4, 1)),
    ("kind 65", line("K", 65, 1), (4, 1)),
    ("kinds that do not rise", ONE + line("K", 1, 1), (4, 2)),
    ("kinds that fall", line("K", 2, 1) + line("K", 1, 1), (4, 2)),
    ("width 0", line("K", 1, 0), (4, 1)),
    ("width 7", line("K", 1, 7), (4, 1)),
    ("kind not declared", ONE + line("R", 2, 5), (4, 2)),
    ("kind far past the last", ONE + line("R", 99999999, 5), (4, 2)),
    ("a column too many", ONE + line("R", 1, 5, 6), (4, 2)),
    ("a column too few", TWO + line("R", 1, 5), (4, 2)),
    ("kind before mark", ONE + line("B", 2, 5), (4, 2)),
    # 5
    ("first mark not 1", ONE + line("B", 1, 2) + line("H", 1, 1), (5, 2)),
    ("mark 0", ONE + line("B", 1, 0) + line("H", 1, 1), (5, 2)),
    ("a mark that skips one", TWO + line("B", 1, 1, 3) + line("H", 1, 1, 1), (5, 2)),
    ("a mark of an H line that skips one", TWO + line("B", 1, 1, 1) + line("H", 1, 1, 3), (5, 3)),
    ("marks begin anew with each rule", TWO + (line("B", 1, 1, 2) + line("H", 1, 3, 4)) * 2, None),
    ("marks that do not begin anew", TWO + line("B", 1, 1, 2) + line("H", 1, 3, 4) + line("B", 1, 5, 5), (5, 4)),
    ("mark 13", kinds(1, 6) + line("B", 1, 1, 2, 3, 4, 5, 6) + line("H", 1, 7, 8, 9, 10, 11, 12) + line("H", 1, 13, 1, 1, 1, 1, 1), (5, 4)),
    ("mark before count", ONE + rules(1, 4) + line("H", 1, 9), (5, 7)),
    # 6
    ("four H lines", ONE + rules(1, 4), None),
    ("five H lines", ONE + rules(1, 5), (6, 7)),
    ("five H lines in a second rule", ONE + rules(1) + rules(1, 5), (6, 9)),
    ("256 rules", ONE + rules(256), None),
    ("257 rules", ONE + rules(257), (6, 514)),
    ("1,024 rows", ONE + rows(1024), None),
    ("1,025 rows", ONE + rows(1025), (6, 1026)),
    # 7: 1,540 lines are lent
    ("1,540 lines", kinds(4) + rules(256) + rows(1024), None),
    ("1,541 lines", kinds(5) + rules(256) + rows(1024), (7, 1541)),
    ("1,600 lines", kinds(64) + rules(256) + rows(1024), (7, 1541)),
    ("an earlier refusal before 7", kinds(64) + rules(256) + rows(1024) + "x\n", (2, 1601)),
]


def main():
    program = sys.argv[1]
    failed = 0
    for name, text, refusal in CASES:
        want = text if refusal is None else line("N", *refusal)
        got = subprocess.run([program], input=text.encode("latin-1"), stdout=subprocess.PIPE).stdout.decode("latin-1")
        if got != want:
            failed += 1
            print("roundtrip: %s: wanted %r, got %r" % (name, want[:60], got[:60]))
    tried, wrong = failures(program, EXAMPLE.encode("latin-1"), EXAMPLE.encode("latin-1"), b"")
    for name in wrong:
        failed += 1
        print("roundtrip: %s" % name)
    print("roundtrip: %d texts and %d inputs, %d failed" % (len(CASES), tried, failed))
    return 1 if failed else 0


sys.exit(main())
