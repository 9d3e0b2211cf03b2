"""Keeps docs/CHECKING.md and docs/PROMISES.md true: pages.py [--write]

The reading list of CHECKING.md names every file of definitions that a contract of a public function cites, each after those that it cites itself, with its
number of lines. A file that cites one that is not listed before it fails the test, and so does a file of definitions that no list has.
Every file and every must-fail edit that PROMISES.md names is there, and every edit that is there is named.
With --write the tables of the reading list are written anew.
"""
import glob
import os
import re
import sys

ROOT = os.path.join(os.path.dirname(os.path.abspath(__file__)), "..")
PAGE = os.path.join(ROOT, "docs", "CHECKING.md")

# What the contracts of public functions say, in reading order.
CONTRACTS = [
    ("patterns/specs/Lists.antt", "members of lists, and their numbers"),
    ("patterns/specs/Outcome.antt", "a good answer or a numbered refusal, and lent memory after a call"),
    ("patterns/specs/Pattern.antt", "patterns, their numbers and digits; a 0 is no label"),
    ("walker/specs/Walk.antt", "a text's lines, and what a walker hands out"),
    ("columns/specs/Column.antt", "a number and its nine bytes"),
    ("sheet/specs/Line.antt", "a line, its text and its eight lent numbers"),
    ("sheet/specs/Sheet.antt", "when lines are a sheet"),
    ("sheet/specs/Answer.antt", "the number and line of each refusal"),
    ("sheet/specs/Read.antt", "what Read answers: `ReadMeets`"),
    ("sheet/specs/Write.antt", "what Write answers: `WriteMeets`; the sheet that lent lines are"),
    ("chase/specs/Lists.antt", "lists place by place, the largest of some numbers, and decisions that compute"),
    ("chase/specs/Rules.antt", "a sheet's rules and rows"),
    ("chase/specs/Value.antt", "values of the table, missing and fresh ones; generations"),
    ("chase/specs/Making.antt", "when a rule fires, and what it makes"),
    ("chase/specs/Run.antt", "what a row means; firings, runs, reachable records"),
    ("chase/specs/Shape.antt", "shapes, and which are reached"),
    ("chase/specs/Counting.antt", "how many there are; the share"),
    ("chase/specs/Steps.antt", "steps, trails and loops"),
    ("chase/specs/Judge.antt", "the whole contract of Judge: `JudgeMeets`"),
    ("rules/specs/Table.antt", "the table of rules: 64 bytes for each rule"),
    ("rules/specs/Answer.antt", "what `rules_of` answers: `RulesMeet`"),
    ("arithmetic/specs/Capped.antt", "numbers up to a cap, and polynomials"),
    ("judging/specs/Answer.antt", "document 01's numbers for the judge's answers"),
    ("carrying/specs/Carrying.antt", "the rules carried out: numbers for the zeros, which records are visited, and what each visit adds"),
    ("carrying/specs/Meaning.antt", "what the run's numbers mean: the chase, renamed one-to-one"),
    ("carrying/specs/Contract.antt", "the whole contract of carrying the rules out: `CarryMeets`"),
    ("running/specs/Held.antt", "how a run holds its records"),
    ("running/specs/Run.antt", "the contract of a run without a verdict: `RunMeets`"),
    ("running/specs/Answer.antt", "the paper's numbers for the answers of carrying out"),
    ("growth/specs/Forecast.antt", "the forecast: the three figures of a sheet that settles"),
    ("growth/specs/Contract.antt", "the whole contract of the forecast: `ForecastMeets`"),
    ("forecasting/specs/Answer.antt", "the paper's numbers for the answers of the forecast"),
    ("sentences/specs/Decimal.antt", "a number in decimal, unpadded"),
    ("sentences/specs/Sentence.antt", "the sentence of a step, the text of a trail and a loop"),
    ("sentences/specs/Explain.antt", "the whole contract of explaining: `ExplainMeets`"),
    ("explaining/specs/Answer.antt", "the paper's numbers for the answers of explaining"),
    ("steps/specs/Showing.antt", "steps as records"),
    ("report/specs/Lines.antt", "a line of a letter and numbers, put into lent text"),
    ("report/specs/Report.antt", "what the judging program prints"),
    ("listing/specs/Listing.antt", "what the carrying program prints"),
    ("outlook/specs/Outlook.antt", "what the forecasting program prints"),
    ("explanation/specs/Explanation.antt", "what the explaining program prints"),
    ("console/specs/Input.antt", "a program's input: how much of the buffer it fills"),
    ("console/specs/Run.antt", "what a program's report of its input answers"),
    ("followup/specs/Bytes.antt", "numbers as bytes"),
    ("followup/specs/Reply.antt", "the entry points for C"),
]

# What the theorems for a reader say beside these.
THEOREMS = [
    ("patterns/specs/PatternTable.antt", "the test of the table of patterns, and the order of patterns"),
    ("walker/specs/Handed.antt", "what a walk along a text hands out"),
    ("sheet/specs/Refusals.antt", "why a text or lent lines are refused, said in lines and their texts alone"),
    ("chase/specs/Rounding.antt", "the nearest whole number, without a formula for it"),
    ("chase/specs/Homomorphism.antt", "document 000's substitutions, frontier and nulls"),
    ("chase/specs/Chase.antt", "document 000's triggers and derivations, document 002's stages"),
    ("chase/specs/Certificate.antt", "what makes a verdict right, shape by shape"),
    ("chase/specs/Simplification.antt", "document 002's dynamic simplification"),
    ("chase/specs/Cases.antt", "the documents' cases"),
    ("chase/specs/Filled.antt", "a table with its zeros filled"),
    ("carrying/specs/Sheets.antt", "small sheets with their records and firings"),
    ("growth/specs/Counted.antt", "what the figures are said of: values, records and pairs of every run"),
    ("growth/specs/Sheets.antt", "small sheets with their figures"),
    ("sentences/specs/Reader.antt", "how a text of sentences is read back"),
]


def text_of(path):
    with open(os.path.join(ROOT, path), encoding="utf-8") as f:
        return f.read()


def cited(path):
    """The files of definitions of this repository that a file cites; types declared in the code stand there."""
    found = set()
    for name, module in re.findall(r"Rattle\.(\w+)\.specs\.([A-Za-z.]+)\.\{", text_of("crates/" + path)):
        if not module.startswith("declared.") and os.path.isdir(os.path.join(ROOT, "crates", name)):
            found.add("%s/specs/%s.antt" % (name, module.replace(".", "/")))
    return found - {path}


def table(rows):
    lines = ["| File | Lines | What it says |", "|---|---:|---|"]
    for path, words in rows:
        lines.append("| [%s](../crates/%s) | %d | %s |" % (path, path, text_of("crates/" + path).count("\n"), words))
    lines.append("| together | %d | |" % sum(text_of("crates/" + path).count("\n") for path, _ in rows))
    return "\n".join(lines) + "\n"


def edits_named(page):
    """The must-fail edits that the last column of PROMISES.md's tables names, as paths below crates/."""
    crates = "|".join(name for name in sorted(os.listdir(os.path.join(ROOT, "crates"))))
    for row in page.split("\n"):
        if row.startswith("|"):
            for crate, words in re.findall(r"\b(%s): ([a-z0-9_*, ]+)" % crates, row.split("|")[-2]):
                for edit in words.replace(" ", "").split(","):
                    if edit and edit != "all":
                        yield "%s/%s/%s.edit" % (crate, "more-edits" if edit.endswith("*") else "must-fail", edit.rstrip("*"))


def promises():
    """What is wrong with PROMISES.md."""
    page = text_of("docs/PROMISES.md")
    for path in sorted(set(re.findall(r"\]\(\.\./(crates/[^)]+)\)", page))):
        if not os.path.exists(os.path.join(ROOT, path)):
            yield "PROMISES.md names %s, which is not there" % path
    named = set(edits_named(page))
    there = {os.path.relpath(path, os.path.join(ROOT, "crates")) for kind in ("must-fail", "more-edits")
             for path in glob.glob(os.path.join(ROOT, "crates", "*", kind, "*.edit"))}
    for path in sorted(named - there):
        yield "PROMISES.md names the edit %s, which is not there" % path
    for path in sorted(there - named):
        yield "PROMISES.md does not name the edit %s" % path


def main():
    failed = list(promises())
    seen = set()
    for path, _ in CONTRACTS + THEOREMS:
        for other in sorted(cited(path) - seen):
            failed.append("%s cites %s, which is not listed before it" % (path, other))
        seen.add(path)
    for path in glob.glob(os.path.join(ROOT, "crates", "*", "specs", "*.antt")):
        name = os.path.relpath(path, os.path.join(ROOT, "crates"))
        if name not in seen and not name.endswith("/Lib.antt") and not name.endswith("/Inner.antt"):
            failed.append("%s stands in no list" % name)
    page = text_of("docs/CHECKING.md")
    new = page
    for mark, rows in (("contracts", CONTRACTS), ("theorems", THEOREMS)):
        begin, end = "<!-- %s -->\n" % mark, "<!-- end of %s -->" % mark
        i, j = new.index(begin) + len(begin), new.index(end)
        new = new[:i] + table(rows) + new[j:]
    if "--write" in sys.argv[1:]:
        with open(PAGE, "w", encoding="utf-8") as f:
            f.write(new)
    elif new != page:
        failed.append("docs/CHECKING.md: the tables are not true any more; run tests/pages.py --write")
    for what in failed:
        print("pages: " + what)
    print("pages: %d files of definitions, %d failed" % (len(seen), len(failed)))
    return 1 if failed else 0


if __name__ == "__main__":
    sys.exit(main())
