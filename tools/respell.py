#!/usr/bin/env python3
"""Brings the repository's own definitions and lemmas to one spelling: respell.py [--check] [ROOT]

Words are in snake case, types and modules in camel case. `placeByte` becomes `place_byte`, `columnFor-read` becomes `column_for-read`.
A dash stands between two names, or behind a type; a plain word hangs on by `_`: `length-column_for`, but `begins_blank`.
It goes by whole words, in .antt files, in the clauses and `ghost use` items of .rt files, in .edit files and in the code spans of pages.
Names that a file takes from the kit stay, and so do the names that Rattle makes for a function's proof. Names that would fall together are
printed, and keep their dash. It is for one run, right after the kit's own script; a second run would give a few names another ending.
"""
import collections
import glob
import os
import re
import sys

WORD = re.compile(r'[^\s(){}.;,@"«»`\[\]\\|<>]+')
CAMEL = re.compile(r"(?<![A-Za-z0-9])[a-z][a-z0-9]*(?:[A-Z][a-z0-9]*)+(?![a-z0-9])")
SIGNATURE = re.compile(r'^(\s*)((?:pattern |unfoldable |abbrev |pub |axiom )*)([^\s(){}.;,@"«»:=]+(?: [^\s(){}.;,@"«»:=]+)*)(?: \{[^}]*\})? :(?=\s)')
TYPE = re.compile(r'^\s*(?:pattern |unfoldable |abbrev |pub )*(?:data|record) ([^\s(){}.;,@"«»:]+)')
USE = re.compile(r"^\s*(?:pub )?(?:ghost )?use (\S+?)\.\{([^}]*)\}", re.M)
# Words that are names wherever they stand in a lemma's name: the kit's functions, and the words for operators.
NAMES = set("""add sub mul div mod pow suc zero le lt eq ne append length take drop map get_or set replicate reverse min max cond eqb leb ltb
and or not_b fold sum concat filter paste slice some none fst snd mem nil cons inl inr""".split())
# Plain words, also where a definition has that name.
PLAIN = set("""at in of is are to by from no not on as same first last new old other one two all some more before after again with for the a an it so up
right left low high small large few many none nothing here there given good read shown told known back only once too short long whole
again next end ends each any both either less least most over under between within without out into onto when where""".split()) - {"some", "none"}


# Lemmas that would have a definition's new name.
LEMMAS = {it: it + "_lem" for it in ("digits_from", "filled_row", "first_field", "fresh_in", "head_byte", "in_place")}


def snake(word):
    """A word that begins in lower case, with `_` before each capital."""
    return CAMEL.sub(lambda m: re.sub(r"[A-Z]+", lambda c: "_" + c[0].lower(), m[0]), word)


def files(root):
    for pattern in ("crates/*/specs/**/*.antt", "crates/*/proofs/**/*.antt"):
        yield from sorted(glob.glob(os.path.join(root, pattern), recursive=True))


def read(path):
    with open(path, encoding="utf-8") as f:
        return f.read()


def is_walk(path):
    """The proof of a function, which names what Rattle makes for it."""
    return os.path.basename(path) in ("Proof.antt", "Answers.antt", "Invariants.antt") and os.path.basename(os.path.dirname(path)) != "proofs"


def declared(root):
    """The names that the files declare, those of definitions among them, and the fields of records."""
    names, definitions, fields, types = set(), set(), set(), set()
    for path in files(root):
        record = None
        for line in read(path).split("\n"):
            if line.lstrip().startswith("--"):
                continue
            m = TYPE.match(line)
            if m:
                names.add(m[1])
                types.add(m[1])
                record = len(line) - len(line.lstrip())
                continue
            if line.strip() and record is not None and len(line) - len(line.lstrip()) <= record:
                record = None
            m = SIGNATURE.match(line)
            if not m or (is_walk(path) and re.search(r": tie\.", line)):
                continue
            words = m[3].split()
            names.update(words)
            if record is not None:
                fields.update(words)
            elif "/specs/" in path:
                definitions.update(words)
    return names, definitions, fields, types


def joined(word, names, types):
    """A lemma's name with `_` for each dash that does not join two names."""
    parts = word.split("-")
    out = parts[0]
    for before, part in zip(parts, parts[1:]):
        is_name = lambda it: (it in names or it[:1].isupper() or "_" in it and it in names) and it not in PLAIN
        keep = not part or not before or (is_name(before) and is_name(part)) or before[:1].isupper() and before == parts[0]
        out += ("-" if keep else "_") + part
    return out


def table(root):
    names, definitions, fields, types = declared(root)
    proofs = set()
    for path in files(root):
        if is_walk(path):
            proofs.update(re.findall(r"^pub (\S+-spec) ", read(path), re.M))
    kit, ours = set(), set(os.listdir(os.path.join(root, "crates")))
    for path in files(root):
        for module, items in USE.findall(read(path)):
            m = re.match(r"Rattle\.(\w+)\.", module + ".")
            if not (m and m[1] in ours):
                kit.update(it.strip().split(" ")[0] for it in items.split(","))
    words = collections.Counter()
    for path in files(root):
        words.update(WORD.findall(read(path)))
    simple = {snake(it) for it in definitions | types if "-" not in it} | NAMES
    new = dict(LEMMAS)
    for it in sorted(words):
        if it in kit or it in new or it.startswith("--") or not re.match(r"[A-Za-zℓκαβ]", it):
            continue
        if it in proofs:
            new[it] = it.replace("-", "_")
            continue
        if it in names or (CAMEL.fullmatch(it.rstrip("'?₀₁₂")) and "-" not in it):
            to = re.sub(r"(?<![A-Za-z])getD(?![A-Za-z])", "get_or", it)
            to = snake(to)
            if "-" in to and to[:1] != "-":
                to = joined(to, simple, types)
            if to != it:
                new[it] = to
    # Names that fall together, with one another or with a word that stands already, keep their dash; where that does not help, they are printed.
    while True:
        to = collections.defaultdict(set)
        for it in words:
            to[new.get(it, it)].add(it)
        clash = {k: v for k, v in to.items() if len(v) > 1}
        moved = False
        for k, v in sorted(clash.items()):
            for it in sorted(v):
                if it in new and "-" in it and snake(it) != new[it]:
                    print("clash: %s: %s keeps its dash" % (" ".join(sorted(v)), it))
                    if snake(it) == it:
                        del new[it]
                    else:
                        new[it] = snake(it)
                    moved = True
        if not moved:
            break
    for k, v in sorted(clash.items()):
        print("clash: %s -> %s" % (" ".join(sorted(v)), k))
    return new, fields


def turned(text, new, fields, walk, kit=()):
    def one(m):
        word = m[0]
        if word not in new or word in kit:
            return word
        if walk and m.string[m.start() - 1 : m.start()] == ".":
            if word not in fields or ("-" in word and re.search(r"-(is|requires|test|size)$|^(loop|if|in)-", word)):
                return word
        return new[word]

    return WORD.sub(one, text)


def kit_names(text, ours):
    found = set()
    for module, items in USE.findall(text):
        m = re.match(r"Rattle\.(\w+)\.", module + ".")
        if not (m and m[1] in ours):
            found.update(it.strip().split(" ")[0] for it in items.split(","))
    return found


def ghost(text, turn):
    """The clauses, ghost blocks and `ghost use` items of a .rt file, turned; and the code spans of its comments."""
    out, i = [], 0
    start = re.compile(r"(?:requires|ensures)\s*\*?\s*(?:\w+\s*)?\{|ghost\s+use\b[^;]*;|ghost\s*(?:\w+\s*(?::\s*)?)?\{")
    while True:
        m = start.search(text, i)
        if not m:
            out.append(text[i:])
            return "".join(out)
        out.append(text[i : m.start()])
        end = m.end()
        if m[0].endswith("{"):
            depth = 1
            while depth:
                depth += {"{": 1, "}": -1}.get(text[end], 0)
                end += 1
        out.append(turn(text[m.start() : end]))
        i = end


def modules(root, check):
    """Modules are in camel case: the folder specs/inner is specs/Inner."""
    for folder in sorted(glob.glob(os.path.join(root, "crates/*/specs/inner"))):
        print(folder)
        if not check:
            os.rename(folder, os.path.join(os.path.dirname(folder), "Inner"))
            os.rename(folder + ".antt", os.path.join(os.path.dirname(folder), "Inner.antt"))
    if check:
        return
    for pattern in ("crates/*/specs/**/*.antt", "crates/*/proofs/**/*.antt", "crates/*/src/**/*.rt", "crates/*/m*/*.edit", "docs/*.md", "tests/*.py"):
        for path in glob.glob(os.path.join(root, pattern), recursive=True):
            old = read(path)
            text = re.sub(r"specs([./])inner(?=[./]|\b)", r"specs\1Inner", old)
            text = re.sub(r"^pub mod inner$", "pub mod Inner", text, flags=re.M).replace('"/inner.antt"', '"/Inner.antt"')
            if text != old:
                with open(path, "w", encoding="utf-8") as f:
                    f.write(text)


def main():
    args = [it for it in sys.argv[1:] if not it.startswith("--")]
    check = "--check" in sys.argv
    root = args[0] if args else os.path.join(os.path.dirname(os.path.abspath(__file__)), "..")
    ours = set(os.listdir(os.path.join(root, "crates")))
    new, fields = table(root)
    print("%d words" % len(new))
    if "--table" in sys.argv:
        for it in sorted(new):
            print("%s\t%s" % (it, new[it]))
    changed = 0

    def write(path, text, old):
        nonlocal changed
        if text != old:
            changed += 1
            if not check:
                with open(path, "w", encoding="utf-8") as f:
                    f.write(text)

    for path in files(root):
        old = read(path)
        write(path, turned(old, new, fields, is_walk(path), kit_names(old, ours)), old)
    for path in sorted(glob.glob(os.path.join(root, "crates/*/src/**/*.rt"), recursive=True)):
        old = read(path)
        write(path, ghost(old, lambda t: turned(t, new, fields, False)), old)
    for path in sorted(glob.glob(os.path.join(root, "crates/*/m*/*.edit"))):
        old = read(path)
        write(path, turned(old, new, fields, True), old)
    for path in sorted(glob.glob(os.path.join(root, "*.md")) + glob.glob(os.path.join(root, "docs/*.md")) + glob.glob(os.path.join(root, "*/README.md"))):
        old = read(path)
        write(path, re.sub(r"`[^`\n]+`", lambda m: turned(m[0], new, fields, False), old), old)
    print("%d files" % changed)
    modules(root, check)


main()
