#!/usr/bin/env python3
"""Spells the repository's own definitions, constructors, fields and lemmas as today's Rattle spells its own: words in snake case, joined by '_'.

usage: python3 tools/port_names.py        once, at the top, after the script port.py of the kit

numbersOf -> numbers_of, fits-eight -> fits_eight, demand-1 -> demand_1. Types and modules keep their capitals, and so do the functions and the exported names of
src/, and every name that Rattle makes. The edits of must-fail/ and the names that the pages give in backquotes follow. A lemma that would have its function's name ends in _lem.
"""
import collections
import glob
import re
import sys

WORD = r"[^\s(){}.;,@\"«»\[\]\\`]+"
TOKEN = re.compile(r"--[^\n]*|\"(?:[^\"\\\n]|\\.)*\"|«[^»]*»|" + WORD)
DECLARED = re.compile(r"^(\s*)(?:(?:abbrev|unfoldable|pub) )*(" + WORD + r") +:(?=\s|$)")
# Words that the old library had, in the names of lemmas on them.
LIBRARY = {"getD": "get_or"}
# A field that would have the name of the function that it speaks of.
SAME = {"away_of"}


def read(path):
    with open(path, encoding="utf-8") as it:
        return it.read()


def snake(name):
    for old, new in LIBRARY.items():
        name = re.sub(rf"(?<![A-Za-z]){old}(?![a-z])", new, name)
    if re.match(r"[a-z]", name):
        while re.search(r"[a-z0-9][A-Z]", name):
            name = re.sub(r"(?<=[a-z0-9])([A-Z])", lambda it: "_" + it[1].lower(), name)
        return name.replace("-", "_")
    return name


def files(end):
    return sorted(
        it for part in ("specs", "proofs", "src") for it in glob.glob(f"crates/*/{part}/**/*{end}", recursive=True)
    )


def declared(text):
    """The names that a file declares: all, those below a record or a data type, and those of needs, which Rattle makes."""
    names, members, needs, below = set(), set(), set(), False
    for line in text.splitlines():
        if line.lstrip().startswith("--"):
            continue
        if line and not line[0].isspace():
            below = bool(re.match(r"(?:pub )?(?:record|data) ", line))
        found = DECLARED.match(line)
        if not found or found[2] in ("λ", "let", "in", "where"):
            continue
        if re.search(r"\b(tie\.(Need-|invariant-|decreases-)|goal\.)", line):
            needs.add(found[2])
            continue
        names.add(found[2])
        if below and found[1]:
            members.add(found[2])
    return names, members, needs


def main():
    texts = {it: read(it) for it in files(".antt")}
    names, members, needs = set(), set(), {}
    for path, text in texts.items():
        all, some, needs[path] = declared(text)
        names |= all
        members |= some
    turned = {it: snake(it) for it in names if snake(it) != it}
    heirs = collections.defaultdict(set)
    for it in names:
        heirs[turned.get(it, it)].add(it)
    for new, olds in sorted(heirs.items()):
        for it in olds:
            # A lemma that would have its function's name says that it is a lemma.
            if len(olds) > 1 and ("-" in it or it in SAME):
                turned[it] = new + "_lem"
        left = [it for it in olds if turned.get(it, it) == new]
        if len(left) > 1:
            print(f"one name in two modules: {', '.join(sorted(left))} -> {new}")

    def respelled(text, skipped, comments=True):
        def one(found):
            word = found[0]
            if word.startswith(("--", '"', "«")):
                if word.startswith("--") and comments:
                    return re.sub(r"(?<=`)" + WORD + r"(?=`)", lambda it: turned.get(it[0], it[0]), word)
                return word
            if word not in turned or word in skipped:
                return word
            before = text[max(0, found.start() - 60) : found.start()]
            if before.endswith("."):
                # A field of what is known at a place is named by Rattle, but for the fields of records of our own.
                owner = re.search(r"(" + WORD + r")\.\Z", before)
                if owner and owner[1] == "tie":
                    return word
                if "-" in word and word not in members and not (owner and owner[1][0].isupper()):
                    return word
            return turned[word]

        return TOKEN.sub(one, text)

    changed = 0
    for path, text in texts.items():
        new = respelled(text, needs[path])
        if new != text:
            changed += 1
            open(path, "w", encoding="utf-8").write(new)
    for path in files(".rt"):
        text = read(path)
        lines = [
            it if re.match(r"\s*//", it) else respelled(it, set(), False)
            for it in text.split("\n")
        ]
        new = "\n".join(lines)
        if new != text:
            changed += 1
            open(path, "w", encoding="utf-8").write(new)
    for path in sorted(glob.glob("crates/*/must-fail/*.edit")):
        text = read(path)
        lines = [
            it[:5] + respelled(it[5:], set(), False) if it.startswith(("old: ", "new: ")) else it
            for it in text.split("\n")
        ]
        new = "\n".join(lines)
        if new != text:
            changed += 1
            open(path, "w", encoding="utf-8").write(new)
    print(f"{len(turned)} names, {changed} files")
    if "--table" in sys.argv:
        import json

        json.dump(turned, open(sys.argv[sys.argv.index("--table") + 1], "w"), indent=0, sort_keys=True)


if __name__ == "__main__":
    main()
