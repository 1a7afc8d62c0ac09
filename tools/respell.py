#!/usr/bin/env python3
"""Turns this repository's own definitions, lemmas, fields and constructors to today's spelling, once, after the kit's port.py.

usage: python3 tools/respell.py        at the top of the repository
       python3 tools/respell.py --list old and new names, and where two fall together; nothing is written

Types and facts are in upper camel case (`Groups-restore` is `GroupsRestore`), everything else in snake case (`topReach` is `top_reach`,
the lemma `count-held` is `count_held`). Names are found where specs/ and proofs/ define them. Names that Rattle makes (goals in Answers.antt and
Invariants.antt), functions of src/, strings, inputs and outputs keep their spelling.
"""

import os
import re
import sys

WORD = re.compile(r"(?<![\w'-])[A-Za-z](?:[\w']|-(?=[\w']))*")
SIGNATURE = re.compile(r"^\s*(?:\| )?(?:(?:abbrev|unfoldable|pub|data|record)\s+)*([A-Za-z][\w'-]*)\s+(?:\([^=]*\)\s*|\{[^=]*\}\s*)*:\s+(.*)$")


# lemmas on a definition that would get its name
LEMMAS = {"is-nil": "is_nil_lem", "list-nodes": "list_nodes_lem", "nodes-taken": "nodes_taken_lem"}

# names that an import gives, with `as`
ALIASES = ("topCells", "dimensionText", "restoringLine", "retainingLine")


def new_name(old):
    if old in LEMMAS:
        return LEMMAS[old]
    if old[0].isupper():
        return "".join("Tex" if part == "TeX" else part[0].upper() + part[1:] for part in old.split("-"))
    return re.sub(r"(?<=[a-z0-9])([A-Z])", lambda m: "_" + m[1].lower(), old.replace("-", "_"))


def files(root, kinds):
    for top in ("crates", "docs", "tools", "README.md"):
        path = os.path.join(root, top)
        if os.path.isfile(path):
            yield path
        for folder, dirs, names in os.walk(path):
            dirs[:] = sorted(d for d in dirs if d not in ("out", ".git"))
            for name in sorted(names):
                if name.endswith(kinds):
                    yield os.path.join(folder, name)


def made(path):
    return os.path.basename(path) in ("Answers.antt", "Invariants.antt", "Proof.antt") and f"{os.sep}proofs{os.sep}" in path and os.path.basename(os.path.dirname(path)) != "proofs"


def defined(path):
    """The names that a file of specs/ or proofs/ defines, without goals."""
    with open(path, encoding="utf-8") as f:
        for line in f:
            m = SIGNATURE.match(line)
            if m and not (made(path) and re.match(r"(goal|given)\.", m[2])):
                yield m[1]


def table(root):
    names = {old: (new_name(old), {"by an import"}) for old in ALIASES}
    goals = set()
    for path in files(root, (".antt",)):
        if made(path):
            with open(path, encoding="utf-8") as f:
                goals |= {m[1] for m in map(SIGNATURE.match, f) if m and re.match(r"(goal|given)\.", m[2])}
        for old in defined(path):
            new = new_name(old)
            if new != old:
                names.setdefault(old, (new, set()))[1].add(os.path.relpath(path, root))
    return {old: v for old, v in names.items() if old not in goals}, goals


def turned(text, names):
    return WORD.sub(lambda m: names[m[0]][0] if m[0] in names else m[0], text)


def main(argv):
    root = os.getcwd()
    names, goals = table(root)
    if argv == ["--list"]:
        by_new = {}
        for old, (new, where) in sorted(names.items()):
            by_new.setdefault(new, []).append(old)
            print(old, new, " ".join(sorted(where)))
        for new, olds in by_new.items():
            if len(olds) > 1:
                print("fall together:", new, olds)
        for path in files(root, (".antt", ".rt")):
            with open(path, encoding="utf-8") as f:
                words = set(WORD.findall(f.read()))
            for old in sorted(words & set(names)):
                if names[old][0] in words:
                    print("meets:", os.path.relpath(path, root), old, names[old][0])
        return 0
    if argv:
        print(__doc__)
        return 2
    changed = 0
    for path in files(root, (".antt", ".rt", ".edit", ".md")):
        with open(path, encoding="utf-8") as f:
            text = f.read()
        after = turned(text, names)
        if after != text:
            with open(path, "w", encoding="utf-8") as f:
                f.write(after)
            changed += 1
    print(f"respell: {len(names)} names, {changed} files")
    return 0


if __name__ == "__main__":
    raise SystemExit(main(sys.argv[1:]))
