#!/usr/bin/env python3
"""Counts the places in src/ that older forms of the language left, point by point: python3 tools/places.py [FOLDER] [--list].

It goes by text, so it finds candidates: docs/DESIGN-PASS.md says which of them are places, and what became of each.
"""
import pathlib
import re
import sys
from collections import defaultdict

LINES = {
    "1 flag beside a value": r"^\s*(pub(\(crate\))? )?(whole|found|done|refused|refusal|keep|global): (bool|u8)\b",
    "1 flag or number as a parameter": r"^\s*(keep|global|spread|whole): (bool|u8),$",
    "1 number as an answer": r"^\s*(pub(\(crate\))? )?fn .*-> u8\b",
    "1 number for a kind": r"=> 26\d|% 4\b|: u16 = 26\d|slot ==",
    "1 number for none": r"= 4_294_967_295;|None => 0,|Ok\(_\) => 0,",
    "3 while and loop": r"^\s*(while|loop)\b",
    "3 for over numbers": r"^\s*for \w+ in \w+\.\.",
    "3 index counted by hand": r"^\s*\w+ [+-]= 1;",
    "4 match that a method says": r"None => None|Some\((\w+)\) => Some\(|Ok\((\w+)\) => Ok\(\2\)|Ok\(\(\)\) => Ok\(\(\)\)|None => false|None => 0\b",
    "4 index tested by hand": r"as usize\)? (<|>=) \w+\.len\(\)|i < \w+\.len\(\)|i >= \w+\.len\(\)",
    "4 field copied by hand": r"^\s*\w+: (old|here|node)\.\w+,$",
    "4 equality by hand": r"self as u8 == other|fn same|\.is\((kind|other)\)",
    "4 cast that widens": r"\b(line|level|register|k|at|count|code|done|spread) as (u16|u32|u64|usize)|'\w' as u16",
    "4 emptiness by length": r"\.len\(\) == 0",
    "6 buffer with a length or mark": r"\[0(u8|u16)?; \d+\]|\[(u8|i32); \d+\]",
    "6 index in an arena": r"^\s*(pub(\(crate\))? )?(left|right|root|free|top|next|first|owner): u32,",
    "7 switch on which step to run": r"^\s*if !?(keep|global)\b|match (step|self\.below)",
}


def functions(text):
    """Each function of a file: its head with clauses, and its body."""
    for found in re.finditer(r"^([ ]*)(?:pub(?:\(crate\))? )?fn (\w+).*?^\1\}$", text, re.S | re.M):
        head, _, body = found.group(0).partition("\n" + found.group(1) + "{\n")
        if body:
            yield found.group(2), head, body


def shape(code):
    """Code with its names, numbers and strings blanked."""
    return re.sub(r'b?"[^"]*"|\b\d\w*\b|\b[a-z_]\w*\b(?=[\(:,;.\)\s])', "_", re.sub(r"\s+", " ", code))


def main():
    words = [word for word in sys.argv[1:] if word != "--list"]
    top = pathlib.Path(words[0] if words else ".")
    found = defaultdict(list)
    bodies, clauses, rows = defaultdict(list), defaultdict(set), defaultdict(list)
    for path in sorted(top.glob("crates/*/src/**/*.rt")):
        text = path.read_text()
        where = path.relative_to(top / "crates")
        for number, line in enumerate(text.splitlines(), 1):
            for point, pattern in LINES.items():
                if re.search(pattern, line) and not line.strip().startswith(("//", "ensures", "requires")):
                    found[point].append(f"{where}:{number}: {line.strip()}")
        for name, head, body in functions(text):
            if len(body) > 60:
                bodies[shape(body)].append(f"{where}: {name}")
            for clause in re.findall(r"(?:ensures|requires) \w* ?\{ (.*?) \}$", head, re.S | re.M):
                clauses[re.sub(r"\s+", " ", clause)].add(f"{where}: {name}")
            listed = re.search(r"\((.*?)\)(?: ->|\s*$)", head.split("\n    ensures")[0].split("\n    requires")[0], re.S)
            rows[len(re.findall(r"\w+:", listed.group(1)))if listed else 0].append(f"{where}: {name}")
    for names in bodies.values():
        if len(names) > 1:
            found["2 bodies of one shape"].append(" = ".join(names))
    for clause, names in clauses.items():
        if len(names) > 2:
            found["5 clause of three or more functions"].append(f"{clause[:100]} ({len(names)})")
    found["5 function of six or more parameters"] = [name for size, names in rows.items() if size > 5 for name in names]
    found["8 answers"] = [line for path in top.glob("crates/*/proofs/**/Answers.antt") for line in re.findall(r"^pub (\S+) : goal", path.read_text(), re.M)]
    found["8 lemmas"] = [line for path in top.glob("crates/*/proofs/*.antt") for line in re.findall(r"^(?:pub )?([\w'-]+) : ", path.read_text(), re.M)]
    for point in sorted(found):
        print(f"{len(found[point]):4} {point}")
        if "--list" in sys.argv and not point.startswith("8"):
            print("".join(f"       {place}\n" for place in found[point]), end="")


main()
