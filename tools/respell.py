#!/usr/bin/env python3
"""Brings the names of definitions and lemmas to one spelling: types in upper camel case, all else in snake case.

usage: python3 tools/respell.py        at the top of the repository; tools/respell.tsv has the old and the new names

It goes by whole words. Names that a file imports from the toolchain's libraries stay, and so do the names of steps behind `c.`
and `l.` in answers. Functions of src/, strings, inputs and outputs have no name of the table.
"""

import os
import re

HERE = os.path.dirname(os.path.abspath(__file__))
WORD = re.compile(r"[^\s(){}\[\]:;,«»λ\"`]+")
# In these files a lemma would fall together with the definition that it is about.
OWN = {
    "crates/games/proofs/Tests.antt": {"is-canonical": "is_canonical_lem", "are-canonical": "are_canonical_lem"},
}


def read_table():
    table, members = {}, set()
    with open(os.path.join(HERE, "respell.tsv"), encoding="utf-8") as lines:
        for line in lines:
            old, new, kind = line.rstrip("\n").split("\t")
            table[old] = new
            if kind == "member":
                members.add(old)
    return table, members


def imported_from_outside(text, crates):
    names = set()
    for m in re.finditer(r"^(?:ghost )?use\s+([^\s{;]+?)\.\{([^}]*)\}", text, re.M):
        parts = m.group(1).split(".")
        if parts[0] != "Rattle" or parts[1] not in crates:
            names |= {n.strip().split(" as ")[0] for n in m.group(2).split(",")}
    return names


def respell(text, table, members, kept, answers):
    def word(m):
        parts = m.group(0).split(".")
        out = []
        for i, part in enumerate(parts):
            alone = i == 0
            step = answers and i == 1 and parts[0] in ("c", "l")
            # a bare name, or a field or constructor behind a dot
            if part in table and part not in kept and (alone or (part in members and not step)):
                part = table[part]
            out.append(part)
        return ".".join(out)

    return WORD.sub(word, text)


def outside_strings(text, turn):
    """Rust text, with turn applied outside of its string literals."""
    parts = re.split(r"(b?\"(?:[^\"\\\n]|\\.)*\")", text)
    return "".join(p if i % 2 else turn(p) for i, p in enumerate(parts))


def main():
    table, members = read_table()
    crates = set(os.listdir("crates"))
    count = 0
    for folder, dirs, files in os.walk("crates"):
        dirs[:] = [d for d in dirs if d != "out"]
        for name in files:
            path = os.path.join(folder, name)
            if not name.endswith((".antt", ".rt")):
                continue
            with open(path, encoding="utf-8") as f:
                text = f.read()
            here = table | OWN.get(path, {})
            kept = imported_from_outside(text, crates)
            answers = name in ("Answers.antt", "Invariants.antt", "Proof.antt")
            turn = lambda t: respell(t, here, members, kept, answers)
            new = turn(text) if name.endswith(".antt") else outside_strings(text, turn)
            if new != text:
                count += 1
                with open(path, "w", encoding="utf-8") as f:
                    f.write(new)
    print(f"respell: {count} files")


main()
