#!/usr/bin/env python3
"""Brings the repository's own names to today's spelling, once, after port.py: definitions and lemmas in snake case, facts in camel case.

usage: tools/respell.py          at the top of the repository
       tools/respell.py --map    prints each name that it turns, old and new

A name that holds a small letter or a digit followed by a capital, as `firstFrom`, becomes `first_from`, in specs/, proofs/, clauses, edits and pages.
`OWN` has the names that go another way: those that would fall together with another name, and facts that were spelled as words.
Functions of src/, exported C names, strings, inputs and outputs have no such names and stay.
"""

import os
import re
import subprocess
import sys

# Names that would meet another one: the lemma gives way to the definition.
OWN = {
    "lastFits": "last_number_fits",
    "isWait": "IsWait",
    "is_value": "IsValue",
    "isValue": "IsValue",
}
# Lemmas with the name that a definition takes, by the file that declares or cites them.
LEMMAS = {
    "crates/lists/proofs": {"each_from": "each_from_lem"},
    "crates/records/proofs/Places.antt": {"has_room": "has_room_lem"},
    "crates/model/proofs/Facts.antt": {"has_room": "has_room_lem"},
    "crates/model/proofs/Previews.antt": {"has_room": "has_room_lem"},
    "crates/rules/proofs/LineRules.antt": {"write_store": "write_store_lem"},
    "crates/rules/proofs/Kept.antt": {"write_store": "write_store_lem"},
    "crates/model/proofs/idle/write_store/Proof.antt": {"has_room": "has_room_lem"},
    "crates/model/proofs/State/start/Proof.antt": {"has_room": "has_room_lem"},
    "crates/script_play/proofs/Figures.antt": {"write_store": "write_store_lem"},
    "crates/rules/proofs": {"from_start": "from_start_lem"},
}
# Names of the library and of the tools that have a capital inside.
LEAVE = re.compile(r"_[A-Z]|^(valB|valT|valsT)$")
WORD = re.compile(r"[A-Za-z_][A-Za-z0-9_'\u2080-\u2089-]*")
INNER = re.compile(r"(?<=[a-z0-9])([A-Z])")


def snake(name):
    parts = name.split("-")
    return "-".join(INNER.sub(lambda m: "_" + m.group(1).lower(), p) if p[:1].islower() or p[:1] == "_" else p for p in parts)


def turned(name, lemmas):
    if name in OWN:
        return OWN[name]
    if name in lemmas:
        return lemmas[name]
    if LEAVE.search(name) or not re.search(r"(^|-)_?[a-z][a-z0-9_]*[A-Z]", name):
        return name
    return snake(name)


def turn(text, path, said):
    lemmas = {}
    for place, names in LEMMAS.items():
        if path.startswith(place):
            lemmas |= names

    def one(m):
        old = m.group(0)
        # a lemma's new name is not for a field of the same name
        before = text[m.start() - 1 : m.start()]
        new = turned(old, {} if before == "." and not re.search(r"specs\.\w+\.$|proofs\.\w+\.$", text[: m.start()][-80:]) else lemmas)
        if new != old:
            said[old] = new
        return new

    return WORD.sub(one, text)


def files():
    out = subprocess.run(["git", "ls-files", "crates"], check=True, capture_output=True, text=True).stdout
    return [p for p in out.splitlines() if p.endswith((".antt", ".rt"))]


def main():
    said = {}
    for path in files():
        if not os.path.isfile(path):
            continue
        with open(path, encoding="utf-8") as f:
            text = f.read()
        new = turn(text, path, said)
        if new != text and "--map" not in sys.argv:
            with open(path, "w", encoding="utf-8") as f:
                f.write(new)
    if "--map" in sys.argv:
        for old in sorted(said):
            print(old, said[old])
    print(f"respell: {len(said)} names")


if __name__ == "__main__":
    main()
