#!/usr/bin/env python3
"""Brings the repository's own definitions and lemmas to today's spelling: words in snake case, types and modules in upper camel case.

usage: python3 tools/respell.py        at the top of a tree that port.py has turned, once

A name of specs/ or of a file of lemmas whose words are joined by capitals gets underscores (`layCall` is `lay_call`); a dash that joins
two names in a lemma stays (`nearestRoot-is` is `nearest_root-is`). Four lemmas that would fall together with a definition so spelled
keep the dash that they had. Rewritten are .antt and .rt files and must-fail edits; functions of src/ have no such names.
"""
import glob
import re

WORD = re.compile(r"[A-Za-zℕℤ_][A-Za-z0-9ℕℤ_'₀-₉-]*")
# lemmas that port.py spelled as a word of the library, and that would now be named as a definition
BACK = {
    "turned_down": ("turned-down", ["course/proofs/CurbLaws.antt", "course/proofs/TurnLimits.antt", "course/proofs/curbs/curbs/Proof.antt"]),
    "walk_from": ("walk-from", ["course/proofs/LimitsNeverMet.antt"]),
    "no_fields": ("no-fields", ["form/proofs/FormLaws.antt"]),
    "front_of": ("front-of", ["certificate/proofs/ReplayLaws.antt", "course/proofs/Generating.antt"]),
}


def spelled(name):
    def part(p):
        return p if re.match("[A-Z]", p) else re.sub(r"(?<=[a-z0-9'₀-₉])([A-Z])", lambda m: "_" + m.group(1).lower(), p)

    return "-".join(part(p) for p in name.split("-"))


def defined():
    names = set()
    for path in glob.glob("crates/*/specs/**/*.antt", recursive=True) + glob.glob("crates/*/proofs/*.antt"):
        with open(path, encoding="utf-8") as f:
            text = f.read()
        for m in re.finditer(r"(?m)^ *(?:(?:abbrev|unfoldable|record|data|opaque|ruleset)\s+)?(?:pub\s+)?(?:record\s+|data\s+)?([^\s:(){}]+)\s*(?=[:({])", text):
            names.add(m.group(1))
        for m in re.finditer(r"(?m)^  (?:pub )?([^\s:(){}]+) :", text):
            names.add(m.group(1))
    return names


def turn(path, change):
    with open(path, encoding="utf-8") as f:
        text = f.read()
    new = WORD.sub(lambda m: change.get(m.group(0), m.group(0)), text)
    if new != text:
        with open(path, "w", encoding="utf-8") as f:
            f.write(new)
    return new != text


def main():
    for name, (back, files) in BACK.items():
        for path in files:
            turn("crates/" + path, {name: back})
    change = {}
    for name in defined():
        if re.match("[a-z]", name) and WORD.fullmatch(name) and spelled(name) != name:
            change[name] = spelled(name)
    files = [p for kind in ("antt", "rt", "edit") for p in glob.glob(f"crates/**/*.{kind}", recursive=True) if "/out/" not in p]
    print(len(change), "names,", sum(turn(p, change) for p in sorted(files)), "files")


if __name__ == "__main__":
    main()
