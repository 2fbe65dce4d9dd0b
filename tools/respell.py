#!/usr/bin/env python3
"""Brings the definitions and lemmas of this repository to snake case, and its types and facts to camel case.

usage: python3 tools/respell.py [FOLDER]

Run once, over crates/ of FOLDER (else of the working folder), right after the toolchain's own port.py. A name with
hyphens that specs/ or proofs/ of this repository defines (a definition, a lemma, a field of a record, a helper) is
written with underscores, or in camel case where it begins with a capital; so are the bound names of LOCALS. Names that
the checker makes (goals, steps of a function, invariants) are not touched, nor are strings, inputs and outputs. Two
names of this repository that would fall together stop it with nothing written; a name that a function of src/, a field
or a module has already is printed, as a definition may be called as the function that it describes.
"""

import os
import re
import sys

NAME = r"[A-Za-z_][\w']*(?:-[\w']+)+"
WORD = re.compile(r'"[^"\n]*"|(\.?)(?<![\w\'-])(' + NAME + r")(?![\w'-])")
PLAIN = re.compile(r"(?<![\w'-])[A-Za-z_][\w']*(?![\w'-])")
DEFINED = re.compile(r"^\s*(?:(?:pub|abbrev|unfoldable|record|data)\s+)*(" + NAME + r")\s*(?=[:(]|$)(.*)$")
FUNCTION = re.compile(r"\bfn ([a-z_0-9]+)")
# bound names of lemmas and an alias, that no line declares on its own
LOCALS = {"yes-all", "no-to", "in-plan", "whole-there", "l-in", "zero-there", "zero-first", "run-machine"}


def files(root):
    for folder, dirs, names in os.walk(os.path.join(root, "crates")):
        dirs[:] = sorted(d for d in dirs if d != "out")
        for name in sorted(names):
            if name.endswith((".antt", ".rt")):
                yield os.path.join(folder, name)


def turned(name):
    if name[0].isupper():
        return "".join(part[0].upper() + part[1:] for part in name.split("-"))
    return name.replace("-", "_")


def defined(text):
    """The hyphened names that a proof or specs file defines, without those that the checker asks for."""
    for line in text.splitlines():
        found = DEFINED.match(line)
        if found and not re.match(r":\s*goal\.", found.group(2)):
            yield found.group(1)


def respelled(text, names, steps):
    """The text with each of the names turned. A field `.x` of a function's own proof stays if x is one of its steps."""

    def word(match):
        name = match.group(2)
        if name not in names or (match.group(1) and name in steps):
            return match.group(0)
        return match.group(1) + turned(name)

    return WORD.sub(word, text)


def is_proof_of_function(root, path):
    parts = os.path.relpath(path, os.path.join(root, "crates")).split(os.sep)
    return parts[1] == "proofs" and len(parts) > 3


def main():
    root = sys.argv[1] if len(sys.argv) > 1 else "."
    texts = {}
    for path in files(root):
        with open(path, encoding="utf-8") as file:
            texts[path] = file.read()
    names = set(LOCALS)
    plain = set()
    steps = set()
    for path, text in texts.items():
        if path.endswith(".antt"):
            names.update(defined(text))
        steps.update(f.replace("_", "-") for f in FUNCTION.findall(text))
        plain.update(PLAIN.findall(text))
    by_new = {}
    for name in names:
        by_new.setdefault(turned(name), set()).add(name)
    clashes = [(new, old) for new, old in sorted(by_new.items()) if len(old) > 1]
    for new, old in clashes:
        print(f"clash: {', '.join(sorted(old))} would all be {new}")
    if clashes:
        return 1
    for new in sorted(by_new):
        if new in plain:
            print(f"look: {new} stands already")
    changed = 0
    for path, text in texts.items():
        new = respelled(text, names, steps if is_proof_of_function(root, path) else set())
        if new != text:
            changed += 1
            with open(path, "w", encoding="utf-8") as file:
                file.write(new)
    print(f"{len(names)} names, {changed} files")
    return 0


if __name__ == "__main__":
    raise SystemExit(main())
