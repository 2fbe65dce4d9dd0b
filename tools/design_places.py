#!/usr/bin/env python3
"""Lists the places in crates/*/src that the design pass looks at, a count for each of its points.

    python3 tools/design_places.py [FOLDER]      FOLDER holds crates/; the present one if none is given

It goes by text: what it finds has to be read, and docs/DESIGN-PASS.md says what was changed and what is kept.
"""
import re
import sys
from collections import defaultdict
from pathlib import Path

ROOT = Path(sys.argv[1] if len(sys.argv) > 1 else ".")
HEADER = re.compile(r"^\s*(?:pub(?:\(crate\))? )?(?:const )?fn (\w+)")


def functions():
    """Each function as (crate, file, line, name, signature, clauses, body lines)."""
    for path in sorted(ROOT.glob("crates/*/src/**/*.rt")):
        lines = path.read_text().splitlines()
        i = 0
        while i < len(lines):
            m = HEADER.match(lines[i])
            if not m:
                i += 1
                continue
            start, indent = i, re.match(r"\s*", lines[i]).group()
            head = []
            while i < len(lines) and not re.match(r"\s*(requires|ensures)\b", lines[i]):
                head.append(lines[i].strip())
                i += 1
                if head[-1].endswith("{") or head[-1] == "{" or head[-1].endswith(";"):
                    break
            clauses = []
            if not (head[-1].endswith("{") or head[-1].endswith(";")):
                while i < len(lines) and lines[i] != indent + "{":
                    clauses.append(lines[i].strip())
                    if lines[i].rstrip().endswith("};"):
                        break
                    i += 1
                i += 1
            body = []
            if not head[-1].endswith(";"):
                while i < len(lines) and lines[i] != indent + "}":
                    body.append(lines[i])
                    i += 1
            i += 1
            signature = " ".join(head).rstrip("{ ").strip()
            yield path.relative_to(ROOT / "crates").parts[0], path, start + 1, m.group(1), signature, clauses, body


FUNCTIONS = list(functions())


def lines_like(pattern):
    for path in sorted(ROOT.glob("crates/*/src/**/*.rt")):
        for number, line in enumerate(path.read_text().splitlines(), 1):
            if not line.lstrip().startswith("//") and re.search(pattern, line):
                yield f"{path.relative_to(ROOT)}:{number}: {line.strip()}"


def show(point, title, places):
    places = list(places)
    print(f"{point} {title}: {len(places)}")
    for place in places:
        print(f"    {place}")


def where(f):
    return f"{f[1].relative_to(ROOT)}:{f[2]}: {f[3]}"


# 1: numbers for kinds or refusals, and flags beside a value
show("1a", "functions with match arms to or from a number", (
    where(f) for f in FUNCTIONS
    if any(re.search(r"=> \d+,$|^\s*\(?\d+(, \w+\))?( if .*)? =>", line) for line in f[6])))
show("1b", "own enums", lines_like(r"^\s*(pub(\(crate\))? )?enum "))
show("1c", "fields that are flags", lines_like(r"^\s*(pub(\(crate\))? )?\w+: bool,"))

# 2: functions with one signature, types with the same fields
groups = defaultdict(list)
for f in FUNCTIONS:
    shape = re.sub(r"\bfn \w+", "fn", re.sub(r"^pub(\(crate\))? ", "", f[4]))
    shape = re.sub(r"\b\w+: ", "", shape)
    if "tests" not in str(f[1]) and shape not in ("fn main(HostRuntime) -> io::Result<()>",):
        groups[(f[0], shape)].append(f)
show("2a", "groups of functions with one signature in a crate", (
    f"{crate}: {shape}: " + ", ".join(f[3] for f in fs) for (crate, shape), fs in sorted(groups.items()) if len(fs) > 1))
types = defaultdict(list)
for path in sorted(ROOT.glob("crates/*/src/**/*.rt")):
    for m in re.finditer(r"struct (\w+)[^{;]*\{(.*?)\n\}", path.read_text(), re.S):
        fields = " ".join(line.strip() for line in m.group(2).splitlines() if re.match(r"\s*(pub(\(crate\))? )?\w+: ", line))
        types[fields].append(m.group(1))
show("2b", "types with the same fields", (", ".join(names) for names in types.values() if len(names) > 1))
fills = [f for f in FUNCTIONS if any(re.search(r"^\s*\w+\[.*\] = ", line) for line in f[6])]
show("2c", "functions that fill an array place by place", map(where, fills))

# 3: loops
loops = []
for f in FUNCTIONS:
    for k, line in enumerate(f[6]):
        m = re.match(r"\s*(?:for (.+?) in (.*?)|while (.*?)|(loop)) \{$", line)
        if m:
            variable = (m.group(1) or "").strip()
            rest = "\n".join(f[6][k + 1:])
            indexes = bool(variable) and bool(re.search(r"\[[^\]]*\b%s\b" % re.escape(variable), rest)) and ".." in (m.group(2) or "")
            by_hand = "enumerate" in (m.group(2) or "") or m.group(3) is not None
            loops.append((f, line.strip(), indexes or by_hand))
show("3a", "loops", (f"{where(f)}: {line}" for f, line, _ in loops))
show("3b", "of these, with an index or a place counted by hand", (f"{where(f)}: {line}" for f, line, hand in loops if hand))

# 4: conversion and printing by hand
show("4a", "casts by `as`", lines_like(r" as (u8|u16|u32|u64|usize)\b"))
show("4b", "functions that make a text", (
    where(f) for f in FUNCTIONS if re.search(r"-> (&'static str|Result<String, \w+>|String)$", f[4])))
show("4c", "texts that are pushed onto others", lines_like(r"\.push_str\("))
show("4d", "comparisons, copies and prints written as impls", lines_like(r"^impl.* (PartialEq|Eq|PartialOrd|Ord|Clone|Copy|fmt::Debug|Debug) for "))

# 5: facts in three clauses, parameters in three functions of a crate
facts = defaultdict(set)
for f in FUNCTIONS:
    for clause in f[5]:
        inner = re.sub(r"^(requires|ensures)\s*\w*\s*\{\s*(.*?)\s*\}$", r"\2", clause)
        for part in re.split(r" × |\(λ \w+\. ", inner):
            part = part.strip("() ")
            if part and not part.startswith("MatchResult result") and not part.startswith("MatchOption result"):
                facts[(f[0], part)].add(f[3])
show("5a", "facts that stand in the clauses of three functions of a crate", (
    f"{crate}: {part}: {len(names)} functions" for (crate, part), names in sorted(facts.items())
    if len(names) >= 3 and re.search(r"[≤<≡]", part)))
pairs = defaultdict(set)
for f in FUNCTIONS:
    if "tests" in str(f[1]):
        continue
    parameters = re.findall(r"(\w+): ([^,()]+(?:\[[^\]]*\])?)", f[4].split("->")[0])
    names = sorted({n + ": " + t.strip() for n, t in parameters})
    for i, a in enumerate(names):
        for b in names[i + 1:]:
            pairs[(f[0], a, b)].add(f[3])
show("5b", "pairs of parameters that three functions of a crate take", (
    f"{crate}: {a}, {b}: {len(names)} functions" for (crate, a, b), names in sorted(pairs.items()) if len(names) >= 3))

# 6: fixed arrays, and numbers beside what they count
show("6a", "arrays in fields, types, parameters and results", lines_like(r"^\s*(pub(\(crate\))? )?(\w+: |type \w+ = |fn .*|old: ).*\[[^\]]*; \d+\]"))
show("6b", "results that are a value and a place", lines_like(r"-> Option<\(\w+, usize\)>"))

# 7: steps by number, tables of functions
show("7", "function pointers and dyn", lines_like(r"\bfn\(|\bdyn "))

# 8: what the proofs are
answers = lemmas = rows = 0
for path in sorted(ROOT.glob("crates/*/proofs/**/*.antt")):
    text = path.read_text()
    rows += len(text.splitlines())
    if path.name == "Answers.antt":
        answers += len(re.findall(r"^pub [\w+-]+ : goal\.", text, re.M))
    elif path.name not in ("Invariants.antt", "Lib.antt"):
        lemmas += len(re.findall(r"^\s*(?:pub )?(?!record\b|abbrev\b|use\b|module\b)[\w'-]+ :(?: |$)", text, re.M))
print(f"8 answers: {answers}, lemmas: {lemmas}, lines in proofs/: {rows}")
