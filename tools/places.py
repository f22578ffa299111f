#!/usr/bin/env python3
"""Lists the places of src/ that docs/DESIGN-PASS.md counts, point by point, and how many they are.

usage: python3 tools/places.py [-v] [FOLDER]      (-v: each place on a line; FOLDER: crates of another checkout; default: crates)
"""
import glob
import os
import re
import sys
from collections import defaultdict


def sources(folder):
    for path in sorted(glob.glob(os.path.join(folder, "*", "src", "*.rt"))):
        with open(path) as f:
            yield path, f.read().split("\n")


def code(line):
    return line.split("//")[0]


def lines_with(folder, pattern):
    found = []
    for path, lines in sources(folder):
        for number, line in enumerate(lines, 1):
            if re.search(pattern, code(line)):
                found.append(f"{path}:{number}: {line.strip()}")
    return found


def enums(folder, test):
    found = []
    for path, lines in sources(folder):
        for number, line in enumerate(lines, 1):
            m = re.match(r"(pub(\(crate\))? )?enum (\w+)", code(line))
            if not m:
                continue
            body = []
            for later in lines[number:]:
                if later.startswith("}"):
                    break
                if code(later).strip():
                    body.append(code(later).strip())
            if test(m, body):
                found.append(f"{path}:{number}: {line.strip()} {' '.join(body)}")
    return found


KEEP = {"let", "in", "if", "else", "while", "for", "return", "match", "fn", "pub", "mut", "ensures", "requires", "self", "true", "false", "result"}


def shape(text):
    text = re.sub(r"[A-Za-z_]\w*", lambda m: m[0] if m[0] in KEEP else "x", text)
    return re.sub(r"\b0x[0-9a-fA-F_]+\b|\b\d+\b|b?\"[^\"]*\"|b'[^']*'", "0", text)


def functions(folder):
    """each function of src/: where it stands, and the lines from its name to its closing brace"""
    for path, lines in sources(folder):
        for number, line in enumerate(lines):
            m = re.match(r"( *)(pub(\(crate\))? )?fn (\w+)", code(line))
            if not m:
                continue
            body = []
            for later in lines[number:]:
                if code(later).strip():
                    body.append(code(later).strip())
                if later == m[1] + "}":
                    break
            yield f"{path}:{number + 1}: {m[4]}", body


def twins(folder):
    groups = defaultdict(list)
    for place, body in functions(folder):
        if len(body) >= 5:
            groups[shape("\n".join(body))].append(place)
    return [" ".join(g) for g in groups.values() if len(g) > 1]


def requires(folder):
    """clauses of requires that stand in three functions or more of one crate, or of the library, but for the names of their values"""
    clauses = defaultdict(list)
    for place, body in functions(folder):
        for line in body:
            m = re.match(r"requires(?: \w+)? \{ (.*) \}$", line)
            if m and not re.search(r"IsAlwaysCallable|length|≤ [1-9]\)|behind", m[1]):
                fact = re.sub(r"\b(inputs\.now|outputs\.now|lent|self|ep|row|device|request|payload\.now|sought\.\w+(\.now)?)\b", "x", m[1])
                fact = re.sub(r"\(pools(_of)? x( x)?\)", "x", fact)
                clauses[fact].append(f"{place}: {line}")
    return [p for c in clauses.values() if len(c) >= 3 for p in c]


POINTS = (
    ("1  own enums with a case for a refusal or for nothing", lambda f: enums(f, lambda m, b: any(re.match(r"(Refused\(Refusal\)|None),?$", x) for x in b))),
    ("1  numbers for kinds (constants of one or two bytes)", lambda f: lines_with(f, r"^ *(pub(\(crate\))? )?const [A-Z_0-9]+: u(8|16)\b")),
    ("2  groups of functions of one shape (names, numbers and texts aside), of five lines or more", twins),
    ("2  structs that differ in a type only (Read..)", lambda f: lines_with(f, r"struct Read\w*")),
    ("3  loops with a condition (while, loop)", lambda f: lines_with(f, r"\b(while|loop)\b")),
    ("4  equality, default and conversion by hand (fn eq, default, number, code, bits, from_bits)", lambda f: lines_with(f, r"fn (eq|default|number|code|bits|from_bits)\(")),
    ("4  wrapped numbers compared by their field", lambda f: lines_with(f, r"\.0 (==|!=) ")),
    ("5  requires of one fact in three functions or more", requires),
    ("5  parameters that travel together: the two pools", lambda f: lines_with(f, r"\binputs: &")),
    ("6  fields and parameters that count what another holds", lambda f: lines_with(f, r"^ +(pub )?(count|length|limit|\w+_count): (usize|u16),")),
    ("7  enums that only this module sees (most say which step to run)", lambda f: enums(f, lambda m, b: not m[1])),
)


def main():
    words = [w for w in sys.argv[1:] if w != "-v"]
    folder = words[0] if words else "crates"
    for name, find in POINTS:
        found = find(folder)
        print(f"{len(found):4}  {name}")
        if "-v" in sys.argv:
            for place in found:
                print(f"          {place}")
    answers = glob.glob(os.path.join(folder, "*", "proofs", "**", "Answers.antt"), recursive=True)
    print(f"{len(answers):4}  8  files of answers")


main()
