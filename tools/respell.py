#!/usr/bin/env python3
"""Brings the repository's own definitions and lemmas to today's spelling, after port.py: respell.txt has each old name and the new one.

usage: python3 tools/respell.py [FOLDER]

Proof files and definitions are turned whole, source files but for strings and comments (there only names in backquotes and names that
are no plain words are turned).
"""
import os
import re
import sys

HERE = os.path.dirname(os.path.realpath(__file__))
TOKEN = re.compile(r"(?<![\w'·-])[A-Za-z][\w']*(?:-[\w']+)*(?![\w'-])")


def table():
    with open(os.path.join(HERE, "respell.txt")) as f:
        return dict(line.split() for line in f if line.strip())


def turn(text, names):
    return TOKEN.sub(lambda m: names.get(m[0], m[0]), text)


def turn_comment(text, names):
    text = re.sub(r"`[^`]*`", lambda m: turn(m[0], names), text)
    return TOKEN.sub(lambda m: names[m[0]] if m[0] in names and "-" not in m[0] else m[0], text)


def turn_lines(text, names, mark):
    out = []
    for line in text.split("\n"):
        cut = len(line)
        quoted = False
        i = 0
        while i < len(line):
            if mark == "//" and line[i] == "\\" and quoted:
                i += 1
            elif mark == "//" and line[i] == '"':
                quoted = not quoted
            elif not quoted and line.startswith(mark, i):
                cut = i
                break
            i += 1
        code, note = line[:cut], line[cut:]
        if mark == "//":
            code = "".join(p if k % 2 else turn(p, names) for k, p in enumerate(re.split(r'("(?:[^"\\]|\\.)*")', code)))
        else:
            code = turn(code, names)
        out.append(code + turn_comment(note, names))
    return "\n".join(out)


def main():
    root = sys.argv[1] if len(sys.argv) > 1 else "."
    names = table()
    for folder, dirs, files in os.walk(os.path.join(root, "crates")):
        dirs[:] = [d for d in dirs if d not in ("out", ".git")]
        for name in files:
            if not name.endswith((".rt", ".antt")):
                continue
            path = os.path.join(folder, name)
            with open(path, encoding="utf-8") as f:
                text = f.read()
            turned = turn_lines(text, names, "//" if name.endswith(".rt") else "--")
            if turned != text:
                with open(path, "w", encoding="utf-8") as f:
                    f.write(turned)


main()
