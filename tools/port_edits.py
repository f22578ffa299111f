#!/usr/bin/env python3
"""Brings the must-fail edits of an older commit to today's spelling.

usage: python3 tools/port_edits.py COMMIT FOLDER     (COMMIT: before the port; FOLDER: empty, outside the checkout)

Each edit is applied to its file at COMMIT, and the edited file is put beside the others of its crate. Then port.py and respell.py
turn the whole, and the lines in which the turned file and the turned edited file differ are the turned edit. Where those lines do
not pair one for one, the edit is named on the output and is left to be brought over by hand.
"""
import difflib
import os
import re
import subprocess
import sys


def pairs_of(text):
    file, pairs, olds = None, [], None
    for line in text.split("\n"):
        m = re.match(r"(file|old|new): ?(.*)$", line)
        if not m:
            continue
        if m[1] == "file":
            file = m[2].strip()
        elif m[1] == "old":
            olds = m[2]
        else:
            pairs.append((file, olds, m[2]))
    return pairs


def main():
    commit, folder = sys.argv[1:]
    here = os.getcwd()
    archive = subprocess.run(["git", "archive", commit], cwd=here, stdout=subprocess.PIPE, check=True).stdout
    subprocess.run(["tar", "x", "-C", folder], input=archive, check=True)
    made = []
    crates = os.path.join(folder, "crates")
    number = 0
    for crate in sorted(os.listdir(crates)):
        edits = os.path.join(crates, crate, "must-fail")
        for name in sorted(os.listdir(edits)) if os.path.isdir(edits) else []:
            with open(os.path.join(edits, name)) as f:
                text = f.read()
            files = {}
            for file, old, new in pairs_of(text):
                path = os.path.join(crates, crate, file)
                if file not in files:
                    with open(path) as f:
                        files[file] = f.read()
                if files[file].count(old.strip()) != 1:
                    print("not once:", crate, name, file, old)
                files[file] = files[file].replace(old.strip(), new.strip())
            number += 1
            for file, edited in files.items():
                top, rest = os.path.split(file)
                stem, end = os.path.splitext(rest)
                twin = f"{stem}_e{number}{end}"
                with open(os.path.join(crates, crate, top, twin), "w") as f:
                    f.write(edited)
                made.append((crate, name, file, os.path.join(top, twin), text))
    env = dict(os.environ, GIT_CONFIG_COUNT="2", GIT_CONFIG_KEY_0="user.name", GIT_CONFIG_VALUE_0="edits", GIT_CONFIG_KEY_1="user.email", GIT_CONFIG_VALUE_1="edits@example.invalid")
    for words in (["init", "-q"], ["add", "-A"], ["commit", "-qm", "before"]):
        subprocess.run(["git", *words], cwd=folder, check=True, env=env)
    kit = os.path.dirname(subprocess.run(["rt", "doc"], stdout=subprocess.PIPE, text=True, check=True).stdout.strip())
    subprocess.run([sys.executable, os.path.join(kit, "port", "port.py")], cwd=folder, check=False, env=env)
    subprocess.run([sys.executable, os.path.join(here, "tools", "respell.py"), folder], check=True)
    turned = {}
    for crate, name, file, twin, text in made:
        with open(os.path.join(crates, crate, file)) as f:
            a = f.read().split("\n")
        with open(os.path.join(crates, crate, twin)) as f:
            b = f.read().split("\n")
        lines = turned.setdefault((crate, name), [[x for x in text.split("\n") if x.startswith("#")], False])
        lines[0].append("file: " + file)
        for op, i, j, k, m in difflib.SequenceMatcher(None, a, b, autojunk=False).get_opcodes():
            if op == "equal":
                continue
            if j - i != m - k:
                lines[1] = True
                continue
            for old, new in zip(a[i:j], b[k:m]):
                if old != new:
                    if sum(x.strip() == old.strip() for x in a) != 1 or "\n".join(a).count(old.strip()) != 1:
                        lines[1] = True
                    lines[0] += ["old: " + old.strip(), "new: " + new.strip()]
    for (crate, name), (lines, by_hand) in turned.items():
        path = os.path.join(here, "crates", crate, "must-fail", name)
        if by_hand or not any(x.startswith("old:") for x in lines):
            print("by hand:", crate, name)
        with open(path, "w") as f:
            f.write("\n".join(lines) + "\n")


main()
