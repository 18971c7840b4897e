#!/usr/bin/env python3
"""Prints, for docs/PORT.md, the theorems that stood in specs/ after tools/respell.py and stand in proofs/ now: their statements, whole, by crate and file.

usage: python3 tools/port_theorems.py COMMIT     COMMIT is the second line of docs/PORT.md
"""
import collections
import os
import re
import subprocess
import sys

root = os.path.dirname(os.path.dirname(os.path.abspath(__file__)))
SIGNATURE = re.compile(r"(?m)^( *)pub (?!record |data |mod |use |abbrev )([^\s:(){}]+) :")


def git(*words):
    return subprocess.run(["git", *words], cwd=root, capture_output=True, text=True, check=True).stdout


def statements(text):
    """The public theorems of a file: name and signature."""
    out = {}
    lines = text.split("\n")
    record = None
    for i, line in enumerate(lines):
        indent = len(line) - len(line.lstrip())
        if record is not None and line.strip() and indent <= record:
            record = None
        if re.match(r" *(?:abbrev |unfoldable |pub )*(?:record|data) ", line):
            record = indent
            continue
        m = SIGNATURE.match(line)
        if not m or record is not None:
            # fields and constructors are no theorems
            continue
        whole, k = [line.strip()], i + 1
        while k < len(lines) and lines[k].strip() and (len(lines[k]) - len(lines[k].lstrip()) > len(m.group(1)) or lines[k].strip()[0] in ")]}"):
            whole.append(lines[k].strip())
            k += 1
        out[m.group(2)] = " ".join(whole)
    return out


old = collections.defaultdict(dict)
for path in git("ls-tree", "-r", "--name-only", sys.argv[1], "crates").split("\n"):
    m = re.match(r"crates/(\w+)/specs/(.+)\.antt$", path)
    if m:
        for name in statements(git("show", f"{sys.argv[1]}:{path}")):
            old[m.group(1)][name] = m.group(2)
for crate in sorted(os.listdir(os.path.join(root, "crates"))):
    base = os.path.join(root, "crates", crate, "proofs")
    for folder, dirs, files in sorted(os.walk(base)):
        for f in sorted(files):
            path = os.path.join(folder, f)
            if not f.endswith(".antt") or f in ("Lib.antt", "Answers.antt", "Invariants.antt", "Proof.antt"):
                continue
            with open(path, encoding="utf-8") as it:
                found = {n: s for n, s in statements(it.read()).items() if n in old[crate]}
            if found:
                print(f"\n{crate}/proofs/{os.path.relpath(path, base)}:\n")
                for s in found.values():
                    print(f"    {s}")
