#!/usr/bin/env python3
"""Moves theorems from a crate's specs/ to its proofs/, statements unchanged, where a must-fail edit of a definition reads as BAD otherwise (docs/PORT.md lists them).

usage: python3 tools/move_laws.py CRATE FILE ..     each FILE is a module of crates/CRATE/specs, as Conservation; every path that names it, in any crate and page, follows
"""
import os
import re
import subprocess
import sys

root = os.path.dirname(os.path.dirname(os.path.abspath(__file__)))
crate, *files = sys.argv[1:]
base = os.path.join(root, "crates", crate)


def text_of(p):
    with open(p, encoding="utf-8") as f:
        return f.read()


def write(p, t):
    with open(p, "w", encoding="utf-8") as f:
        f.write(t)


for name in files:
    old, new = os.path.join(base, "specs", name + ".antt"), os.path.join(base, "proofs", name + ".antt")
    if os.path.exists(new):
        sys.exit(f"{new} stands already")
    os.makedirs(os.path.dirname(new), exist_ok=True)
    subprocess.run(["git", "mv", old, new], check=True, cwd=root)
    lib = os.path.join(base, "specs", "Lib.antt")
    t = text_of(lib)
    t = re.sub(rf"(?m)^pub mod {name}\n", "", t)
    write(lib, t)
    lib = os.path.join(base, "proofs", "Lib.antt")
    t = text_of(lib) if os.path.exists(lib) else "-- Lemmas, and the theorems that rest on definitions of specs/.\n"
    t = re.sub(rf"(?m)^(?:pub )?mod {name}\n", "", t)
    write(lib, t.rstrip("\n") + f"\npub mod {name}\n")
which = "|".join(re.escape(f) for f in files)
for top in ("crates", "docs", "more-edits", "wrong-engines", ".ci"):
    for folder, dirs, names in os.walk(os.path.join(root, top)):
        dirs[:] = [d for d in dirs if d not in ("out", ".git", "target")]
        for n in names:
            if n.endswith((".antt", ".rt", ".edit", ".md")) or top == ".ci":
                p = os.path.join(folder, n)
                t = text_of(p)
                u = re.sub(rf"(Rattle\.{crate}\.)specs(\.(?:{which}))(?![\w-])", r"\1proofs\2", t)
                u = re.sub(rf"((?<![\w]){crate}/)specs(/(?:{which})\.antt)", r"\1proofs\2", u)
                if u != t:
                    write(p, u)
print(f"moved {', '.join(files)}")
