#!/usr/bin/env python3
"""Splits `use` lines by where a name stands, after tools/split_laws.py: of `use Rattle.C.specs.X.{a, b}` the names that specs/X has stay, those of proofs/X go to a line of their own.

usage: python3 tools/split_uses.py CRATE FILE ..     each FILE is a module that stands in both specs/ and proofs/ of crates/CRATE; every crate's `use` lines follow
In a file of specs/ of the same crate a name of proofs/ is left out: no definition rests on a theorem.
"""
import os
import re
import sys

root = os.path.dirname(os.path.dirname(os.path.abspath(__file__)))
crate, *files = sys.argv[1:]
NAME = r"[^\s:(){}\[\];,]+"


def text_of(p):
    with open(p, encoding="utf-8") as f:
        return f.read()


def names_of(p):
    """Names that a file declares: heads of items at the left or within a block, constructors and fields."""
    if not os.path.exists(p):
        return set()
    t = text_of(p)
    found = set(re.findall(r"(?m)^ *(?:abbrev |unfoldable |pub )*(?:record |data )?(" + NAME + r")(?= [:({]| =| where|$)", t))
    for m in re.finditer(r"(?m)^ *(?:pub )?data .* where\n((?: +.*\n?)*)", t):
        for line in m.group(1).split("\n"):
            for part in re.findall(r"^((?:\s*(?:pub )?" + NAME + r")+) :", line):
                found |= {w for w in part.split() if w != "pub"}
    for m in re.finditer(r"(?m)^(?:unfoldable |pub )*use [^{\n]*\{([^}]*)\}", t):
        if m.group(0).startswith(("pub ", "unfoldable pub ")):
            found |= {w.strip() for w in m.group(1).split(",")}
    return found


where = {x: (names_of(os.path.join(root, "crates", crate, "specs", x + ".antt")), names_of(os.path.join(root, "crates", crate, "proofs", x + ".antt"))) for x in files}
which = "|".join(re.escape(f) for f in files)
LINE = re.compile(rf"(?m)^(?P<head>[ \t]*(?:pub |unfoldable |ghost )*use Rattle\.{crate}\.)(?P<side>specs|proofs)\.(?P<file>{which})(?P<rest>\.[^\n]*|;?$)")


def follow(m, own_specs):
    specs, proofs = where[m.group("file")]
    rest = m.group("rest")
    braces = re.match(r"\.\{([^}]*)\}(.*)$", rest)
    one = re.match(r"\.([^\s.;{]+)(.*)$", rest)
    if braces:
        words = [w.strip() for w in braces.group(1).split(",") if w.strip()]
        end = braces.group(2)
    elif one and (one.group(1) in specs or one.group(1) in proofs):
        side = "specs" if one.group(1) in specs else "proofs"
        return f"{m.group('head')}{side}.{m.group('file')}{rest}"
    else:
        return m.group(0)
    sides = {"specs": [], "proofs": []}
    for w in words:
        n = w.split(" as ")[0]
        side = "specs" if n in specs else "proofs" if n in proofs else None
        if side is None:
            sys.stderr.write(f"{m.group(0)[:80]}: {n} is in neither\n")
            side = m.group("side")
        sides[side].append(w)
    if own_specs:
        sides["proofs"] = []
    return "\n".join(f"{m.group('head')}{s}.{m.group('file')}.{{{', '.join(ws)}}}{end}" for s, ws in sides.items() if ws)


for top in ("crates", "wrong-engines", "more-edits"):
    for folder, dirs, names in os.walk(os.path.join(root, top)):
        dirs[:] = [d for d in dirs if d not in ("out", ".git", "target")]
        for n in names:
            if n.endswith((".antt", ".rt", ".edit")):
                p = os.path.join(folder, n)
                t = text_of(p)
                own = os.path.join("crates", crate, "specs") in folder
                u = LINE.sub(lambda m: follow(m, own), t)
                if u != t:
                    with open(p, "w", encoding="utf-8") as f:
                        f.write(u)
