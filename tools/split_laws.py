#!/usr/bin/env python3
"""Splits files of a crate's specs/: definitions stay, theorems go to the file of the same name in proofs/, statements unchanged (docs/PORT.md).

usage: python3 tools/split_laws.py [--back] CRATE FILE ..     each FILE is a module of crates/CRATE/specs, as Way; with --back one that tools/move_laws.py took to proofs/ whole

A theorem of a block `module _ (p : A) .. where` stands in the same block in proofs/, where a definition of the block is written with the block's explicit parameters.
Afterwards other files' `use` lines are split by where each name stands.
"""
import os
import re
import sys

root = os.path.dirname(os.path.dirname(os.path.abspath(__file__)))
back = sys.argv[1] == "--back"
crate, *files = sys.argv[2 if back else 1 :]
base = os.path.join(root, "crates", crate)
NAME = r"[^\s:(){}\[\];,]+"
HEAD = re.compile(r"(?P<kind>(?:abbrev |unfoldable )?(?:pub )?(?:abbrev |unfoldable )?(?:record |data )?)(?P<name>" + NAME + r")(?= :| \(| \{| =|$| )")
NOT = ("use", "pub", "infix", "infixl", "infixr", "unfolding", "module", "mod", "open", "ruleset")


def text_of(p):
    with open(p, encoding="utf-8") as f:
        return f.read()


def write(p, t):
    os.makedirs(os.path.dirname(p), exist_ok=True)
    with open(p, "w", encoding="utf-8") as f:
        f.write(t)


def items_of(lines, indent):
    """Items of a block: [comments and lines, name, is a definition]."""
    out, comments = [], []
    for line in lines:
        body = line[indent:]
        if not line.strip():
            (comments if comments or not out else out[-1][0]).append(line)
            continue
        if body.startswith("--"):
            comments.append(line)
            continue
        if body[:1] in (" ", ")", "]", "}"):
            (out[-1][0] if out else comments).append(line)
            continue
        if re.match(r"infix[lr]? ", body):
            out.append([comments + [line], None, True])
            comments = []
            continue
        if body.startswith("unfolding "):
            out[-1][0].extend(comments + [line])
            comments = []
            continue
        m = HEAD.match(body)
        kind, name = m.group("kind"), m.group("name")
        is_def = bool(re.search(r"abbrev|unfoldable|record|data", kind))
        if out and out[-1][1] == name and not re.search(r"record|data", kind):
            out[-1][0].extend(comments + [line])
        else:
            out.append([comments + [line], name, is_def])
        comments = []
    if comments and out:
        out[-1][0].extend(comments)
    return out


def published(lines, name):
    """The item with `pub` in its first line, so that proofs/ can name it."""
    for i, line in enumerate(lines):
        m = re.match(r"(\s*)((?:abbrev |unfoldable )?)(pub )?((?:abbrev |unfoldable )?)((?:record |data )?)" + re.escape(name) + r"(?= )", line)
        if m and not line.strip().startswith("--"):
            if m.group(3):
                return lines
            first = m.group(1) + m.group(2) + "pub " + m.group(4) + m.group(5)
            return lines[:i] + [first + line[m.end(5) :]] + lines[i + 1 :]
    return lines


def take_back(files):
    """What tools/move_laws.py did to these files, undone."""
    for name in files:
        if os.path.exists(os.path.join(base, "specs", name + ".antt")):
            sys.exit(f"specs/{name}.antt stands already")
    for name in files:
        os.rename(os.path.join(base, "proofs", name + ".antt"), os.path.join(base, "specs", name + ".antt"))
        lib = os.path.join(base, "proofs", "Lib.antt")
        write(lib, re.sub(rf"(?m)^(?:pub )?mod {name}\n", "", text_of(lib)))
        lib = os.path.join(base, "specs", "Lib.antt")
        write(lib, text_of(lib).rstrip("\n") + f"\npub mod {name}\n")
    which = "|".join(re.escape(f) for f in files)
    for top in ("crates", "wrong-engines", "more-edits"):
        for folder, dirs, names in os.walk(os.path.join(root, top)):
            dirs[:] = [d for d in dirs if d not in ("out", ".git", "target")]
            for n in names:
                if n.endswith((".antt", ".rt", ".edit")):
                    p = os.path.join(folder, n)
                    t = text_of(p)
                    u = re.sub(rf"(Rattle\.{crate}\.)proofs(\.(?:{which}))(?![\w-])", r"\1specs\2", t)
                    if u != t:
                        write(p, u)


def explicit(params):
    return re.findall(r"\(([^():]+) :", params)


if back:
    take_back(files)
for name in files:
    p, q = os.path.join(base, "specs", name + ".antt"), os.path.join(base, "proofs", name + ".antt")
    if os.path.exists(q):
        sys.exit(f"{q} stands already")
    lines = text_of(p).rstrip("\n").split("\n")
    k = 0
    head, uses = [], []
    while k < len(lines) and (not lines[k].strip() or lines[k].startswith(("--", "use ", "pub use ", "unfoldable pub use ")) and not (lines[k].startswith("-- ----") and uses)):
        (uses if lines[k].startswith(("use ", "pub use ", "unfoldable pub use ")) else head).append(lines[k])
        k += 1
        if uses and k < len(lines) and lines[k].startswith("--"):
            break
    blocks, at = [], k
    while at < len(lines):
        if lines[at].startswith("module "):
            end = at + 1
            while end < len(lines) and (not lines[end].strip() or lines[end].startswith("  ")):
                end += 1
            blocks.append((lines[at], lines[at + 1 : end]))
            at = end
        else:
            end = at
            while end < len(lines) and not lines[end].startswith("module "):
                end += 1
            blocks.append((None, lines[at:end]))
            at = end
    specs, proofs, defs = [], [], []
    heading = []
    for module, body in blocks:
        items = items_of(body, 2 if module else 0)
        if not items:
            # comments between two blocks head the second
            heading += body
            continue
        kept = [it for it in items if it[2]]
        gone = [it for it in items if not it[2]]
        defs += [it[1] for it in kept if it[1]]
        if kept:
            specs += heading + ([module] if module else []) + [l for it in kept for l in published(it[0], it[1] or "\0")]
        if gone:
            out = [l for it in gone for l in it[0]]
            if module and kept:
                with_params = " ".join(explicit(module))
                for d in (it[1] for it in kept if it[1]):
                    out = [
                        l if re.match(r"\s*(unfolding |--)", l) else re.sub(r"(?<![\w.'\u25cc-])" + re.escape(d) + r"(?![\w'-])(?!\s*=\s)", f"({d} {with_params})", l)
                        for l in out
                    ]
            proofs += heading + ([module] if module else []) + out
        heading = []
    if not proofs:
        print(f"{name}: no theorem")
        continue
    # constructors and fields of what stays are cited by name too
    for i, line in enumerate(specs):
        # a record's fields, which proofs/ reads and builds
        if re.match(r"\s*(pub )?record .* where$", line):
            k = i + 1
            inner = len(line) - len(line.lstrip())
            while k < len(specs) and (not specs[k].strip() or len(specs[k]) - len(specs[k].lstrip()) > inner):
                specs[k] = re.sub(r"^(\s+)(?!pub |--)(?=[^\s:(){}]+(?: [^\s:(){}]+)* : )", r"\1pub ", specs[k])
                k += 1
    stays = "\n".join(specs)
    extra = []
    for m in re.finditer(r"(?m)^ *(?:pub )?data .* where\n((?: +.*\n?)*)", stays):
        extra += re.findall(r"(?m)^\s+(?:pub )?(" + NAME + r")(?: " + NAME + r")* :", m.group(1))
    lib = f"Rattle.{crate}.specs.{name}"
    first = [h for h in head if h.strip()]
    write(q, "\n".join([*first, *uses, *([f"use {lib}.{{{', '.join(dict.fromkeys(defs + extra))}}}"] if defs else []), "", *proofs]).rstrip("\n") + "\n")
    if defs:
        keeps = [u for u in uses if not re.match(rf"use Rattle\.{crate}\.proofs\.", u)]
        write(p, "\n".join([*first, *keeps, "", *specs]).rstrip("\n") + "\n")
    else:
        os.remove(p)
        lp = os.path.join(base, "specs", "Lib.antt")
        write(lp, re.sub(rf"(?m)^pub mod {name}\n", "", text_of(lp)))
    lp = os.path.join(base, "proofs", "Lib.antt")
    t = text_of(lp) if os.path.exists(lp) else "-- Lemmas, and the theorems that rest on definitions of specs/.\n"
    t = re.sub(rf"(?m)^(?:pub )?mod {name}\n", "", t)
    write(lp, t.rstrip("\n") + f"\npub mod {name}\n")
    print(f"{name}: {len(defs)} definitions stay")
