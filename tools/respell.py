#!/usr/bin/env python3
"""Brings this repository's own definitions and lemmas to today's spelling (docs/PORT.md).

usage: python3 tools/respell.py [--collisions]   at the top of a repository that port.py has just turned; it is run once

- A word that begins small and has a capital inside is written in snake case: engineOf is engine_of.
- A lemma that would then have its function's name gets `_lem`.
- A dash of a name that specs/ or proofs/*.antt define becomes `_`, but where it stands between the names of two definitions: length-rise stays, rise-keeps is rise_keeps.
  Names of generated goals and steps keep theirs, and so do names that one function's own proof files define.
Files: crates/**/*.antt, clauses and comments of crates/**/*.rt (no string), must-fail/*.edit, more-edits/, wrong-engines/, and words in backticks in *.md.
Strings, the Rust code's names and exported names stay. --collisions only lists the names that would fall together.
"""
import os
import re
import sys

ROOT = os.path.dirname(os.path.dirname(os.path.abspath(__file__)))
KEPT = {"viewBox", "getD", "roundTiesToEven", "totalOrder", "n3A800000", "n3F800000"}
GENERATED = re.compile(r"^(invariant|decreases|loop|if|in|in_ok|in_err|returns|overflow|overflow_add|overflow_sub|overflow_mul|overflow_cast|bounds|slice_bounds|nonzero|nonzero_div|nonzero_rem|"
                       r"offset_bounds|prove|invariant_of|the|then|else|cast|float_to_int|enum|match|case|Need)-|-(requires|requires-\d+|init|preserved|smaller|spec|reads|kinds|index|iterator|item)$|-\d+$")
WORD = re.compile(r"(?<![0-9])[A-Za-z_\u00c0-\u024f\u0370-\u03ff\u2080-\u209c\u1d00-\u1dbf\u2100-\u214f][A-Za-z0-9_'\u00c0-\u024f\u0370-\u03ff\u2080-\u209c\u1d00-\u1dbf\u2100-\u214f-]*")
CAMEL = re.compile(r"^[a-z][A-Za-z0-9_'\u2080-\u209c\u1d00-\u1dbf-]*$")
STD = {"length", "take", "drop", "map", "reverse", "replicate", "append", "set", "get", "get_or", "sum", "all", "any", "filter", "min", "max", "round", "add", "sub", "mul", "div", "to_bits", "from_bits", "lt", "le", "eq", "add_comm",
       "up", "down", "fits", "not", "cond", "is_nan", "nan_bits"}
# Words that would fall together with another of their file, by file.
APART = {"crates/lists/specs/Sounding.antt": "but_last", "crates/live/proofs/Again.antt": "reset_by", "crates/resuming/specs/Moved.antt": "read_back"}


def small(word):
    """engineOf -> engine_of, inF32 -> in_f32; a part that begins with a capital (a type's name, behind a dash) stays."""
    if word in KEPT or not CAMEL.match(word):
        return word
    out = []
    for part in word.split("-"):
        if part == "getD":
            part = "get_or"
        elif part[:1].islower():
            part = re.sub(r"(?<=[a-z0-9])([A-Z])(?=[A-Z0-9]*[a-z0-9']|$|_)", lambda m: "_" + m.group(1).lower(), part)
            part = re.sub(r"_([a-z])([A-Z0-9]+)(?=$|_)", lambda m: "_" + m.group(1) + m.group(2).lower(), part)
        out.append(part)
    return "-".join(out)


def files(*ends):
    for top in ("crates", "more-edits", "wrong-engines", "docs", "bench", "oracle", "text", "examples", "bindings", ".ci"):
        for folder, dirs, names in os.walk(os.path.join(ROOT, top)):
            dirs[:] = sorted(d for d in dirs if d not in ("out", "target", ".git"))
            for n in sorted(names):
                if n.endswith(ends):
                    yield os.path.join(folder, n)


def read(p):
    with open(p, encoding="utf-8") as f:
        return f.read()


def is_function_folder(p):
    """proofs/F/..: the files of one function, whose own names stay."""
    parts = os.path.relpath(p, ROOT).split(os.sep)
    return len(parts) > 4 and parts[2] == "proofs"


def defined():
    """(plain names without a dash, names with a dash) that specs/ and proofs/*.antt define: definitions, fields, constructors."""
    plain, dashed = set(STD), set()
    for p in files(".antt"):
        if is_function_folder(p):
            continue
        block = None
        for line in read(p).splitlines():
            m = re.match(r"(?:abbrev |unfoldable )?(?:pub )?(?:abbrev |unfoldable )?(?:data |record )?([^\s:(){}]+)(?=\s|$)", line)
            if line[:1] not in (" ", "-", "") and m and m.group(1) not in ("use", "infixl", "infixr", "infix", "unfolding", "mod", "pub", "open", "ruleset"):
                name = m.group(1)
                (dashed if "-" in name and not name.startswith("\u25cc") else plain).add(name)
            for f in re.findall(r"^\s+(?:pub )?([^\s:(){};]+) :(?= |$)", line):
                if "-" in f and WORD.fullmatch(f):
                    dashed.add(f)
    dashed = {d for d in dashed if WORD.fullmatch(d) and not GENERATED.search(d)}
    return {small(p) for p in plain}, dashed


PLAIN, DASHED = defined()
TURN = {}


def turned(word):
    if word in TURN:
        return TURN[word]
    to = small(word)
    if word in DASHED:
        parts = to.split("-")
        name = parts[0]
        for a, b in zip(parts, parts[1:]):
            name += ("-" if a in PLAIN and b in PLAIN else "_") + b
        to = name + ("_lem" if name in PLAIN else "")
    TURN[word] = to
    return to


def antt(text):
    """Code of an antt file: no strings; of comments the words in backticks and those with a capital inside."""
    out = []
    for piece in re.split(r'("(?:[^"\\\n]|\\.)*")', text):
        if piece.startswith('"') and piece.endswith('"') and len(piece) > 1:
            out.append(piece)
            continue
        lines = []
        for line in piece.split("\n"):
            m = re.search(r"(?:^|(?<=\s))--(?=\s|$)", line)
            code, comment = (line[: m.start()], line[m.start() :]) if m else (line, "")
            code = WORD.sub(lambda w: turned(w.group()), code)
            lines.append(code + prose(comment))
        out.append("\n".join(lines))
    return "".join(out)


def prose(text):
    text = re.sub(r"`[^`\n]+`", lambda m: WORD.sub(lambda w: turned(w.group()), m.group()), text)
    return WORD.sub(lambda w: small(w.group()) if w.group() in CAMELS else w.group(), text)


def rust(text):
    """A source file: words with a capital inside, outside strings (Rust's own words begin with a capital or have none)."""
    out = []
    for piece in re.split(r'(b?"(?:[^"\\]|\\.)*")', text):
        out.append(piece if re.match(r'b?"', piece) else re.sub(r"(?<![0-9])[a-z][A-Za-z0-9_']*", lambda w: small(w.group()) if w.group() in CAMELS else w.group(), re.sub(r"(?<![A-Za-z0-9_])(?=[a-z])", "", piece)))
    return "".join(out)


def camels():
    seen = set()
    for p in files(".antt"):
        for line in re.sub(r'"(?:[^"\\\n]|\\.)*"', "", read(p)).splitlines():
            for w in WORD.findall(line.split("-- ")[0] if not line.startswith("--") else ""):
                for part in w.split("-"):
                    if small(part) != part:
                        seen.add(part)
    return seen


CAMELS = camels() | {"digitOf", "hasNumber", "mixedBy", "noPlace"}  # the last four stand in `as` of ghost use lines alone


def edit(text):
    """A must-fail edit: what it replaces and puts there, by the kind of its file."""
    out, kind = [], ".rt"
    for line in text.split("\n"):
        m = re.match(r"file: (\S+)", line)
        if m:
            kind = os.path.splitext(m.group(1))[1]
        if re.match(r"(old|new): ", line):
            line = line[:5] + (antt(line[5:]) if kind == ".antt" else rust(line[5:]))
        out.append(line)
    return "\n".join(out)


def main():
    together = 0
    for p in files(".antt"):
        by = {}
        for w in set(WORD.findall(re.sub(r"(?m)--\s.*$", "", re.sub(r'"(?:[^"\\\n]|\\.)*"', "", read(p))))):
            by.setdefault(turned(w), set()).add(w)
        for to, ws in sorted(by.items()):
            if len(ws) > 1:
                together += 1
                print(f"{os.path.relpath(p, ROOT)}: {', '.join(sorted(ws))} fall together")
    if "--collisions" in sys.argv:
        print(f"{len(CAMELS)} words with a capital inside, {sum(turned(d) != d for d in DASHED)} of {len(DASHED)} names with a dash change; {together} names fall together")
        return
    changed = 0
    for ends, turn in ((".antt", antt), (".rt", rust), (".edit", edit), (".md", prose)):
        for p in files(ends):
            if p.endswith(".md") and os.path.relpath(p, ROOT).split(os.sep)[0] == "docs" and os.path.basename(p)[:2] in ("01", "02", "90", "91"):
                continue
            t = read(p)
            apart = APART.get(os.path.relpath(p, ROOT))
            u = turn(re.sub(r"(?<![\w'-])" + apart + r"(?![\w'-])", apart + "_lem", t) if apart else t)
            if u != t:
                changed += 1
                with open(p, "w", encoding="utf-8") as f:
                    f.write(u)
    print(f"respell: {changed} files changed")


if __name__ == "__main__":
    main()
