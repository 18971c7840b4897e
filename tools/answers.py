#!/usr/bin/env python3
"""Turns a function's Proof.antt, which walks the code by hand, into Invariants.antt and Answers.antt (docs/PORT.md).

usage: python3 tools/answers.py CRATE_FOLDER NAMES.json [FUNCTION_FOLDER ..]

NAMES.json is what `rattle check --generated DIR --old-names` writes for the crate. An answer that only searches is left out: the check searches by itself.
What it cannot turn it says in a line `left:`, and keeps the Proof.antt.
"""
import json
import os
import re
import sys

W = r"[^\s(){}\[\],;.@\"\\]+"
PATH = re.compile(r"(?<![\w.'\u2080-\u2089-])([A-Za-z_][\w'\u2080-\u2089-]*)((?:\.[A-Za-z0-9_\u2080-\u2089'+][\w'\u2080-\u2089+-]*)+)")
norm = lambda s: re.sub(r"[-_]+", "_", s)


def closing(text, at):
    """The place behind the bracket that closes the one at `at`."""
    pairs, depth = {"(": ")", "{": "}", "[": "]"}, 0
    for k in range(at, len(text)):
        if text[k] in "([{":
            depth += 1
        elif text[k] in ")]}":
            depth -= 1
            if depth == 0:
                return k + 1
    return len(text)


def words_of(text):
    """The arguments of an application: words and bracketed terms."""
    out, k = [], 0
    while k < len(text):
        if text[k].isspace():
            k += 1
            continue
        start = k
        while k < len(text) and not text[k].isspace():
            k = closing(text, k) if text[k] in "([{" else k + 1
        out.append(text[start:k])
    return out


class Names:
    def __init__(self, of):
        self.of = of
        self.parent, self.step, self.fields, self.index = {}, {}, {}, {}
        for i, (name, parent, step, callee, renames) in enumerate(of["places"]):
            self.parent[name], self.step[name], self.fields[name], self.index[name] = parent, step, renames, i
        self.new_place = {old[0]: new for old, new in zip(of["places"], of["places_by_name"])}
        self.by_norm = {norm(p): p for p in self.parent}
        self.args = {}
        for pair in of["args"]:
            if len(pair) == 2 and pair[0].startswith("."):
                a, b = (it.strip().lstrip(".").split(" .") for it in pair)
                if len(a) == 2 and len(b) == 2:
                    self.args[(a[0], a[1])] = b[1]

    def up(self, place, n):
        for _ in range(n):
            place = self.parent.get(place) or place
        return place

    def path(self, place, fields):
        """The fields in their new spelling, read off a record at the place; and the place where only `before`s were read."""
        n = 0
        while n < len(fields) and fields[n] == "before":
            n += 1
        at = self.up(place, n)
        rest = fields[n:]
        if not rest:
            return fields, at
        head = rest[0]
        if norm(head) in ("well_formed", "type_inv"):
            return [norm(head), *rest[1:]], None
        if head in ("args", "ranges"):
            if len(rest) > 1 and (head, rest[1]) in self.args:
                rest = [head, self.args[(head, rest[1])], *rest[2:]]
            return rest, None
        q = at
        while q is not None and norm(self.step[q][0]) != norm(head):
            q = self.parent[q]
        if q is None:
            for t in self.of["typed"][self.index[at]]:
                if norm(t[1]) == norm(head):
                    return ["type_inv", t[0], *[f for f in rest[1:] if f != "given"]], None
            return rest, None
        i = self.index[q]
        arm = self.of["arms"][i]
        if arm:
            for new, old, below in sorted(arm[2], key=lambda it: -len(it[2])):
                if norm(old) == norm(head) and [norm(b) for b in below] == [norm(r) for r in rest[1 : 1 + len(below)]] and below:
                    return [arm[0], new, *rest[1 + len(below) :]], None
        out = [self.step[q][1], *rest[1:]]
        if len(out) > 1:
            for old, new in self.fields[q]:
                if norm(old) == norm(out[1]):
                    out[1] = new
                    break
        clauses = self.of["clauses"][i]
        if clauses and len(out) > 2 and out[1] == "ensures" and out[2].isdigit() and int(out[2]) < len(clauses["fields"]):
            out[2] = clauses["fields"][int(out[2])]
        return out, None


def rewritten(body, names, place, var="c"):
    """A term with each path off `var` (a record at the place) in its new spelling. A variable that a let binds to an outer record is followed."""
    known = {var: place}
    out, at = [], 0
    token = re.compile(r"\blet ([\w'-]+) = (?=([\w'\u2080-\u2089-]+)((?:\.before)*) in\b)|" + PATH.pattern)
    for m in token.finditer(body):
        out.append(body[at : m.start()])
        at = m.end()
        if m.group(1):
            if m.group(2) in known:
                known[m.group(1)] = names.up(known[m.group(2)], m.group(3).count(".before"))
            out.append(m.group(0))
            continue
        head, fields = m.group(4), m.group(5).lstrip(".").split(".")
        if head in known and known[head] is not None:
            new, _ = names.path(known[head], fields)
            out.append(".".join([head, *new]))
        else:
            out.append(m.group(0))
    out.append(body[at:])
    return "".join(out)


def as_record(body, fields):
    """A tuple at a term's end as a record with the clauses' names."""
    text = body.rstrip()
    if not text.endswith(")"):
        return body
    starts = [k for k in range(len(text)) if text[k] == "(" and closing(text, k) == len(text)]
    if not starts:
        return body
    k = starts[0]
    before = text[:k].rstrip()
    if before and not before.endswith((" in", "\u21a6", "=", "\nin")) and not re.search(r"\bin$", before):
        return body
    parts, depth, last = [], 0, k + 1
    inner = text[k + 1 : -1]
    for j, ch in enumerate(inner):
        depth += (ch in "([{") - (ch in ")]}")
        if ch == "," and depth == 0:
            parts.append(inner[last - k - 1 : j])
            last = k + 1 + j + 1
    parts.append(inner[last - k - 1 :])
    if len(parts) == 2 and len(fields) > 2:
        return body
    if len(parts) != len(fields):
        return body
    return text[:k] + "record { " + "; ".join(f"{f} = {p.strip()}" for f, p in zip(fields, parts)) + " }"


SEARCH = re.compile(r"^\(\u03bb (?:[\w\u03ba]+ ?)+\. search rules\)$|^\(\u03bb [\w\s\u03ba]+\.\s*(?:search rules|search needs)\)$")


def blocks_of(text):
    """(uses, blocks): each block is a list of lines that begins at a top-level declaration, with the comments above it."""
    uses, blocks, comments = [], [], []
    for line in text.split("\n"):
        if line.startswith("use ") or line.startswith("pub use "):
            uses += comments if uses and comments else []
            if not uses and comments:
                uses += comments
            comments = []
            uses.append(line)
        elif line.startswith("--"):
            comments.append(line)
        elif not line.strip():
            if blocks and not comments:
                blocks[-1].append(line)
            elif comments and not uses and not blocks:
                uses += comments
                comments = []
        elif line[0].isspace():
            (blocks[-1] if blocks else uses).append(line)
        else:
            blocks.append([*comments, line])
            comments = []
    return uses, blocks


def declarations(blocks):
    """Blocks joined by the name that they declare: its signature, unfolding line and equations."""
    out = []
    for b in blocks:
        first = next(l for l in b if not l.startswith("--"))
        m = re.match(r"(?:abbrev |unfoldable )?(?:pub )?(?:abbrev |unfoldable )?([^\s:(){}]+)(\s+:(?:\s|$))?", first)
        word = m.group(1) if m else first
        if word in ("infixl", "infixr", "infix", "module", "record", "data", "open") or first.startswith(("pub record", "pub data", "module")):
            out.append({"name": None, "lines": list(b), "type": ""})
        elif m and m.group(2):
            text = "\n".join(b)
            out.append({"name": word, "lines": list(b), "type": text[text.index(" :") + 2 :] if " :" in text else ""})
        elif out and (first.startswith("unfolding") or word == out[-1]["name"]):
            out[-1]["lines"] += b
        else:
            out.append({"name": None, "lines": list(b), "type": ""})
    return out


def equation(d):
    """(lines above the equation, its parameters, its body), of a declaration with one equation."""
    text = "\n".join(d["lines"])
    m = list(re.finditer(r"(?m)^" + re.escape(d["name"]) + r"((?: [^=\n:]*)?) =(?=\s)", text))
    if len(m) != 1:
        return None
    m = m[0]
    return text[: m.start()], m.group(1).split(), text[m.end() :]


def turn(folder, crate, names, says):
    path = os.path.join(folder, "Proof.antt")
    text = open(path, encoding="utf-8").read()
    home = os.path.relpath(folder, os.path.join(crate, "proofs")).replace(os.sep, ".")
    lib = os.path.basename(os.path.abspath(crate))
    key = next((k for k in names if k == f"Rattle-{lib}-proofs.{home}.Lts"), None)
    if key is None:
        says(f"left: {path}: no names of {home}")
        return
    n = Names(names[key])
    uses, blocks = blocks_of(text)
    decls = declarations(blocks)
    spec = next((d for d in decls if d["name"] and re.search(r"\btie\.close\b|\btie\.spec\b", "\n".join(d["lines"]))), None)
    if spec is None:
        says(f"left: {path}: no tie.spec")
        return
    body = "\n".join(spec["lines"])
    at = body.find("tie.spec") + len("tie.spec")
    end = len(body)
    open_at = body.rfind("(", 0, at)
    if open_at >= 0 and body[open_at + 1 :].lstrip().startswith("tie.spec"):
        end = closing(body, open_at) - 1
    args = words_of(body[at:end])
    own = {d["name"]: d for d in decls if d["name"]}
    given = [a for a in args if re.match(r"(invariant|decreases)-", a)]
    rest = [a for a in args if a not in given]
    needs = n.of["needs"]
    new_of = dict((norm(a), b) for a, b in needs)
    goal_of = {}
    if len(rest) == len(needs):
        for a, (old, new) in zip(rest, needs):
            goal_of.setdefault(a, []).append((old, new))
    else:
        says(f"look: {path}: {len(rest)} answers for {len(needs)} goals, {[x for x, _ in needs]}")
        for a in rest:
            d = own.get(a)
            m = d and re.search(r"tie\.Need-(\S+)", d["type"])
            if m:
                old = norm(m.group(1))
                hit = new_of.get(old) or next((new for o, new in needs if norm(o).endswith(old.split("_", 1)[-1]) or norm(new) == old), None)
                if hit:
                    goal_of.setdefault(a, []).append((next(o for o, x in needs if x == hit), hit))
                else:
                    says(f"left: {path}: no goal for {a}")
                    goal_of.setdefault(a, []).append((None, m.group(1)))
            elif not SEARCH.match(a):
                says(f"left: {path}: inline answer {a[:120]}")
    place_of = {}
    for (old, new), (op, np) in zip(needs, n.of["asked_at"]):
        place_of[new] = op

    # Invariants
    invariants, helpers, answers = [], [], []
    loops = {l[0][0]: (l[0][1], l[1], ch) for l, ch in zip(n.of["loops"], n.of["changed"])}
    made = {}
    for d in decls:
        m = d["name"] and re.search(r"tie\.(invariant|decreases)-(\S+)", d["type"])
        if not m:
            continue
        kind, loop = m.group(1), m.group(2)
        hit = next((v for k, v in loops.items() if norm(k) == norm(loop)), None)
        eq = equation(d)
        if hit is None or eq is None:
            says(f"left: {path}: {kind}-{loop}")
            continue
        step, vars_, changed = hit
        params = [*[("l.initial." if c else "l.") + v for v, c in zip(vars_, changed)], *["l." + v for v, c in zip(vars_, changed) if c]]
        above, ps, b = eq
        if len(ps) != len(params) and all(not re.search(r"(?<![\w.'])" + re.escape(q) + r"(?![\w'])", b) or q.rstrip("\u2080") in vars_ for q in ps):
            # The loop has other variables now: by their names.
            params = [("l.initial." if q.endswith("\u2080") else "l.") + q.rstrip("\u2080") for q in ps]
        if len(ps) != len(params):
            says(f"left: {path}: {kind}-{loop} takes {len(ps)} values, {params}")
            continue
        for p, to in zip(ps, params):
            if p != "_":
                b = re.sub(r"(?<![\w.'\u2080-\u2089-])" + re.escape(p) + r"(?![\w'\u2080-\u2089-])", "@@" + to.replace(".", "@"), b)
        b = b.replace("@@l@initial@", "l.initial.").replace("@@l@", "l.")
        comments = [l for l in d["lines"] if l.startswith("--")]
        new = f"{kind}-{step}"
        made[d["name"]] = new
        unf = re.search(r"(?m)^unfolding .*$", above)
        invariants.append((comments, new, (unf.group(0) + "\n" if unf else ""), b, d))

    answer_names, places_used = {}, set()
    for a, hits in goal_of.items():
        if a in own and hits:
            answer_names[a] = hits[0][1]
    for d in decls:
        if d is spec or (d["name"] and re.search(r"tie\.(invariant|decreases)-", d["type"]) and d["name"] in made):
            continue
        if d["name"] in goal_of:
            eq = equation(d)
            comments = [l for l in d["lines"] if l.startswith("--")]
            for old, new in goal_of[d["name"]]:
                if eq is None:
                    says(f"left: {path}: {d['name']} has no single equation")
                    continue
                above, ps, b = eq
                var = ps[0] if ps else "c"
                b = rewritten(b, n, place_of.get(new, "Start"), var)
                fields = n.of["asked"].get(old)
                if fields:
                    b = as_record(b, fields)
                unf = re.search(r"(?m)^unfolding .*$", above)
                head = f"pub {new} : goal.{new}\n" + (unf.group(0) + "\n" if unf else "")
                answers.append("\n".join(comments) + ("\n" if comments else "") + head + f"{new} {var} ={b.rstrip()}" if ps else head + f"{new} ={b.rstrip()}")
        else:
            t = "\n".join(d["lines"]).rstrip()
            kind, at_place = "plain", None
            for m in list(re.finditer(r"(?:tie|lts)\.([A-Z][\w-]*)((?: \([^()]*\)| [\w-]+\.[A-Z][\w-]*)*)", t)):
                place = n.by_norm.get(norm(m.group(1)))
                if place:
                    kind, at_place = "place", n.new_place[place]
                    v = re.search(r"\(([\w']+) : " + re.escape(m.group(0)) + r"\)", t)
                    t = t.replace(m.group(0), at_place)
                    eq = equation({"name": d["name"], "lines": t.split("\n")}) if d["name"] else None
                    var = v.group(1) if v else (eq[1][0] if eq and eq[1] else "c")
                    t = rewritten(t, n, place, var)
                    places_used.add(at_place)
            helpers.append((kind, at_place, d["name"], t))
    for a, hits in goal_of.items():
        if a not in own and not SEARCH.match(a):
            m = re.match(r"^\(\u03bb ([\w\u03ba]+)(?: [\w\u03ba]+)*\.\s*(.*)\)$", a, re.S)
            for old, new in hits:
                if m:
                    b = rewritten(m.group(2), n, place_of.get(new, "Start"), m.group(1))
                    fields = n.of["asked"].get(old)
                    if fields:
                        b = as_record(b, fields)
                    answers.append(f"pub {new} : goal.{new}\n{new} {m.group(1)} = {b}")
                elif re.fullmatch(W, a):
                    answers.append(f"pub {new} : goal.{new}\n{new} = {a}")
                else:
                    says(f"left: {path}: answer {a[:100]}")

    head = [u for u in uses if u.startswith("--")]
    plain = [u for u in uses if not re.search(r"\.Statement\.\{statement\}|\.Tie as tie|borrow\.Author\.Needs", u) and not u.startswith("--")]
    # helpers that invariants cite stand with them
    cited, more = set(), True
    inv_text = "\n".join(b for *_, b, _ in invariants)
    while more:
        more = False
        for kind, place, name, t in helpers:
            if name and name not in cited and re.search(r"(?<![\w.'-])" + re.escape(name) + r"(?![\w'-])", inv_text):
                cited.add(name)
                inv_text += t
                more = True
    if invariants:
        out = [*head, *plain, f"use Rattle.{lib}.proofs.{home}.Given as goal", ""]
        for kind, place, name, t in helpers:
            if name in cited:
                out += [t if re.match(r"(?s)(--[^\n]*\n)*(abbrev |unfoldable )?pub ", t) else re.sub(r"(?m)^((?:abbrev |unfoldable )?)(?=" + re.escape(name) + " :)", r"\1pub ", t, count=1), ""]
        for comments, new, unf, b, d in invariants:
            out += [*comments, f"abbrev pub {new} : goal.{new}", f"{unf}{new} l ={b.rstrip()}", ""]
        with open(os.path.join(folder, "Invariants.antt"), "w", encoding="utf-8") as f:
            f.write("\n".join(out).rstrip() + "\n")
    places = sorted(places_used)
    if answers or [h for h in helpers if h[2] not in cited]:
        out = [*head, *plain]
        out += [f"use Rattle.{lib}.proofs.{home}.Goals as goal"]
        out += [f"use Rattle.{lib}.proofs.{home}.Goals.{{{', '.join(places)}}}"] if places else []
        out += [f"use Rattle.{lib}.proofs.{home}.Invariants.{{{', '.join(sorted(cited))}}}"] if cited else []
        out += [""]
        for kind, place, name, t in helpers:
            if name not in cited:
                out += [t, ""]
        for a in answers:
            out += [a, ""]
        below = "\n".join(l for l in out if not l.startswith("use "))
        out = [l for l in out if not (re.match(r"use \S+\.(Reads|Lts|Kinds) as (\S+)$", l) and not re.search(r"(?<![\w.-])" + re.escape(l.split(" as ")[1]) + r"\.", below))]
        done = "\n".join(out).rstrip() + "\n"
        with open(os.path.join(folder, "Answers.antt"), "w", encoding="utf-8") as f:
            f.write(done)
    os.remove(path)


def main():
    crate, listed, *only = sys.argv[1:]
    names = json.load(open(listed))
    for folder, dirs, files in sorted(os.walk(os.path.join(crate, "proofs"))):
        if "Proof.antt" in files and "/out" not in folder and (not only or any(os.path.abspath(folder) == os.path.abspath(o) for o in only)):
            try:
                turn(folder, crate, names, print)
            except Exception as e:  # a proof of a form that is not foreseen
                print(f"left: {folder}: {type(e).__name__} {e}")


if __name__ == "__main__":
    main()
