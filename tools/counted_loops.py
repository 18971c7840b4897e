#!/usr/bin/env python3
"""counted_loops.py: of the `while` loops in crates/*/src, those whose body steps a variable of the test by one. Run at the top of the repository.

Prints the two numbers (stepping by one, all), and then each of the others, which do not count an index.
"""
import glob
import re

LOOP = re.compile(r"(\s*)while (.*) \{$")
loops = []
for path in sorted(glob.glob("crates/*/src/**/*.rt", recursive=True)):
    lines = open(path, encoding="utf-8").read().split("\n")
    for at, line in enumerate(lines):
        found = LOOP.match(line)
        if not found:
            continue
        body = []
        for inner in lines[at + 1 :]:
            if inner.startswith(found.group(1) + "}"):
                break
            body.append(inner)
        text = "\n".join(body)
        tested = re.findall(r"\b[a-z_]+\b", found.group(2))
        steps = any(re.search(rf"\b{v} = {v} [+-] 1;|\b{v} [+-]= 1;", text) for v in tested)
        loops.append((path, at + 1, found.group(2), steps))

print(sum(steps for *_, steps in loops), len(loops))
for path, at, test, steps in loops:
    if not steps:
        print(f"{path}:{at}: while {test}")
