#!/usr/bin/env python3
"""Runs each input of docs/DIFFERENCES.md through the Rust, and prints what the row says beside the listing.

usage: differences.py ORACLE

ORACLE is the folder of the oracle, built (`cargo build --offline --release`). In an input ⏎ is byte 10 and «0B» the byte
of that number; "2 times `a` and `b`" is aab; "kinds 1 and 3" are pasted, "offset 0, no line" is looked up. The exit
status is 1 if a row names a kind or a refusal that none of its listings has, or is wrong about there being errors. A
source that ends inside a character is listed with 10 (`cut.py`), where the Rust refuses it by 2; an input with «0B» goes
through the Rust with a tab in its place (`tabs.py`).
"""
import re, subprocess, sys
from pathlib import Path

import cut, tabs

if len(sys.argv) != 2:
    sys.exit(__doc__)
TOP, ORACLE = Path(__file__).resolve().parent.parent, Path(sys.argv[1]) / "target/release/oracle"
KINDS = {n: k for k, n in re.findall(r"(\w+) = (\d+)", (TOP / "crates/definition/specs/SyntaxKind.antt").read_text())}
PART = r"(?:([\d,]+) times )?`([^`]+)`"

def source(text):
    return b"".join(bytes.fromhex(x) if i % 2 else x.encode() for i, x in enumerate(re.split("«(.*?)»", text.replace("⏎", "\n"))))

def inputs(cell):  # How each stands in the paper, the words of its call, and the bytes it is given.
    for m in re.finditer(rf"kinds (\d+) and (\d+)|offset (\d+), no line|{PART}(?: and {PART})*", cell):
        if m[1]:
            yield m[0], ["paste", m[1], m[2]], b""
        elif m[3]:
            yield m[0], ["lookup", m[3]], b""
        else:
            yield m[0], ["-v", "read"], b"".join(source(x) * int((n or "1").replace(",", "")) for n, x in re.findall(PART, m[0]))

def listing(words, given):  # The tree with brackets, and errors and lines as they are; and whether there are errors.
    tree, depth, others, errors = "", 0, "", False
    rust = subprocess.run([ORACLE, *words], input=tabs.asked(words[-1], given), stdout=subprocess.PIPE, check=True).stdout.decode()
    for line in cut.listing(rust, given).split():
        f = line.split(",")
        if f[0] in ("node", "leaf"):
            tree += ")" * (depth - int(f[2])) + f" {KINDS[f[1]]}" + "(" * (f[0] == "node")
            depth = int(f[2]) + (f[0] == "node")
        elif f[0] == "answer":
            refusal = f"refusal {f[1]}; " * (f[1] != "0") + KINDS.get(f[2], "") * (words[0] == "paste")
        elif f[0] in ("error", "line") or line == "variant,repaired":
            others, errors = f"{others}  {line}", errors or f[0] == "error"
    return refusal + (tree + ")" * depth).replace("( ", "(").strip() + others, errors

wrong = count = 0
for row in (TOP / "docs/DIFFERENCES.md").read_text().split("## What was compared")[0].splitlines():
    if not row.startswith("| ") or row.startswith(("| GLSL", "| The Rust")):
        continue
    theirs, ours, cell = row.strip("| ").split(" | ")
    runs = [(text, *listing(words, given)) for text, words, given in inputs(cell)]
    seen, errors = " ".join(r[1] for r in runs), any(r[2] for r in runs)
    bad = [k for k in KINDS.values() if re.search(rf"\b{k}\b", ours) and not re.search(rf"\b{k}\b", seen)]
    bad += [f"refusal {n}" for n in re.findall(r"\((\d+)\)", ours) if f"refusal {n};" not in seen]
    bad += ["no error"] * ("no error" in ours and errors) + ["an error"] * ("is an error" in ours and not errors)
    wrong, count = wrong + bool(bad), count + len(runs)
    print(f"{theirs}\n    {ours}", *(f"        {text}  {shown}" for text, shown, _ in runs), *(f"        WRONG: {b}" for b in bad), sep="\n")
print(f"{count} inputs, {wrong} rows wrong")
sys.exit(wrong > 0)
