#!/usr/bin/env python3
"""Puts the Rust's answers into the recorded rows of crates/definition/proofs.

usage: pins.py ORACLE

ORACLE is the folder of the oracle, built. A row is a call with its input, and behind it the answer in parentheses. The
answers are written anew, so a row is added as its call with `()` behind it; a file whose answers are the Rust's stays as it is.
The input is a text, or in parentheses a row of bytes, in which texts may stand too; the call's name then ends with `_of`. A source
that ends inside a character is refused by 10 (`cut.py`), where the Rust refuses it by 2; of one with vertical tabs the Rust's
answer to tabs in their place is put in, but for unescaping (`tabs.py`).
"""
import re, subprocess, sys
from pathlib import Path

import cut, tabs

if len(sys.argv) < 2:
    sys.exit(__doc__)
TOP = Path(__file__).resolve().parent.parent
ORACLE = Path(sys.argv[1]) / "target/release/oracle"
KINDS = {int(n): k for k, n in re.findall(r"(\w+) = (\d+)", (TOP / "crates/definition/specs/SyntaxKind.antt").read_text())}
CALLS = {"reads": "read", "bodies": "body", "lists": "tokens", "breaks": "lines", "unescapes": "unescape"}
ESCAPES = {"n": "\n", "r": "\r", "t": "\t", "0": "\0"}
WIDTH = 140
TEXT = r'"(?:[^"\\]|\\.)*"'

def text_bytes(text):
    """The bytes of a text in antt, one for each character."""
    def character(m):
        return chr(int(m[1], 16)) if m[1] else ESCAPES.get(m[2], m[2])
    return re.sub(r"\\(?:[xu]\{?([0-9a-fA-F]+)\}?|(.))", character, text[1:-1], flags=re.S).encode("latin-1")

def source(term):
    """The bytes of an input in antt: its texts and numbers, one after another."""
    return b"".join(text_bytes(t) if t[0] == '"' else bytes([int(t, 16)]) for t in re.findall(rf"{TEXT}|0x[0-9A-F]+", term))

def shown(b):
    """A byte in a text of antt."""
    return {10: "\\n", 13: "\\r", 34: '\\"', 92: "\\\\"}.get(b) or (chr(b) if 32 <= b < 127 else "\\u{%x}" % b)

def kind(n):
    return f"K.{KINDS[int(n)]}" if int(n) in KINDS else n

def piece(line):
    """A line of a listing as a term."""
    word, *n = line.split(",")
    if word == "bytes":
        return 'ascii "%s"' % "".join(shown(int(x)) for x in n if x)
    at = {"node": [0], "leaf": [0], "token": [0], "error": [5, 6, 7]}.get(word, [])
    return " ".join([word] + [kind(x) if i in at else x for i, x in enumerate(n)])

def answer(call, term):
    given = source(term)
    got = subprocess.run([str(ORACLE), CALLS[call]], input=tabs.asked(CALLS[call], given), stdout=subprocess.PIPE, check=True).stdout.decode()
    return [piece(line) for line in cut.listing(got, given).splitlines()]

def laid(row, pieces):
    """Lines of at most WIDTH characters, if the pieces allow it."""
    lines, now = [], f"    {row} ({pieces[0]}"
    for p in pieces[1:]:
        if len(now) + len(p) + 8 > WIDTH:
            lines.append(now)
            now = f"    ++ {p}"
        else:
            now += f" ++ {p}"
    return "\n".join(lines + [now + ")"])

def renewed(m):
    return laid(m[1], answer(m[2], m[3])) + " ∷"

def main():
    rest = rf'\((?:{TEXT}|\([^()"]*\)|[^()"])*\)'
    row = re.compile(rf'^    (({"|".join(CALLS)})(?:_of)? ({TEXT}|{rest}))\s*\([^()]*\) ∷', re.M)
    for file in sorted((TOP / "crates/definition/proofs").glob("*.antt")):
        old = file.read_text()
        new, rows = row.subn(renewed, old)
        if rows:
            print(file.name, rows, "rows:", "as they were" if new == old else "written anew")
            file.write_text(new)

main()
