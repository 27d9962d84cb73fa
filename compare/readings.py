#!/usr/bin/env python3
"""Writes the sources that the program `readings` shows, and what it must print, from the Rust's answers.

usage: readings.py ORACLE CRATE

ORACLE is the folder of the oracle, built. CRATE (crates/readings) gets data/NAME for each source, their names in args, and
stdout: the listing of each source, or `long`, and then a line for each length of tables: refusal, counts, and how many
numbers of each table are not 0 afterwards. Of tables that are too short, which the Rust does not have, it is document 01's
answer. A source that ends inside a character is refused by 10 (`cut.py`), where the Rust refuses it by 2; one with vertical
tabs is shown by its answer to tabs in their place (`tabs.py`).
"""
import subprocess, sys
from pathlib import Path

import cut, tabs

if len(sys.argv) != 3:
    sys.exit(__doc__)
ORACLE, CRATE = Path(sys.argv[1]) / "target/release/oracle", Path(sys.argv[2])
LONGEST = 512

# The worked readings of document 01, sources that are not UTF-8, 256 and 257 ## in each body, in a group and in text; sources that end
# inside a character, and others that end as if they did; sources with vertical tabs.
SOURCES = {
    "empty": b"", "hash": b"#", "pp_empty": b"#\n", "undef": b"#undef\nfoo\n", "group": b"#(a)\n", "stars": b"/***/", "digits": b"1.2.3",
    "backslash": b"abc\\d", "newlines": b"\n\r\n", "left_op": b"<<<", "comma": b"#define F(a,) a\n", "version": b"#version\ncore\n", "unknown": b"#a",
    "arguments": b"#define F(a b,) a ## b\n", "no_arguments": b"#define F (a)\n", "extension": b"#extension", "unended": b"#((a)\n",
    "include": b"#include /*\n*/ <a\nb>\n", "comments": b"/*\n\r*/ a // b\n", "cut_off": b"#undef \xc3", "surrogate": b"\xed\xa0\x80\n", "concat_end": b"#if a ## b",
    **{f"{word}_{count}": b"#%s %s\n" % (word.encode(), b"##" * count) for word in ("include", "define a", "line", "error", "pragma", "if", "elif") for count in (256, 257)},
    "group_257": b"#(" + b"##" * 257 + b")\n", "text_257": b"##" * 257 + b"\n", "body_256": b"a##" * 256, "body_257": b"a##" * 257,
    "cut_alone": b"\xe9", "cut_text": "a = b; // \xe9\n".encode() + b"\xe2\x82", "cut_comment": "/* \u20ac\n".encode() + b"\xf0\x9f\x98", "cut_directive": b"#a\n#define f(a) \xf4\x8f",
    "cut_body": b"a ## \xe0\xa0", "cut_group": b"#(a\n\xed\x9f", "cut_string": b"#include <\xf0\x9f", "cut_257": b"#if " + b"##" * 257 + b"\n\xc3",
    "latin_1": b"/* \xe9t\xe9 */\n", "latin_1_end": b"// caf\xe9",
    **{"broken_" + end.hex("_"): end for end in (b"\xc3\xc3", b"\xff\xc3", b"\xc0", b"\xc1", b"\xf5", b"\xe0\x80", b"\xed\xa0", b"\xf0\x80", b"\xf4\x90")},
    "broken_text": b"#undef a\n\xc3\xc3", "broken_257": b"#if " + b"##" * 257 + b"\n\xff\xc3",
    "vt_alone": b"\x0b", "vt_blanks": b"a \x0b\t\x0c\x0bb\x0b\n\x0b", "vt_before_hash": b"\x0b#else\n", "vt_behind_hash": b"#\x0belse\n", "vt_hash": b"\x0b#\x0b", "vt_text": b"a\x0b#else\n",
    "vt_directive": b"\x0b#\x0bifdef\x0ba\x0b\n#\x0bendif\x0b\n", "vt_define": b"#define\x0bf(\x0ba\x0b,\x0bb\x0b)\x0ba\x0b##\x0bb\x0b\n", "vt_no_arguments": b"#define f\x0b(a)\n",
    "vt_undef": b"#undef\x0b\na\x0b\n", "vt_unknown": b"#\x0bfoo\x0ba\n", "vt_extra": b"#else\x0ba\x0bb\n", "vt_version": b"#version\x0b450\x0bcore\n", "vt_extension": b"#extension\x0ba\x0b:\x0bb\n",
    "vt_include": b"#include\x0b<a\x0bb>\x0b\n", "vt_group": b"#\x0b(\x0ba\x0b)\x0b#\n", "vt_comment": b"/*\x0b*/\x0b//\x0b\\\x0b\n", "vt_string": b"\"\x0b\"\x0b\"\x0b", "vt_backslash": b"\\\x0b\n\x0b\\\n\x0ba\\\x0b",
    "vt_parts": b"de\x0bfined 1\x0b.5 <\x0b< /\x0b*", "vt_characters": "\xe9\v\u20ac\v".encode(), "vt_256": b"#if" + b"\x0b##" * 256 + b"\n", "vt_257": b"#if" + b"\x0b##" * 257 + b"\n",
    "vt_refused": b"#undef\x0ba\x0b\xe2\x82", "vt_broken": b"\xe2\x0b\x82",
}
SOURCES = {name.replace("define a", "define"): source for name, source in SOURCES.items()}

def answered(call, source):
    """The listing of a call, and its numbers, line by line."""
    listing = cut.listing(subprocess.run([str(ORACLE), call], input=tabs.asked(call, source), stdout=subprocess.PIPE, check=True).stdout.decode(), source)
    return listing, [line.split(",") for line in listing.splitlines()]

def row(words, *numbers):
    return ",".join([words, *map(str, numbers)]) + "\n"

def tables(rows):
    """The numbers of the three tables."""
    form = {"node": 1, "leaf": 0}
    entries = [n for word, *numbers in rows if word in form for n in [form[word], *map(int, numbers)]]
    return entries, *([int(n) for word, *numbers in rows if word == name for n in numbers] for name in ("error", "line"))

def nonzero(table):
    return sum(n != 0 for n in table)

def readings(source):
    listing, rows = answered("read", source)
    yield "long\n" if len(source) > LONGEST else listing
    answer, found = [int(n) for n in rows[0][1:]], tables(rows)
    yield row("long enough", *answer, *map(nonzero, found))
    if answer[0]:
        yield row("none", *answer, 0, 0, 0)
        return
    yield row("just enough", *answer, *map(nonzero, found))
    zeros = [0] * 6
    yield row("entries short", 4, *zeros)
    yield row("lines short", 6, *zeros)
    if found[1]:
        yield row("errors short", 5, *zeros)
    yield row("all short", 4, *zeros)
    yield row("none", 4, *zeros)
    if found[1]:
        yield row("errors and lines short", 5, *zeros)

def bodies(source):
    _, rows = answered("body", source)
    refusal, count = [int(n) for n in rows[0][1:]]
    yield row("body", refusal, count, nonzero(tables(rows)[0]))
    if refusal:
        yield row("body none", refusal, 0, 0)
        return
    yield row("body just enough", 0, count, nonzero(tables(rows)[0]))
    yield row("body short", 4, 0, 0)

def main():
    (CRATE / "data").mkdir(exist_ok=True)
    for name, source in SOURCES.items():
        (CRATE / "data" / name).write_bytes(source)
    (CRATE / "args").write_text("".join(f"{name}\n" for name in SOURCES))
    (CRATE / "stdout").write_text("".join(f"{name}\n{''.join(readings(source))}{''.join(bodies(source))}" for name, source in SOURCES.items()))

main()
