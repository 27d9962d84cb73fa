#!/usr/bin/env python3
"""Records the Rust's answers to the seven exported calls, for a program that replays them.

usage: record.py ORACLE FOLDER

ORACLE is the folder of the oracle, built (`cargo build --offline --release`). FOLDER gets a file for each call: read,
body, tokens, lines, unescape, lookup, paste. A file is a row of records. A record: how many bytes its input has (two
bytes), a number n (four bytes), the input, and the numbers that answer. Numbers are little endian. A number of the answer
is one byte, below 254; or 254 and two bytes; or 255 and four.
  read: n is the length of the entry table. The input is the lengths of the error table and of the line table (four bytes
    each), and the source. Answer: refusal, counts of entries, errors and lines, and then every number of the three tables.
  body, tokens, lines, unescape: the input is a source, and n the length of the table. Answer: refusal, count, and then
    every number (or byte) of the table.
  lookup: n is the offset, the input the line starts (four bytes each). Answer: refusal, line, column.
  paste: n is the first kind, the input the second (four bytes). Answer: refusal, kind.
Tables are just long enough, and some longer or one number short, of a reading each alone and together. The Rust has no
tables: what it does not use of one is 0, and of one that is too short document 01's answer is recorded, the refusal,
counts of 0, and zeros. It refuses a source that ends inside a character by 2, where 10 is recorded (`cut.py`); of a source
with vertical tabs its answer to tabs in their place is recorded, but for unescaping (`tabs.py`). Nothing is left to
chance: two runs write the same bytes.
"""
import itertools, random, struct, subprocess, sys
from pathlib import Path

import cut, tabs

if len(sys.argv) != 3:
    sys.exit(__doc__)
ORACLE, FOLDER = Path(sys.argv[1]) / "target/release", Path(sys.argv[2])
# Of most sources, of a table, and of the buffer that a file is read into.
LONGEST, MOST_NUMBERS, MOST_BYTES = 60, 4_096, 524_288
TOO_SHORT = {"tokens": 4, "lines": 6, "unescape": 8, "body": 4}

# The sources of document 01's worked readings, and of its text.
WORKED = [b"", b"#", b"#\n", b"#undef\nfoo\n", b"#(a)\n", b"/***/", b"1.2.3", b"abc\\d", b"\n\r\n", b"<<<", b"#define F(a,) a\n",
          b"#version\ncore\n", b"#a", b"/****/", b"1e5+3", b"//\\\na", b"/\\\n/", b"\x0b", b".5", b"de\\\nfined", b"a\\\r\nb", b"\\\\\n"]

# Newlines in comments and behind a backslash, and the characters before and behind the surrogates and the last one.
BORDERS = [b"/*\n\r*/\r\n", b"\\\n\r\n", b"a\n\xe2\x82", b"\xed\x9f\xbf\xf4\x8f\xbf\xbf", b"\xee\x80\x80"]

# Pieces, rows of at most so many, and how many of these sources are kept for each call.
ALPHABETS = [(r"\\ \n \r a 1", 4, (24, 24, 30)), (r"/ * \\ \n", 5, (40, 10, 8)), (r". 1 e + \\", 4, (40, 0, 0)), (r"< > = \x22 a \n", 4, (24, 0, 0)),
             (r"+ - * / % < > = ! & | ^ #", 3, (60, 0, 0)), (r"\\\n \\\r\n \\ \r \s a + 1", 3, (30, 16, 20)),
             (r"de fined d efined defined \\\n a _ 1", 3, (30, 0, 0)), (r"\n \r", 6, (4, 30, 0)),
             (r"\t \x0b \x0c \s \x00 \x7f \xc3\xa9 \xe2\x82\xac \xf0\x9f\x98\x80", 2, (24, 6, 10)),
             (r"\xc3 \xa9 \xe2 \x82 \xac \xf0 \x9f \x80 \xed \xa0 \xf4 \x90 a", 3, (40, 24, 24))]

# What is not UTF-8: cut off, a surrogate, overlong, above the last character, bytes that stand nowhere.
NOT_UTF8 = [b"\xc3", b"\xe2\x82", b"\xf0\x9f\x98", b"\xed\xa0\x80", b"\xed\xbf\xbf", b"\xc0\x80", b"\xc1\xbf", b"\xe0\x9f\xbf",
            b"\xf0\x8f\xbf\xbf", b"\xf4\x90\x80\x80", b"\xf5\x80\x80\x80", b"\xff", b"\x80", b"\xf8\x88\x80\x80\x80"]

# Beginnings of characters at the end of a source, and ends that look like one.
CUT_ENDS = [b"\xc3", b"\xe9", b"\xe2\x82", b"\xe0\xa0", b"\xed\x9f", b"\xf0\x9f", b"\xf0\x9f\x98", b"\xf4\x8f\xbf"]
BROKEN_ENDS = [b"\xc3\xc3", b"\xff\xc3", b"\xc0", b"\xc1", b"\xf5", b"\xe0\x80", b"\xed\xa0", b"\xf0\x80", b"\xf4\x90", b"\xe9 ", b"\xe2\x82\n"]
# What stands before them: nothing, text, characters, comments, directives, bodies; and before two of them, bodies of too many ##.
FRONTS = [b"", b"a\n", "\xe9\u20ac\U0001f600".encode(), b"// ", b"a /*\n", b"#undef ", b"#define f(a) b", b"#if a ## ", b"#a\n#include <", b"a ## b\\\n"]
LONG_FRONTS = [b"#if " + b"##" * 257 + b"\n", b"##" * 257]

# Vertical tabs: alone and beside other blanks; before HASH, between it and the word, and between the leaves of directives; in groups, bodies, comments
# and strings; behind a backslash; beside continuations and newlines, and where they part a word, a number or an operator.
TABS = [s.encode() for s in (
    "\v\v", " \v", "\v\t\f\v ", "a\v", "\v#\n", "#\v\n", "\v#\v", "a\v#\n", "\v#\vundef\va\v\n", "#undef\v\na\v", "#\va\v", "#define f\v(a)\vb\n", "#define f(\va\v,\vb\v)\v\n",
    "#define a\vb\v##\vc\v\n", "#include\v<a\vb>\v\n", "#version\v450\vcore\n", "#extension\va\v:\vb\v\n", "#else\va\v\n", "#(\va\v)\v#\n", "/*\v*/\v", "//\v\n\v", "\"\v\"\v", "\\\v\n", "\v\\\n\v", "//\\\v\n")]
MORE_TABS = [s.encode() for s in (
    "\n\v\r\v\n", "\v\\\v", "\v\\\r\n", "a\\\v", "a\\\n\v", "de\vfined", "1\v.5", "1e\v+3", "<\v<", "/\v*", "/*\v", "/**\v/", "/*\\\v\n*/", "\"\v", "\"\v\n\\\v\"", "\v@\v", "\xe9\v\u20ac\v\U0001f600",
    "/**/\v#\v/**/\vundef a\n", " \v#\t\vdefine\f\va\n", "#\vinclude\v\"a\v\"\n", "#include\v<\v", "#include\v\n", "#define\v\n", "#define\va\v\n", "#define\vf(a\vb,)\n", "#define\vf(\v1\n", "#undef\v1\v\n",
    "#line\v1\v2\n", "#error\va\v", "#pragma\v\n", "#version\v\ncore\n", "#version\v1\va\vb\n", "#if\v##\v\n", "#if a ##\v", "#ifdef\va\vb\n", "#ifndef\v\n", "#elif\va\v//\v\n", "#endif\v/*\v*/\v\n",
    "#extension\v:\v\n", "#extension\va\v\n:", "#\v(a)\n", "#(\v#\va\v", "#a\v##\n", "a\v##\vb\v", "\v##", "\v(\v)")]
# Pieces, rows of at most so many, what stands before, and how many of these sources that hold vertical tabs are kept.
TAB_ROWS = [(r"\x0b \s # \n a (", 4, "", 50), (r"\x0b \\ \n \r a", 4, "", 30), (r"\x0b ( a ) , \n", 4, "#define f", 40), (r"\x0b ## a \n", 4, "#if", 30), (r"\x0b < > \x22 \n", 4, "#include", 30),
            (r"\x0b * / \n", 4, "/*", 16)]

# The fourteen words, and what may stand behind one: right for some of them, wrong for others.
WORDS = ["include", "define", "undef", "line", "error", "pragma", "version", "if", "ifdef", "ifndef", "elif", "else", "endif", "extension"]
BEHIND = ["", "\n", " ", " \n", " a", " a\n", " a b\n", " 1\n", " 1 a\n", " 450 core x\n", "\na\n", "\r\na", "(a)\n", " (a)\n", " a(b,c) d\n", " a(b c\n",
          " a(,)\n", " a##b\n", " ##\n", " a ## ", " a## /**/ \n", " <a>\n", " \"a\"\n", " <a\n", " a:b\n", " a : b c\n", " :\n", " a:\nb\n", "\\\na\n",
          "/**/a//c\n", " defined\n", "#\n", "/*\n*/ x\n", " @ \xe9\n"]
# Beginnings of a directive besides `#`.
BEFORE = [" #", "/**/#", "a#", "# ", "#/*\n*/", "#\\\n", "\n\t#", "#()#"]
# Sources that are cut off at each place.
WHOLE = ["#define f(a, b) a ## b // c\n", "#extension GL_x : enable\n", "#version 450 core\n", "#include <a/b.h>\n", "#undef\n  #else x\n",
         "# (a (b)\n#)#else\n", "#if a ## b ##\n#a b\n", "/* c */ a = b;\n"]

# Pieces, rows of at most so many, what stands before, and how many of these sources are kept for the reading.
DIRECTIVES = [(r"\n # ( ) a", 6, "", 260), (r"\s a , ) \n 1 ##", 5, "#define f(", 200), (r"a ## \s /**/ \\\n \n", 6, "#define a ", 160),
              (r"\s a : \n 1 ##", 5, "#extension", 120), (r"\s a 1 \n ## defined", 5, "#version", 80), (r"< > \x22 a \n \s", 5, "#include", 120),
              (r"## a \s \n /**/", 6, "#if", 100), (r"\s a \n # 1", 5, "#undef", 80), (r"# \n \r \s undef (", 6, "", 140),
              (r"# ( ) \n \s a /* */", 6, "", 140), (r"#undef #define #version #extension #else #a #( ) \n \s a", 4, "", 200), (r"# \\ \n \r a", 6, "", 100)]
# The same for bodies.
BODIES = [(r"a ## \s \n", 5, "", 120), (r"a ## \s /**/ \\\n \n", 5, "", 120), (r"## ### # \s \n", 4, "", 60), (r"a ( ) < > \x22 \n ##", 4, "", 60)]
# Rows of ## that a reading takes (256) and does not take (257), in the six bodies and where ## does not count.
CONCAT_ROWS = ["#include ", "#define a ", "#line ", "#error ", "#pragma ", "#if ", "#elif ", "", "#(", "#define f("]

def run(program, *words, given=b""):
    return subprocess.run([str(ORACLE / program), *map(str, words)], input=given, stdout=subprocess.PIPE, check=True).stdout

def generated(*words):
    batch, at = run("gen", *words), 0
    while at < len(batch):
        end = batch.index(b"\n", at)
        at = end + int(batch[at:end]) + 2
        yield batch[end + 1:at - 1]

def answers(call, inputs):
    """The numbers of each answer, without the words."""
    batch = b"".join(b"%d\n%s\n" % (len(i), i) for i in (tabs.asked(call, i) for i in inputs))
    found, one = [], []
    for line in run("oracle", "batch", call, given=batch).decode().splitlines():
        word, *numbers = line.split(",")
        one += {"node": [1], "leaf": [0]}.get(word, [])
        if word == "end":
            found.append([cut.refusal(one[0], inputs[len(found)]), *one[1:]])
            one = []
        else:
            one += [int(n) for n in numbers if n]
    assert len(found) == len(inputs), call
    return found

def spread(row, count):
    """That many of the row, over its whole length, the first ones among them."""
    if len(row) <= count:
        return row
    return row[:count // 4] + random.sample(row[count // 4:], count - count // 4)

def sources():
    """Sources for tokens, line table and unescaping."""
    kept = [WORKED + BORDERS for _ in range(3)]
    for pieces, most, counts in ALPHABETS:
        row = list(dict.fromkeys(generated("exhaust", pieces, 0, most)))
        for into, count in zip(kept, counts):
            into += spread(row, count)
    for kind, seed, counts in (("random", 21, (140, 80, 60)), ("mutate", 22, (220, 120, 90))):
        row = [s for s in dict.fromkeys(generated(kind, seed, 40_000)) if 4 <= len(s) <= LONGEST]
        row = sorted(random.sample(row, 4 * max(counts)), key=len)[:2 * max(counts)]
        for into, count in zip(kept, counts):
            into += random.sample(row, count)
    for into in kept:
        into += NOT_UTF8 + [b"a " + s + b"\n" for s in NOT_UTF8] + [b"/*" + s for s in NOT_UTF8[::2]]
    return [list(dict.fromkeys(s for s in into if len(s) <= LONGEST)) for into in kept]

def lookups():
    """Offsets with line starts, right and wrong."""
    found = [(0, []), (5, []), (0, [0]), (2**32 - 1, [0]), (0, [1]), (3, [0, 0]), (3, [0, 2, 2]), (3, [0, 3, 2]), (9, [0, 4, 0]),
             *((offset, [0, 2, 3]) for offset in (0, 1, 2, 3, 9, 2**32 - 1)), (7, [0]), (1, [1]), (0, [0, 0]), (0, [0, 3, 2]), (2**32 - 1, [0, 2, 2]),
             (2**32 - 1, [0, 2**32 - 1]), (2**32 - 2, [0, 2**32 - 1]), (7, [0, 7, 8]), (6, [0, 7, 8]), (8, [0, 7, 8]), (2**31, [0, 2**24])]
    for _ in range(160):
        starts = [0]
        for _ in range(random.randrange(9)):
            starts.append(starts[-1] + random.randrange(1, random.choice((3, 12, 200))))
        if random.random() < 0.25:
            place = random.randrange(len(starts))
            starts[place] = random.choice((0, 1, starts[place - 1], starts[-1]))
        near = random.choice(starts) + random.choice((-1, 0, 1))
        found.append((max(0, random.choice((near, near, random.randrange(starts[-1] + 20)))), starts))
    return [(offset, starts) for offset, *starts in dict.fromkeys((offset, *starts) for offset, starts in found)]

def pastes():
    """Pairs of kinds: a share of all that are not ERROR and of the others, and kinds that are refused."""
    every = [(a, b) for a in range(1, 87) for b in range(1, 87) if 35 not in (a, b)]
    kinds = [answer[1] for answer in answers("paste", [b"%d %d" % pair for pair in every])]
    glued = [pair for pair, kind in zip(every, kinds) if kind != 36]
    errors = [(10, 41), (2, 1), (86, 86)]
    refused = [(0, 1), (1, 0), (0, 0), (35, 1), (1, 35), (35, 22), (5, 35), (87, 1), (1, 87), (87, 5), (65537, 1), (1, 65536 + 28), (2**32 - 1, 1), (28, 2**32 - 1)]
    return list(dict.fromkeys(glued + random.sample(every, 200) + errors + refused))

def rows(table, wanted=lambda source: True):
    """Rows over alphabets, so many of each that are wanted."""
    for pieces, most, prefix, count in table:
        yield from spread([source for source in dict.fromkeys(generated("exhaust", pieces, 0, most, prefix)) if wanted(source)], count)

def chosen(kind, seed, count):
    """Random sources, so many, the shorter ones among four times as many."""
    row = [s for s in dict.fromkeys(generated(kind, seed, 40_000)) if 4 <= len(s) <= LONGEST]
    return sorted(random.sample(row, 4 * count), key=len)[:2 * count:2]

def read_sources():
    """Sources for the reading, and whether their tables are tried in all ways."""
    first = WORKED + BORDERS + [b"#\xff\n", b"#undef \xc3", b"#undef\n1\n\n", b"#extension", b"#define f(1 2 a\n#else b\n"]
    found = {source: True for source in first}
    found |= {f"#{word}{tail}".encode(): tail in ("", "\na\n", " a b\n") for word in WORDS + ["a"] for tail in BEHIND}
    found |= {f"{before}{word} a\n".encode(): False for before in BEFORE for word in ("define", "undef", "x", "else")}
    found |= {whole[:at].encode(): False for whole in WHOLE for at in range(len(whole))}
    found |= {source: False for source in rows(DIRECTIVES) if source not in found}
    for kind, seed, count in ("random", 23, 240), ("mutate", 24, 300):
        found |= {source: False for source in chosen(kind, seed, count) if source not in found}
    found |= {b"#define a " + piece + b"\n": False for piece in NOT_UTF8}
    found |= {(row + "##" * count + "\n").encode(): False for row in CONCAT_ROWS for count in (256, 257)}
    return found

def body_sources():
    """The same for bodies."""
    found = {source: True for source in WORKED + [b"", b"a", b" a", b" ## a", b"##", b"a ## b ## c \n", b"\n", b"a\nb"]}
    found |= {source: False for source in rows(BODIES) if source not in found}
    found |= {whole[7:].encode(): False for whole in WHOLE}
    for kind, seed in ("random", 25), ("mutate", 26):
        found |= {source: False for source in chosen(kind, seed, 60) if source not in found}
    found |= {b"a " + piece: False for piece in NOT_UTF8}
    found |= {(part * count + end).encode(): False for part in ("##", "a##") for count in (256, 257) for end in ("", "\n")}
    return found

def read_rooms(needs, thoroughly):
    """Lengths of the three tables: just enough; longer, and one number short, each alone and together."""
    short = [tuple(need - (1 << place & which > 0) for place, need in enumerate(needs)) for which in range(1, 8)]
    short = [rooms for rooms in dict.fromkeys(short) if min(rooms) >= 0]
    if thoroughly:
        return [needs, tuple(need + 7 for need in needs), (needs[0] + 5, needs[1], needs[2] + 1), *short, (0, 0, 0)]
    if random.random() < 0.15:
        return [needs, random.choice(short)]
    return [needs]

def read_records(found):
    """A reading's, as call, n, input and answer."""
    for (source, thoroughly), answer in zip(found.items(), answers("read", list(found))):
        refusal, *counts = answer[:4]
        needs = 5 * counts[0], 10 * counts[1], counts[2]
        assert len(answer) == 4 + sum(needs)
        tables = answer[4:4 + needs[0]], answer[4 + needs[0]:4 + needs[0] + needs[1]], answer[4 + needs[0] + needs[1]:]
        for rooms in [(12, 12, 3), (0, 1, 0)] if refusal else read_rooms(needs, thoroughly):
            given = numbers(*rooms[1:]) + source
            short = [refusal] * (refusal > 0) + [n for n, room, need in zip((4, 5, 6), rooms, needs) if room < need]
            if short:
                yield "read", rooms[0], given, [short[0], 0, 0, 0] + [0] * sum(rooms)
            else:
                yield "read", rooms[0], given, answer[:4] + [n for table, room in zip(tables, rooms) for n in table + [0] * (room - len(table))]

def numbers(*row):
    return struct.pack(f"<{len(row)}I", *row)

def compact(*row):
    """Numbers of an answer."""
    return b"".join(struct.pack("<B", n) if n < 254 else struct.pack("<BH", 254, n) if n < 65_536 else struct.pack("<BI", 255, n) for n in row)

def rooms(need, thoroughly):
    """Lengths of tables where so many numbers are needed, besides just enough."""
    if thoroughly:
        yield from (need - 1, need + 2)
    elif 1 <= need <= 13 and random.random() < 0.1:
        yield need - 1

def with_room(call, answer, room):
    """The answer with a table of that length."""
    refusal, count, *table = answer
    if room < len(table):
        return [TOO_SHORT[call], 0] + [0] * room
    return answer + [0] * (room - len(table))

def table_records(call, found):
    """The same for tokens, line table and unescaping."""
    for (source, thoroughly), answer in zip(found.items(), answers(call, list(found))):
        need = len(answer) - 2
        for room in (need, *rooms(need, thoroughly)):
            if 0 <= room:
                yield call, room, source, with_room(call, answer, room)

def body_records(found):
    """The same for bodies."""
    for (source, thoroughly), answer in zip(found.items(), answers("body", list(found))):
        need = len(answer) - 2
        for room in (need, *([need - 1, need + 7, 0] if thoroughly or random.random() < 0.15 else [])):
            if 0 <= room:
                yield "body", room, source, with_room("body", answer, room)

def records():
    """Each call's."""
    for call, row in zip(("tokens", "lines", "unescape"), sources()):
        yield from table_records(call, {source: source in WORKED + BORDERS + NOT_UTF8 for source in row})
    row = lookups()
    for (offset, starts), answer in zip(row, answers("lookup", [" ".join(map(str, [offset, *starts])).encode() for offset, starts in row])):
        yield "lookup", offset, numbers(*starts), answer
    row = pastes()
    for (lhs, rhs), answer in zip(row, answers("paste", [b"%d %d" % pair for pair in row])):
        yield "paste", lhs, numbers(rhs), answer
    yield from read_records(read_sources())
    yield from body_records(body_sources())

def cut_records():
    """The same of sources that end inside a character, or seem to: with as much room as the text before the end needs, less, and none."""
    ends = {front + end: front for front in FRONTS for end in CUT_ENDS + BROKEN_ENDS}
    ends |= {front + end: front for front in LONG_FRONTS for end in (CUT_ENDS[0], BROKEN_ENDS[0])}
    for call in "tokens", "lines", "unescape", "read", "body":
        needs = dict(zip(FRONTS + LONG_FRONTS, answers(call, FRONTS + LONG_FRONTS)))
        for (source, front), (refusal, *counts) in zip(ends.items(), answers(call, list(ends))):
            assert refusal == (cut.ENDS_INSIDE if source[len(front):] in CUT_ENDS else cut.NOT_UTF8) and not any(counts), source
            if call == "read":
                need = 5 * needs[front][1], 10 * needs[front][2], needs[front][3]
                for rooms in dict.fromkeys((need, (max(need[0] - 1, 0), *need[1:]), (need[0], 0, 0), (0, 0, 0))):
                    yield call, rooms[0], numbers(*rooms[1:]) + source, [refusal, 0, 0, 0] + [0] * sum(rooms)
            else:
                need = len(needs[front]) - 2
                for room in dict.fromkeys((need, max(need - 1, 0), 0)):
                    yield call, room, source, [refusal, 0] + [0] * room

def tab_sources():
    """Sources with vertical tabs, and whether their tables are tried in all ways."""
    found = {source: True for source in TABS} | {source: False for source in MORE_TABS}
    found |= {source: False for source in rows(TAB_ROWS, tabs.holds) if source not in found}
    for kind, seed, count in ("random", 27, 60), ("mutate", 28, 60):
        found |= {tabs.put(source): False for source in chosen(kind, seed, count)}
    found |= {b"#if" + b"\x0b##" * count + b"\n": False for count in (256, 257)}
    return found | {front + end: False for front in (b"\x0b", b"#undef\x0b", b"/*\x0b") for end in CUT_ENDS[:4] + BROKEN_ENDS[:4] + [b"\xe2\x0b\x82"]}

def tab_records():
    """The same of sources with vertical tabs."""
    found = tab_sources()
    assert all(map(tabs.holds, found))
    for call in "tokens", "lines", "unescape":
        yield from table_records(call, found)
    yield from read_records(found)
    yield from body_records(found)

def main():
    random.seed(3)
    files, refusals = {}, {}
    for call, n, given, answer in itertools.chain(records(), cut_records(), tab_records()):
        assert len(answer) <= MOST_NUMBERS
        files.setdefault(call, []).append(struct.pack("<HI", len(given), n) + given + compact(*answer))
        found = refusals.setdefault(call, {})
        found[answer[0]] = found.get(answer[0], 0) + 1
    for call, row in files.items():
        whole = b"".join(row)
        assert len(whole) < MOST_BYTES, call
        (FOLDER / call).write_bytes(whole)
        by_refusal = ", ".join(f"{refusal}: {n}" for refusal, n in sorted(refusals[call].items()))
        print(f"{call}: {len(row)} records, {len(whole)} bytes; by refusal {by_refusal}")

main()
