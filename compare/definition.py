#!/usr/bin/env python3
"""Runs the definition against the Rust: the checker computes each call's outcome on many inputs and compares.

usage: definition.py ORACLE [SOURCES]

ORACLE is the folder of the oracle, built (`cargo build --offline --release`); SOURCES is how many sources are
compared (2400 by default): short exhaustive ones over several alphabets, random and mutated ones; and behind these some
that hold vertical tabs, of which the Rust is asked with tabs in their place (tabs.py). Every source goes through
reading, body, tokens, lines and unescaping, with tables just long enough and, of each call, one number short; lookups
and pastes get inputs of their own. So do these five calls on sources that are refused, with no table and with some: each
beginning of a character (cut.py) alone, some of them behind text and before it, and what is no beginning.
Works in a new temporary folder, which stays where there are differences; prints what was compared, and each difference.
"""
import random, re, shutil, subprocess, sys, tempfile
from pathlib import Path

import cut, tabs

if len(sys.argv) < 2:
    sys.exit(__doc__)
TOP = Path(__file__).resolve().parent.parent
ORACLE, WANT = Path(sys.argv[1]) / "target/release", int(sys.argv[2]) if len(sys.argv) > 2 else 2400
PER_FILE, LONGEST, AT_ONCE = 100, 120, 50
SOURCE_CALLS = "read", "body", "tokens", "lines", "unescape"

def run(program, *words, given=b""):
    return subprocess.run([str(ORACLE / program), *map(str, words)], input=given, stdout=subprocess.PIPE, check=True).stdout

def inputs(batch):
    at = 0
    while at < len(batch):
        end = batch.index(b"\n", at)
        n = int(batch[at:end])
        yield batch[end + 1:end + 1 + n]
        at = end + n + 2

def batch(sources):
    return b"".join(b"%d\n%s\n" % (len(s), s) for s in sources)

def answers(call, sources):
    """The numbers of each answer, in the order in which they are printed, without the words."""
    out, one = [], []
    for line in run("oracle", "batch", call, given=batch([tabs.asked(call, s) for s in sources])).decode().splitlines():
        word, *numbers = line.split(",")
        if word == "end":
            out.append([cut.refusal(one[0], sources[len(out)]), *one[1:]])
            one = []
        else:
            one += ([{"leaf": 0, "node": 1}[word]] if word in ("leaf", "node") else []) + [int(x) for x in numbers if x]
    assert len(out) == len(sources), (call, len(out), len(sources))
    return out

def sources():
    rows = [(r"\n # ( ) a", 0, 3, ""), (r"\s a , ) \n 1 ##", 0, 2, "#define f("), (r"\\ \n \r a 1", 0, 3, ""), (r"/ * \\ \n", 0, 4, ""),
            (r"< > = \x22 a \n", 0, 3, "#include "), (r". 1 e + \\", 0, 3, ""), (r"a : \n \s /**/", 0, 3, "#extension "),
            (r"1 a \n \s defined", 0, 3, "#version "), (r"\xc3 \xa9 \xe2 \x82 \xf0 \x80 a", 0, 2, ""), (r"## b \s \n", 0, 4, "#define a ")]
    found = []
    for pieces, least, most, prefix in rows:
        found += inputs(run("gen", "exhaust", pieces, least, most, *([prefix] if prefix else [])))
    found = list(dict.fromkeys(found))
    random.seed(1)
    random.shuffle(found)
    found = found[:WANT // 2]
    for kind, seed in (("random", 11), ("mutate", 12)):
        more = [s for s in inputs(run("gen", kind, seed, WANT * 2)) if len(s) <= LONGEST]
        found += [s for s in more[:WANT // 4 + 1]]
    found += [b"#define a " + b"##b" * 256 + b"\n", b"#define a " + b"##b" * 257 + b"\n", b"#if ##\n" + b"## " * 3]
    return list(dict.fromkeys(found))

# Pieces, rows of at most so many, and what stands before; and as many ## as a reading takes, and one more.
TAB_ROWS = [(r"\x0b \t \s # \n a", 4, ""), (r"\x0b ( ) # a", 4, ""), (r"\x0b \\ \n \r", 4, ""), (r"\x0b \\ a 1 \n", 3, ""), (r"\x0b ( a ) , \n", 4, "#define f"),
            (r"\x0b ## a \n", 4, "#define a"), (r"\x0b < > \x22 \n", 4, "#include"), (r"\x0b a : \n", 4, "#extension"), (r"\x0b 1 a \n", 3, r"#\x0bversion"),
            (r"\x0b a \n #", 3, r"\x0b#undef"), (r"\x0b * / \n", 4, "/*"), (r"\x0b \\ \n a", 4, "//"), (r"\x0b \x22 \\ \n", 4, r"\x22"), (r"\x0b \xc3 \xa9 \xe2", 3, "")]
TAB_CONCATS = [b"#if" + b"\x0b##" * count + b"\n" for count in (256, 257)]

def tab_sources(found):
    """Others with vertical tabs: the first of each row and some behind them, and random and mutated sources into which they are put."""
    random.seed(4)
    count, more = WANT // 100, []
    for pieces, most, prefix in TAB_ROWS:
        row = [s for s in inputs(run("gen", "exhaust", pieces, 0, most, prefix)) if tabs.holds(s)]
        first, behind = row[:count // 4], row[count // 4:]
        more += first + random.sample(behind, min(count - len(first), len(behind)))
    for kind, seed in (("random", 13), ("mutate", 14)):
        short = [s for s in inputs(run("gen", kind, seed, WANT)) if 4 <= len(s) <= LONGEST // 2]
        more += map(tabs.put, short[:2 * count])
    return [s for s in dict.fromkeys(more + TAB_CONCATS) if s not in found]

# What is no beginning of a character, or ends like one behind something that is no character.
BROKEN = [bytes.fromhex(x) for x in "80 BF C0 C1 F5 FF C080 E080 E09F EDA0 EDBF F080 F08F F490 F480C3 FFC3 C3C3 C3E9 E282E282 C3C3A9 E941".split()]

def refused(found):
    """Sources that all five calls refuse: by 10, and by 2."""
    cuts, texts = sorted(cut.BEGINNINGS), [s for s in found if len(s) < 40 and not cut.rest(s)]
    random.seed(3)
    some = [b for b in cuts if len(b) < 3 and random.random() < 0.1 or random.random() < 0.02]
    behind = [random.choice(texts) + b for b in some]
    before = [b + random.choice(texts) + b"a" for b in some] + [b + c for b, c in zip(some, reversed(some))]
    broken = BROKEN + [random.choice(texts) + b for b in BROKEN]
    for source in broken + before:
        assert not cut.ends_inside(source), source
    for source in cuts + behind:
        assert cut.ends_inside(source), source
    return cuts + behind + before + broken

def row(numbers):
    return " ∷ ".join(map(str, [*numbers, "[]"]))

HEAD = """use mathlib.Core.Path.{refl}
use Rattle.std.specs.Prelude.{[], ◌∷◌, ◌≡◌}
use Rattle.compared.specs.Shown.{read_as, body_as, tokens_as, lines_as, unescape_as, lookup_as, paste_as, refused_as}

"""

def shown():
    """The outcomes as rows of numbers, each computable under its own name."""
    listed = (TOP / "crates/definition/specs/Listed.antt").read_text()
    unf = re.search(r"^unfolding (.*)$", listed, re.M)[1].replace("full_reading outcome reading", "full_reading")
    uses = "\n".join(l for l in listed.splitlines() if l.startswith("use ") and not re.search(r"\.(Prelude|Text|Calls|Condition)\.", l))
    calls = "reading reading_body listing_tokens building_lines unescaping looking_up pasting".split()
    extra = "rises line_table pasted_kind parse_define_body token_numbers".split()
    return f"""-- The outcomes as rows of numbers, to be computed.
use Rattle.std.specs.Prelude.{{ℕ, List, [], ◌∷◌, ◌++◌}}
use Rattle.definition.specs.Text.{{ascii, same}}
{uses}
use Rattle.definition.specs.LineMap.{{rises, line_table}}
use Rattle.definition.specs.Glue.{{pasted_kind, token_numbers}}
use Rattle.definition.specs.Syntax.{{parse_define_body}}
use Rattle.definition.specs.Calls.{{refusal, too_many, padded, filled, full_reading, outcome, Filled, {', '.join(calls)}}}

abbrev shown : Filled → List ℕ
shown f = f.refused ∷ f.count ∷ f.table

-- Reading, with tables of these lengths.
unfoldable pub read_as : List ℕ → ℕ → ℕ → ℕ → List ℕ
unfolding {unf} outcome reading
read_as s a b c = let r = reading s a b c in
  r.refused ∷ r.entry_count ∷ r.error_count ∷ r.line_count ∷ (r.entry_table ++ (r.error_table ++ r.line_table))

""" + "\n\n".join(f"""unfoldable pub {name}_as : List ℕ → ℕ → List ℕ
unfolding {unf} {' '.join(extra)} {call}
{name}_as s room = shown ({call} s room)""" for name, call in
        [("body", "reading_body"), ("tokens", "listing_tokens"), ("lines", "building_lines"), ("unescape", "unescaping")]) + f"""

unfoldable pub lookup_as : List ℕ → ℕ → List ℕ
unfolding {' '.join(extra)} refusal last_line get_line_and_col looking_up
lookup_as l o = let r = looking_up l o in r.refused ∷ r.line ∷ r.column ∷ []

unfoldable pub paste_as : ℕ → ℕ → List ℕ
unfolding refusal glued pasted_kind pasting
paste_as a b = let r = pasting a b in r.refused ∷ r.kind ∷ []

-- The five calls on each of the sources, with tables of that length.
unfoldable pub refused_as : List (List ℕ) → ℕ → List ℕ
unfolding read_as body_as tokens_as lines_as unescape_as
refused_as [] room = []
refused_as (s ∷ ss) room = read_as s room room room ++ (body_as s room ++ (tokens_as s room ++ (lines_as s room ++ (unescape_as s room ++ refused_as ss room))))
"""

def tests(found):
    """(call, input as antt arguments, expected numbers), with tables exact and one number short."""
    out = []
    for s, a in zip(found, answers("read", found)):
        e, r, l = 5 * a[1], 10 * a[2], a[3]
        out.append(("read", f"({row(s)}) {e} {r} {l}", a))
        if a[0] == 0:
            zeros = lambda n, x, y, z: [n, 0, 0, 0] + [0] * (x + y + z)
            out.append(("read", f"({row(s)}) {e - 1} {r} {l}", zeros(4, e - 1, r, l)))
            if r:
                out.append(("read", f"({row(s)}) {e + 2} {r - 1} 0", zeros(5, e + 2, r - 1, 0)))
            out.append(("read", f"({row(s)}) {e} {r + 1} {l - 1}", zeros(6, e, r + 1, l - 1)))
    for call, short in (("body", 4), ("tokens", 4), ("lines", 6), ("unescape", 8)):
        for s, a in zip(found, answers(call, found)):
            n = len(a) - 2
            out.append((call, f"({row(s)}) {n + 3}", a + [0] * 3))
            if a[0] == 0 and n:
                out.append((call, f"({row(s)}) {n - 1}", [short, 0] + [0] * (n - 1)))
    random.seed(2)
    looks = []
    for _ in range(300):
        table = [0] * (random.random() < 0.9)
        for _ in range(random.randrange(6)):
            table.append((table[-1] if table else 0) + random.randrange(0 if random.random() < 0.1 else 1, 5))
        looks.append((table, random.randrange(20)))
    given = [" ".join(map(str, [o, *t])).encode() for t, o in looks]
    out += [("lookup", f"({row(t)}) {o}", a) for (t, o), a in zip(looks, answers("lookup", given))]
    pairs = [(a, b) for a in range(0, 59) for b in range(0, 59) if random.random() < 0.15] + [(0, 1), (35, 1), (1, 35), (86, 86), (87, 1), (1, 87)]
    out += [("paste", f"{a} {b}", x) for (a, b), x in zip(pairs, answers("paste", [b"%d %d" % p for p in pairs]))]
    return out

def refused_tests(given):
    """The same for sources that all five calls refuse, many at a time, with no table and with some."""
    five = list(zip(*(answers(call, given) for call in SOURCE_CALLS)))
    for at in range(0, len(given), AT_ONCE):
        room = at // AT_ONCE % 3
        want = [n for one in five[at:at + AT_ONCE] for a, tables in zip(one, (3, 1, 1, 1, 1)) for n in a + [0] * (tables * room)]
        yield "refused", f"({row(f'({row(s)})' for s in given[at:at + AT_ONCE])}) {room}", want

def main():
    found = sources()
    given = refused(found)
    found += tab_sources(found)
    all_tests = tests(found) + list(refused_tests(given))
    work = Path(tempfile.mkdtemp(prefix="definition-"))
    compared, definition = work / "crates/compared", work / "crates/definition"
    for part in "src", "specs", "proofs":
        (compared / part).mkdir(parents=True)
    (compared / "src/lib.rt").write_text("// no code\n")
    shutil.copytree(TOP / "crates/definition", definition, ignore=shutil.ignore_patterns("must-fail", "proofs", "out"))
    (work / "crates.txt").write_text("definition:\ncompared: definition\n")
    (compared / "specs/Lib.antt").write_text("pub mod Shown\n")
    (compared / "specs/Shown.antt").write_text(shown())
    names = []
    for i in range(0, len(all_tests), PER_FILE):
        name = f"T{i // PER_FILE}"
        names.append(name)
        (compared / f"proofs/{name}.antt").write_text(HEAD + "\n".join(
            f"t{i + k} : {call}_as {args} ≡ {row(want)}\nunfolding {call}_as\nt{i + k} = refl\n" for k, (call, args, want) in enumerate(all_tests[i:i + PER_FILE])))
    (compared / "proofs/Lib.antt").write_text("".join(f"pub mod {n}\n" for n in names))
    done = subprocess.run(["rt", "check"], cwd=compared, stdout=subprocess.PIPE, stderr=subprocess.STDOUT, text=True)
    counts = {c: sum(1 for t in all_tests if t[0] == c) for c in (*SOURCE_CALLS, "lookup", "paste")}
    (work / "said").write_text(done.stdout)
    for line in re.findall(r"^.*: error.*$", done.stdout, re.M)[:20]:
        print(line[:600])
    print(f"{len(found)} sources, {sum(map(tabs.holds, found))} of them with vertical tabs;", ", ".join(f"{c} {n}" for c, n in counts.items()), f"outcomes, and {len(given)} refused sources compared:", f"DIFFERENCES, see {work}/said" if done.returncode else "no difference")
    if done.returncode == 0:
        shutil.rmtree(work)
    return done.returncode

sys.exit(main())
