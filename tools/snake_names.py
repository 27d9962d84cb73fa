#!/usr/bin/env python3
"""Spells the repository's own definitions and lemmas in snake case, and its types in camel case; run once, at the top, after port.py.

A name of specs/ or proofs/ that has a dash gets underscores; one that begins with a capital letter gets capital letters for its dashes.
Names of the library, names that Rattle makes (in a Proof.antt the first name behind `c.`, `w.` or `tie.`), functions of src/, strings and comments stay; a
name in backticks in a comment is turned. Where a name would then meet an item of the same Rust file, the file imports it as `Module·name`.
Names that fall together are told, and nothing is written.
"""

import collections
import glob
import re
import sys

NAME = r'[^\s(){}\[\].;,@"«»|]+'
MODIFIERS = r"(?:unfoldable |abbrev |pub |ruleset |data |record |mutual )*"
HEAD = re.compile(rf"\s*{MODIFIERS}({NAME})\s*(?:\{{ℓ.*\}}\s*)?(?:\(.*\)\s*)?:(?:\s|$)")
BINDERS = re.compile(rf"[({{;]\s*((?:{NAME}\s)+)\s*:(?:\s|$)")
SEVERAL = re.compile(rf"\s*(?:pub )?((?:{NAME}\s+)+):(?:\s|$)")
ALIAS = re.compile(rf" as ({NAME})")
USE = re.compile(r"\s*(?:pub )?use (\S+?)\.?(\{.*\})?( as .*)?$")
OWN = re.compile(r"Rattle\.(?!(?:std|core|io|libc|os|std_\w+)\b)")
DASHED = re.compile(r"\w-[\w+]")
MADE = ("c", "w", "κs", "tie", "l", "goal")
# Camel case of the second would meet a record of rows.
FIXED = {"UTF8-tail": "Utf8Tail", "Reads-body": "ReadsDefineBody"}


def texts(kind):
    inner = {"antt": ("specs", "proofs"), "rt": ("src",)}[kind]
    return sorted(p for i in inner for p in glob.glob(f"crates/*/{i}/**/*.{kind}", recursive=True))


def split_comment(line, mark):
    """Returns a line's code and its comment; a mark in a string begins none."""
    inside = False
    for i, ch in enumerate(line):
        if ch == '"' and line[i - 1 : i] != "\\":
            inside = not inside
        if not inside and line.startswith(mark, i) and (mark == "//" or (i == 0 or line[i - 1].isspace()) and line[i + 2 : i + 3] in ("", " ", "\n")):
            return line[:i], line[i:]
    return line, ""


def declared():
    names, library = set(), set()
    for path in texts("antt"):
        with open(path, encoding="utf-8") as f:
            tied = set()
            lines = [split_comment(it.rstrip("\n"), "--")[0] for it in f]
        for line in lines:
            tied.update(re.findall(rf"\btie\.({NAME})", line))
        for line in lines:
            use = USE.match(line)
            if use:
                if not OWN.match(use[1]):
                    library.update(re.findall(NAME, use[2] or ""))
                names.update(ALIAS.findall(line))
                continue
            head = HEAD.match(line)
            found = [head[1]] if head else []
            several = SEVERAL.match(line)
            for group in BINDERS.findall(line) + ([several[1]] if several else []):
                found += group.split()
            names.update(set(found) - tied)
    return {n for n in names - library if DASHED.search(n)}


def turned(name):
    if name in FIXED:
        return FIXED[name]
    if re.match(r"[A-Z]", name):
        return "".join(w[:1].upper() + w[1:] for w in name.split("-"))
    return name.replace("-", "_")


def turn_code(code, table, made=MADE):
    """Turns the names in code, but for strings and the first name behind a head of Rattle's."""
    out, last = [], 0
    for m in re.finditer(r'"(?:[^"\\]|\\.)*"|' + NAME, code):
        word = m[0]
        if word in table:
            before = re.search(rf"({NAME})\.$", code[: m.start()])
            if before and before[1] in made and not re.search(rf"\.{re.escape(before[1])}\.$", code[: m.start()]):
                continue
            out += [code[last : m.start()], table[word]]
            last = m.end()
    return "".join(out) + code[last:]


def turn_ticks(comment, table):
    return re.sub(r"`[^`]*`", lambda m: turn_code(m[0].replace("`", " "), table).strip().join("``"), comment) if "`" in comment else comment


def turn_text(text, mark, table, made):
    out = []
    for line in text.split("\n"):
        code, comment = split_comment(line, mark)
        out.append(turn_code(code, table, made) + turn_ticks(comment, table))
    return "\n".join(out)


def items(text):
    """The names that a Rust file declares or imports."""
    names = set(re.findall(r"\b(?:fn|mod|const|static|struct|enum|type|trait) (\w+)", text))
    for it in re.findall(r"(?m)^(?:pub )?use ([^;]+);", text):
        names.update(re.findall(r"\w+", it))
    return names


def aliased(text, table):
    """Imports a name that would meet an item of the file under its module's name, and uses it so."""
    taken = items(text)
    own = dict(table)
    for path, inner in re.findall(r"ghost use ([\w.]+)\.\{([^}]*)\}", text):
        for name in inner.split(", "):
            if name in table and table[name] in taken:
                own[name] = f"{path.split('.')[-1]}·{table[name]}"
    if own == table:
        return text, table

    def imported(m):
        its = [f"{table[n]} as {own[n]}" if own.get(n) != table.get(n) else n for n in m[2].split(", ")]
        return f"ghost use {m[1]}.{{{', '.join(its)}}}"

    return re.sub(r"ghost use ([\w.]+)\.\{([^}]*)\}", imported, text), own


def main():
    table = {n: turned(n) for n in declared()}
    meet = collections.defaultdict(set)
    for old, new in table.items():
        meet[new].add(old)
    known = set()
    for path in texts("antt"):
        with open(path, encoding="utf-8") as f:
            for line in f:
                code = split_comment(line, "--")[0].rstrip("\n")
                use = USE.match(code)
                known.update(re.findall(NAME, re.sub(r"(?:Rattle|c|tie)\.[\w.+]*", " ", (use[2] or "") if use else code)))
    bad = [(new, olds) for new, olds in meet.items() if len(olds) > 1 or new in known]
    if bad:
        print("names fall together:", bad)
        return 1
    for kind, mark in (("antt", "--"), ("rt", "//")):
        for path in texts(kind):
            with open(path, encoding="utf-8") as f:
                text = f.read()
            new, own = aliased(text, table) if kind == "rt" else (text, table)
            new = turn_text(new, mark, own, MADE if path.endswith("/Proof.antt") else ())
            if new != text:
                with open(path, "w", encoding="utf-8") as f:
                    f.write(new)
    with open("/tmp/snake-names.txt", "w") as f:
        f.writelines(f"{a}\t{b}\n" for a, b in sorted(table.items()))
    print(len(table), "names")


if __name__ == "__main__":
    raise SystemExit(main())
