#!/usr/bin/env python3
"""Spells this repository's own definitions and lemmas as Rattle's library spells its words.

usage: python3 tools/respell.py     once, at the top, right after Rattle's own port script

A word in two cases becomes snake case (`kindsOf` is `kinds_of`); so does a lemma's name with dashes (`back-all` is `back_all`), but that a dash
stays between two words that are definitions, as in `length-append`. Types, modules, functions of src/, exported names, strings and inputs
stay as they are. A renaming that would let two names of one file fall together is told, and the lemma keeps its dashes.
"""

import os
import re
import sys

CAMEL = re.compile(r"(?<![A-Za-z0-9_])[a-z][a-z0-9_]*[A-Z][A-Za-z0-9_]*")
PART = r"[A-Za-z0-9_'\u2080-\u2089\u00d7\u25b9\u2115\u03ba]"
NAME = re.compile(r"(?<![A-Za-z0-9_'\-\u25cc])[A-Za-z]" + PART + r"*(?:-" + PART + r"+)*(?![A-Za-z0-9_'\-])")
HEAD = re.compile(r"\s*(?:abbrev |unfoldable |pub |private |ruleset )*([^\s:(){}]+(?: [^\s:(){}]+)*)\s*:(?:\s|$)")
TYPE = re.compile(r"\s*(?:abbrev |unfoldable |pub )*(?:record|data) (\S+)")
KEPT = {"n1C000000"}
# Names whose plain spelling would be another name's of the same file: what they are called instead, and in which files ("" is all).
BY_HAND = [
    ("block_words", "block_words_lem", "crates/inputs/proofs/BlocksStand.antt"),
    ("first_kind", "first_kind_lem", "crates/inputs/proofs/BlocksStand.antt"),
    ("first_kind", "first_kind_lem", "crates/chains/proofs/PackParts.antt"),
    ("no_room", "no_room_came", "crates/resolve/proofs/FinishLaws.antt"),
    ("same_kind", "same_kind_lem", "crates/directions/proofs/EqualLaws.antt"),
    ("whole_word", "whole_word_lem", "crates/reading/proofs/"),
    ("noRoom", "out_of_room", ""),
]


def files(*ends):
    for folder, dirs, names in os.walk("crates"):
        dirs[:] = sorted(d for d in dirs if d not in ("out", "data"))
        for n in sorted(names):
            if n.endswith(ends):
                yield os.path.join(folder, n)


def read(p):
    with open(p, encoding="utf-8") as f:
        return f.read()


def snake(word):
    return re.sub(r"(?<=[a-z0-9])[A-Z]", lambda m: "_" + m.group(0), word).lower() if word not in KEPT else word


def camel(text):
    return CAMEL.sub(lambda m: snake(m.group(0)), text)


def code_lines(text):
    return [l for l in text.split("\n") if not l.strip().startswith(("--", "//"))]


def defined(text):
    """The names that a file's lines define, fields included."""
    for l in code_lines(text):
        m = HEAD.match(l)
        if m:
            yield from m.group(1).split()
        m = TYPE.match(l)
        if m:
            yield m.group(1)


def is_lemma_file(p):
    """A file of lemmas or definitions: what Rattle names after the code stands in the folders of functions."""
    parts = p.split(os.sep)
    return parts[2] == "specs" or (parts[2] == "proofs" and len(parts) == 4)


def dash_table(texts):
    """The new names of lemmas with dashes."""
    words, dashed = set(), set()
    for p, t in texts.items():
        if p.endswith(".antt") and is_lemma_file(p):
            for name in defined(t):
                if "-" in name:
                    dashed.add(name)
                elif p.split(os.sep)[2] == "specs":
                    words.add(name)
    words |= {"length", "map", "take", "drop", "get_or", "set", "append", "filter", "sum"}
    table = {}
    for name in sorted(dashed):
        parts = name.split("-")
        new = parts[0]
        for k in range(1, len(parts)):
            left, right = "_".join(parts[:k]), "_".join(parts[k:])
            new += ("-" if left in words and right in words else "_") + parts[k]
        if new != name:
            table[name] = new
    return table


def clashes(texts, table):
    """Names of one file that would fall together."""
    bad = {}
    for p, t in texts.items():
        if not p.endswith((".antt", ".rt")):
            continue
        seen = {}
        for m in NAME.finditer("\n".join(code_lines(t))):
            seen.setdefault(table.get(m.group(0), m.group(0)), set()).add(m.group(0))
        for new, olds in seen.items():
            if len(olds) > 1:
                for o in olds:
                    if o in table:
                        bad.setdefault(o, set()).add((p, new))
    return bad


def turn(text, table, path):
    """The text with the table's names, in code and between backticks of comments."""
    out = []
    for l in text.split("\n"):
        if l.strip().startswith(("--", "//")) or path.endswith(".md"):
            l = re.sub(r"`[^`]*`", lambda m: NAME.sub(lambda n: table.get(n.group(0), n.group(0)), m.group(0)), l)
        else:
            l = NAME.sub(lambda n: table.get(n.group(0), n.group(0)), l)
        out.append(l)
    return "\n".join(out)


def main():
    before = {p: read(p) for p in files(".antt", ".rt", ".edit")}
    for old, new, where in BY_HAND:
        for p in before:
            if p.startswith(where):
                before[p] = re.sub(r"(?<![A-Za-z0-9_'\-])" + old + r"(?![A-Za-z0-9_'\-])", new, before[p])
    # the two cases first, each name in every file
    same = {}
    for p, t in before.items():
        lines = "\n".join(code_lines(t))
        for w in set(CAMEL.findall(lines)):
            if snake(w) != w and re.search(r"(?<![A-Za-z0-9_'\-])" + snake(w) + r"(?![A-Za-z0-9_'\-])", lines):
                same.setdefault(w, []).append(p)
    for w, ps in sorted(same.items()):
        print(f"look: {w} and {snake(w)} stand in one file: {' '.join(ps)}")
    texts = {p: camel(t) for p, t in before.items()}
    table = dash_table(texts)
    for o, ws in sorted(clashes(texts, table).items()):
        print(f"kept: {o} would be {sorted(ws)[0][1]} in {' '.join(sorted(p for p, _ in ws))}")
        del table[o]
    docs = [os.path.join("docs", f) for f in sorted(os.listdir("docs")) if f.endswith(".md") and not f.startswith("PORT")]
    docs += [p for p in ("README.md", "crates/definitions/README.md", "crates/theorems/README.md", "crates/pack/README.md") if os.path.exists(p)]
    for p in docs:
        texts[p] = before[p] = read(p)
        texts[p] = re.sub(r"`[^`\n]*`", lambda m: camel(m.group(0)) if not re.search(r"[/.]", m.group(0)) else m.group(0), texts[p])
    n = 0
    for p, t in texts.items():
        t = turn(t, table, p)
        if t != read(p):
            n += 1
            with open(p, "w", encoding="utf-8") as f:
                f.write(t)
    print(f"{n} files changed; {len(table)} names with dashes turned")
    return 0


if __name__ == "__main__":
    sys.exit(main())
