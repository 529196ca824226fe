#!/usr/bin/env python3
"""Spells the repository's own definitions and lemmas as today's Rattle does: words in snake case, types in camel case.

usage: python3 tools/spell.py [--list]

It was run once, right after the toolchain's port.py (docs/PORT.md). What is declared in specs/ and in the lemma files of proofs/
gets its new name there, in every proof and in the clauses of src/; code, strings and prose keep theirs, but for a word in capitals
within a word, which no prose has. --list prints old and new names, and writes nothing.
"""

import collections
import glob
import os
import re
import sys

WORD = r"[^\s(){}.;,@\"«»\x60]+"
DECLARED = re.compile(r"(?m)^ *(?:(?:abbrev|unfoldable|pub) +)*(" + WORD + r")(?: \{[^{}\n]*\})* :(?=\s)")
HEAD = re.compile(r"(?m)^ *(?:pub +)?(?:record|data) +(" + WORD + ")")
CLAUSE = re.compile(r"\b(?:requires|ensures|ghost)\b\*?\s*(?:\w+\s*:?\s*)?\{|\bghost use\b")
# A name that another one would meet gets this one.
APART = {
    "four_bytes": "four_bytes_lem",
    "two_bytes": "two_bytes_lem",
    "bytes_left": "bytes_left_lem",
    "no_line": "no_line_lem",
    "bit-and": "bit_and_lem",
    "bit-or": "bit_or_lem",
    "bit-xor": "bit_xor_lem",
    "bits-of": "bits_of_lem",
    "block-of": "block_of_lem",
}


def snake(name):
    name = name.replace("→", "-to-").replace("getD", "get-or").replace("′", "'")
    words = []
    for part in name.split("-"):
        if part[:1].islower():
            part = re.sub(r"(?<=[a-z0-9])[A-Z][a-z]*|[A-Z][0-9]+", lambda m: "_" + m[0].lower(), part)
        words.append(part)
    return re.sub("_+", "_", "_".join(words))


def files():
    for path in sorted(glob.glob("crates/*/**/*.antt", recursive=True)) + sorted(glob.glob("crates/*/src/**/*.rt", recursive=True)):
        if "/out/" not in path:
            yield path


def declared():
    found = set()
    for path in files():
        if path.endswith(".antt") and not path.endswith("/Proof.antt"):
            with open(path, encoding="utf-8") as f:
                text = f.read()
            found |= {m[1] for m in DECLARED.finditer(text)} | {m[1] for m in HEAD.finditer(text)}
    return {n for n in found if not n.startswith("--")}


def names():
    """Old and new names. Where a lemma's would be a definition's, it gets `_lem`."""
    found = declared()
    told = {n: APART.get(n, snake(n)) for n in found}
    often = collections.Counter(told.values())
    for n in found:
        if often[told[n]] > 1 and "-" in n and n not in APART:
            told[n] += "_lem"
    return {n: m for n, m in told.items() if n != m}


def foreign(text, own):
    """What a file imports from other libraries keeps its name in that file."""
    found = set()
    for m in re.finditer(r"\buse ([^\s;{]+)\.\{([^}]*)\}", text):
        steps = m[1].split(".")
        if steps[0] != "Rattle" or steps[1] not in own:
            found |= {w.strip().split(" as ")[0] for w in m[2].split(",")}
    return found


def turned(text, table):
    return re.sub(WORD, lambda m: table.get(m[0], m[0]), text)


def prose(text, table):
    """A comment: a word with a capital inside, or a name between back quotes."""
    text = re.sub(r"\x60(" + WORD + r")\x60", lambda m: "\x60" + table.get(m[1], m[1]) + "\x60", text)
    return re.sub(r"(?<![\w.'-])[a-z]+[A-Z]\w*(?![\w'-])", lambda m: table.get(m[0], m[0]), text)


def antt(text, table):
    out = []
    for piece in re.split(r"(--[^\n]*|\"(?:[^\"\\]|\\.)*\")", text):
        if piece.startswith("--"):
            out.append(prose(piece, table))
        elif piece.startswith('"'):
            out.append(piece)
        else:
            out.append(turned(piece, table))
    return "".join(out)


def closing(text, at):
    """The end of the braces that open at `at`."""
    depth = 0
    for i in range(at, len(text)):
        depth += {"{": 1, "}": -1}.get(text[i], 0)
        if depth == 0:
            return i + 1
    return len(text)


def code(text, table):
    out, at = [], 0
    while True:
        m = re.compile(r"//[^\n]*|" + CLAUSE.pattern).search(text, at)
        if not m:
            out.append(text[at:])
            return "".join(out)
        out.append(text[at : m.start()])
        if m[0].startswith("//"):
            out.append(prose(m[0], table))
            at = m.end()
            continue
        end = closing(text, m.end() - 1) if m[0].endswith("{") else text.index(";", m.end())
        out.append(turned(text[m.start() : end], table))
        at = end


def main():
    table = names()
    if "--list" in sys.argv:
        for old, new in sorted(table.items()):
            print(old, new, sep="\t")
        return
    own = set(os.listdir("crates"))
    for path in files():
        with open(path, encoding="utf-8") as f:
            text = f.read()
        kept = foreign(text, own)
        new = (antt if path.endswith(".antt") else code)(text, {o: n for o, n in table.items() if o not in kept})
        if new != text:
            with open(path, "w", encoding="utf-8") as f:
                f.write(new)


if __name__ == "__main__":
    main()
