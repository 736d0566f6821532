#!/usr/bin/env python3
"""Spells this repository's own definitions and lemmas as today's Rattle spells names: words in snake case, a fact's name in upper camel
case. It turns crates/, the edits under tests/edits and the names that README.md, docs/ and tests/ say; Rust's own names have that
spelling already. Where a lemma would meet the definition that it is about, the lemma gets `_lem`. A second run changes nothing.

usage: tools/respell.py [FOLDER]    the repository's top, else this folder"""
import pathlib
import re
import sys

root = pathlib.Path(sys.argv[1] if len(sys.argv) > 1 else ".")
CAMEL = re.compile(r"(?<![\w'’])[a-z][a-z0-9]*(?:[A-Z][a-z0-9]*)+(?!\w)")
# names of other tools' words, which stay
FOREIGN = {"pthreads"}
# facts that were spelled as functions
FACTS = {"saidOver": "SaidOver", "inMask": "InMask"}
# a type that was spelled with a dash
TYPES = {"Ran-by": "RanBy"}


def snake(word):
    return FACTS.get(word) or re.sub(r"(?<=[a-z0-9])[A-Z]", lambda m: "_" + m[0].lower(), word)


def whole(word):
    """The word where it stands alone, also as a path's last step; not a part of a longer name."""
    return re.compile(rf"(?<![\w'’-]){re.escape(word)}(?![\w'’-])")


code = [p for p in sorted((root / "crates").rglob("*")) if p.suffix in (".rt", ".antt") and "out" not in p.parts]
texts = {p: p.read_text(encoding="utf-8") for p in code}
camel = {w for t in texts.values() for w in CAMEL.findall(t)} - FOREIGN
declared = {w for p, t in texts.items() if p.suffix == ".antt" for w in re.findall(r"(?m)^ *(?:\w+ )*?([^\s:(){}]+)(?: \{[^{}\n]*\})* :", t)}


def respelled(t):
    for old, new in TYPES.items():
        t = whole(old).sub(new, t)
    return CAMEL.sub(lambda m: snake(m[0]) if m[0] in camel else m[0], t)


# a lemma that is already spelled as a definition will be: it and those that cite it
meets = {snake(w) for w in camel if snake(w) != w and snake(w) in declared}
for p, t in texts.items():
    if p.suffix == ".antt":
        for w in sorted(meets):
            # a folder of a function's proof keeps the function's name
            if not re.search(rf"proofs[\w.«»]*\.«?{w}»?\b", t):
                t = whole(w).sub(w + "_lem", t)
    texts[p] = respelled(t)

for p, t in texts.items():
    if t != p.read_text(encoding="utf-8"):
        p.write_text(t, encoding="utf-8")

words = [*(root / "crates").glob("*/must-fail/*.edit"), *(root / "tests/edits").rglob("*"), root / "README.md", *(p for p in (root / "docs").glob("*.md") if p.name != "PORT.md")]
words += [p for p in (root / "tests").iterdir() if p.is_file()]
for p in sorted(words):
    if not p.is_file():
        continue
    t = p.read_text(encoding="utf-8")
    new = respelled(t)
    if new != t:
        p.write_text(new, encoding="utf-8")
