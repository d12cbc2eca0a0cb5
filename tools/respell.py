#!/usr/bin/env python3
"""Spells the repository's own definitions and lemmas by the table respell.tsv beside this script, each a row: old, a tab, new.

usage: tools/respell.py [ROOT]        (default: the folder above tools/)

It turns whole words in the .antt files of specs/ and proofs/ and in the .rt files of src/ (clauses, ghost imports and comments; no name of the
code has such a spelling). A name of a function, an exported name and a string stay. A second run changes nothing.
"""
import pathlib
import re
import sys

here = pathlib.Path(__file__).resolve().parent
root = pathlib.Path(sys.argv[1]) if len(sys.argv) > 1 else here.parent
table = dict(line.rstrip("\n").split("\t") for line in open(here / "respell.tsv", encoding="utf-8"))
WORD = re.compile(r"(?<![\w'◌⊢-])[A-Za-z](?:[\w']|-(?=[\w]))*(?![\w'◌])")

changed = 0
for crate in sorted((root / "crates").iterdir()):
    for folder, ending in (("specs", "*.antt"), ("proofs", "*.antt"), ("src", "*.rt")):
        for file in sorted((crate / folder).rglob(ending)):
            old = file.read_text(encoding="utf-8")
            new = WORD.sub(lambda m: table.get(m.group(0), m.group(0)), old)
            if new != old:
                file.write_text(new, encoding="utf-8")
                changed += 1
print(f"respell: {changed} files changed")
