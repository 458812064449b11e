#!/usr/bin/env python3
"""Writes the repository's own words in snake case: rowBytes becomes row_bytes, in definitions, clauses, proofs, edits and papers.

usage: python3 tools/respell.py     at the top, once, on text that is otherwise of today's spelling

A word is what an .antt file of crates/ writes with a small first letter and a capital behind it. Types, facts and modules keep their capitals, a lemma
keeps its dashes, and what Rattle reads as a name of src/ is in snake case already. Two words that would fall together are told, and nothing is written.
"""

import pathlib
import re
import sys

# Where a lemma or an import would have the name of a word beside it: the file, the name that it has, the name that it gets.
APART = [
    ("crates/brackets/proofs/OneByOne.antt", "in_order", "left_by-in_order"),
    ("crates/scope/proofs/Carried.antt", "in_order", "classes-in_order"),
    ("crates/keywords/proofs/KeywordLaws.antt", "two_bytes", "cell_start-two_bytes"),
    ("crates/table/proofs/Exactly.antt", "too_long", "too-long"),
    ("crates/rust/proofs/SemanticTokensRs.antt", "isKeyword", "word_is_keyword"),
]
WORD = re.compile(r"(?<![\w'])[a-z][a-z0-9]*(?:[A-Z][A-Za-z0-9]*)+")
# a text in quotes stays as it is
TEXT_OR_WORD = re.compile(r'"(?:[^"\\\n]|\\.)*"|' + WORD.pattern)


def respelled(word):
    return re.sub(r"[A-Z]", lambda m: "_" + m.group(0).lower(), word)


def main():
    crates = pathlib.Path("crates")
    texts = sorted(p for p in crates.rglob("*") if p.suffix in (".antt", ".rt", ".edit") and "out" not in p.parts)
    words = set()
    for p in texts:
        if p.suffix == ".antt":
            words |= {w for w in WORD.findall(p.read_text())}
    by_new = {}
    for w in words:
        by_new.setdefault(respelled(w), []).append(w)
    together = {n: ws for n, ws in by_new.items() if len(ws) > 1}
    if together:
        sys.exit(f"fall together: {together}")
    for file, name, apart in APART:
        p = pathlib.Path(file)
        text = re.sub(rf"(?<![\w'-]){name}(?![\w'-])", apart, p.read_text())
        p.write_text(text.replace("Keywords.{word_is_keyword}", "Keywords.{isKeyword as word_is_keyword}"))
    papers = [pathlib.Path("README.md"), *sorted(pathlib.Path("docs").glob("*.md"))]
    changed = 0
    for p in texts + papers:
        old = p.read_text()
        new = TEXT_OR_WORD.sub(lambda m: respelled(m.group(0)) if m.group(0) in words else m.group(0), old)
        if new != old:
            p.write_text(new)
            changed += 1
    print(f"{len(words)} words, {changed} files")


main()
