#!/usr/bin/env python3
"""Spells this repository's own words of contracts and proofs in snake case, after port.py has run.

usage: python3 tools/snake_names.py      at the top of the repository, once

A word that begins small and has a capital inside gets underscores, in each .antt file, and in each .rt file outside
strings. Types, facts, modules and variants begin with a capital and stay; so do the names of functions, which are in
snake case already. Where the new spelling is taken by a lemma, the lemma gets another name first: APART.
"""

import os
import re
import sys

# file in which the lemma stands: lemma, its new name
APART = {
    "crates/volume/proofs/RowBytes.antt": [("node_row", "node_row_lem"), ("entry_row", "entry_row_lem"), ("chunk_row", "chunk_row_lem"), ("node_at", "node_at_lem")],
    "crates/volume/proofs/KindBytes.antt": [("is_known", "is_known_lem")],
    "crates/directories/proofs/NamedEntry.antt": [("entry_found", "entry_found_lem")],
    "crates/paths/proofs/Sorts.antt": [("is_name", "is_plain_name")],
    "crates/names/proofs/SearchLaws.antt": [("of_node", "of_node_found")],
}
LETTER = r"A-Za-z0-9_'₀-₉"
CAMEL = re.compile(rf"(?<![{LETTER}])[a-z][a-z0-9_]*[A-Z][{LETTER}]*")
STRING = re.compile(r'b?"(?:[^"\\]|\\.)*"')


def files(*ends):
    for folder, dirs, names in sorted(os.walk("crates")):
        dirs[:] = sorted(d for d in dirs if d != "out")
        for name in sorted(names):
            if name.endswith(ends):
                yield os.path.join(folder, name)


def read(path):
    with open(path, encoding="utf-8") as f:
        return f.read()


def write(path, text):
    with open(path, "w", encoding="utf-8") as f:
        f.write(text)


def snake(match):
    word = match[0].replace("getD", "get_or")
    return re.sub(r"(?<=[a-z0-9])[A-Z]", lambda m: "_" + m[0].lower(), word)


def module_of(path):
    _, crate, where, name = path.split("/")
    return f"Rattle.{crate}.{where}.{name[:-5]}"


def apart():
    for home, pairs in APART.items():
        module = module_of(home)
        for path in files(".antt"):
            text = read(path)
            for old, new in pairs:
                imports = re.search(rf"^use {re.escape(module)}\.{{[^}}]*(?<![{LETTER}-]){old}(?![{LETTER}-])[^}}]*}}", text, re.M)
                if path == home or imports:
                    text = re.sub(rf"(?<![{LETTER}.-]){old}(?![{LETTER}-])(?!\.{{)", new, text)
            write(path, text)


def outside_strings(text):
    done, at = [], 0
    for m in STRING.finditer(text):
        done += [CAMEL.sub(snake, text[at : m.start()]), m[0]]
        at = m.end()
    return "".join(done) + CAMEL.sub(snake, text[at:])


def main():
    if not os.path.isfile("crates.txt"):
        sys.exit("snake_names: run it at the top of the repository")
    apart()
    for path in files(".antt"):
        write(path, CAMEL.sub(snake, read(path)))
    for path in files(".rt"):
        write(path, outside_strings(read(path)))


main()
