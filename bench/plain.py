#!/usr/bin/env python3
"""bench/plain.py OUT CRATE: writes a crate and those it depends on as Rust into OUT/CRATE/*.rs, and prints them in the order in which they compile.

A .rt file without its contracts is Rust, but for one thing: an index was proved to lie within its bounds and is not tested in the library; so it is
not tested here."""
import pathlib
import re
import sys

TOP = pathlib.Path(__file__).resolve().parent.parent

# What only the check reads, a line each; the terms of the second kind are one pair of braces, to the end of the line.
GHOST = re.compile(r"ghost use [^;]*;|use std::marker::Model;|#!?\[tactic\([^][]*\)\]|#\[derive\(Drop\)\]")
TERM = re.compile(r"(?:requires|ensures)(?: \w+)? (\{.*\})|ghost \w+ = (\{.*\});")
LEFT_OVER = re.compile(r"\b(ghost|requires|ensures|tactic)\b")

# What is left of an `impl Model`, whose members all were ghost.
MODEL = re.compile(r"^impl(<[^<>]*>)? Model for [^{}]* \{\s*\}\n", re.MULTILINE)

COMMENT = re.compile(r"\s*//")

# `a.b[i] =`, `a[i] +=`, `a[i..j].fill(`, `&mut a[i..j]`; and what then is left, `a[i]`, `a.b()[i]`.
INDEX = r"(?<![\w.)])((?:\w+(?:\(\))?\.)*\w+(?:\(\))?)\[([^][]+)\]"
WRITTEN = re.compile(INDEX + r"(?= \+?= )")
CHANGED = re.compile(INDEX + r"(?=\.(?:copy_from_slice|fill)\()")
LENT = re.compile(r"&mut " + INDEX)
READ = re.compile(INDEX)
TESTED = re.compile(r"[\w)\]}?]\[")


def listed():
    """The crates that each crate depends on, in an order in which they compile."""
    lines = (TOP / "crates.txt").read_text().splitlines()
    return {name.split()[0]: needed.split() for name, needed in (line.split(":") for line in lines)}


def is_term(text):
    """Whether a text is one pair of braces with what lies between them."""
    depth = 0
    for at, letter in enumerate(text, 1):
        depth += (letter == "{") - (letter == "}")
        if depth == 0:
            return at == len(text)
    return False


def is_ghost(line):
    term = TERM.fullmatch(line)
    return is_term(term[1] or term[2]) if term else GHOST.fullmatch(line)


def untested(line):
    """A line whose indexes are taken as they are."""
    line = LENT.sub(r"unsafe { \1.get_unchecked_mut(\2) }", line)
    line = WRITTEN.sub(r"*unsafe { \1.get_unchecked_mut(\2) }", line)
    line = CHANGED.sub(r"unsafe { \1.get_unchecked_mut(\2) }", line)
    return READ.sub(r"(*unsafe { \1.get_unchecked(\2) })", line)


def plain(path):
    """The Rust of a source file."""
    kept = []
    for line in path.read_text().splitlines():
        if is_ghost(line.strip()) or COMMENT.match(line):
            continue
        rust = untested(line)
        if LEFT_OVER.search(line) or TESTED.search(rust):
            sys.exit(f"{path}: not understood: {line}")
        kept.append(rust)
    return MODEL.sub("", "\n".join(kept) + "\n")


def write_crate(out, name):
    folder = out / name
    folder.mkdir(parents=True, exist_ok=True)
    for path in (TOP / "crates" / name / "src").glob("*.rt"):
        (folder / path.with_suffix(".rs").name).write_text(plain(path))


def main(out, crate):
    crates = listed()
    wanted = [name for name in crates if name == crate or name in crates[crate]]
    for name in wanted:
        write_crate(pathlib.Path(out), name)
    print(*wanted)


main(*sys.argv[1:])
