#!/usr/bin/env python3
"""oracle/odd_parts.py [FOLDER]: puts opens behind the Rust's runs in FOLDER/stdin and FOLDER/stdout (crates/allocator_vectors), of parts that the
Rust cannot have, since its memory has whole pages: shorter than 16 words, or with an end within a word. The answers are those of
plain_model.py. Run it after oracle/make-vectors."""
import pathlib
import struct
import sys

import plain_model as model
from sound_volumes import NO_SIZE, SIZES, SMALL

END = "0"
SCOPE = 1  # whose answers they are
PAST = b"\xff"  # what the program puts past the last whole word
NEW, OLD, NO_MARK = (int.from_bytes(mark, "little") for mark in (b"FSA1", b"ALO1", b"FSA2"))


def words(mark, size, free, next_pointer):
    return [mark, size, len(free), next_pointer] + [0] * 12 + free


def hexed(*numbers):
    return " ".join(format(n, "x") for n in numbers)


# the words that have room in so many bytes, zeros behind those that are given
def part(length, given):
    whole = length // 8
    laid = (given + [0] * whole)[:whole]
    return struct.pack("<%dQ" % whole, *laid) + PAST * (length % 8)


def words_of(memory):
    return [word for (word,) in struct.iter_unpack("<Q", memory[: len(memory) // 8 * 8])]


def opening(memory):
    try:
        return model.open_allocator(memory), 0
    except model.Refused as refusal:
        return memory, refusal.number


# a run of two opens
def run(length, given):
    lines = [hexed(1, SCOPE, length, *words_of(part(length, given)))]
    memory = part(length, given)
    for _ in range(2):
        memory, answer = opening(memory)
        lines.append(hexed(2, answer, *words_of(memory)))
    return lines


TWO = [SMALL, 0]
RUNS = (
    [run(length, words(NEW, SMALL, [], 0)) for length in (0, 1, 8, 32, 64, 119, 120, 121, 127, 128, 129, 135, 136)]
    + [run(length, words(mark, 0, [], 0)) for mark in (OLD, NO_MARK) for length in (127, 128, 131, 191)]
    + [run(length, words(NEW, SMALL, TWO, 2 * SMALL)) for length in (135, 136, 143, 144, 145, 151, 152, 191)]
    + [run(length, words(OLD, SMALL, TWO[:1], 2 * SMALL)) for length in (128, 135, 136, 137, 143)]
    + [run(length, words(NEW, SMALL, TWO, 2 * SMALL + 1)) for length in (127, 145)]
    + [run(length, words(OLD, size, [size], 2 * size)) for size in (*SIZES, NO_SIZE) for length in (127, 135, 137)]
)


def main():
    folder = pathlib.Path(sys.argv[1]) if len(sys.argv) > 1 else pathlib.Path(__file__).resolve().parent.parent / "crates/allocator_vectors"
    before = (folder / "stdin").read_text().rstrip("\n").split("\n")
    *told, total = (folder / "stdout").read_text().rstrip("\n").split("\n")
    assert before[-1] == END
    steps = int(total.split()[3])
    for number, lines in enumerate(RUNS, len(told) + 1):
        told.append("run %d: %d steps" % (number, len(lines) - 1))
        steps += len(lines) - 1
    told.append("all %d runs, %d steps" % (len(told), steps))
    (folder / "stdin").write_text("\n".join(before[:-1] + [line for lines in RUNS for line in lines] + [END]) + "\n")
    (folder / "stdout").write_text("\n".join(told) + "\n")


main()
