#!/usr/bin/env python3
"""The vectors of crates/volume_vectors, computed from the text of docs/LAYOUT.md.

From the top of the repository

    python3 oracle/volumes.py crates/volume_vectors

rewrites stdin (a case to a line: 1, the rooms of the node, entry and chunk tables, the chunk size and the bytes of the memory, in
hexadecimal; 0 ends) and stdout (what each case must print, in decimal). It knows nothing of the Rattle code but the order of these
numbers, the bytes of the memory before and what is printed of it.
"""
import os
import struct
import sys
import zlib

from sound_volumes import NO_SIZE, NO_SIZES, SIZES

MEMORY = 1572864
HUGE = 2**64 - 1
END, NEW = range(2)
MOST_ROWS = 4096
DIRECTORY = 0
NO_LIMIT = 0
INVALID_ARGUMENT = 13


def words(*numbers):
    return struct.pack("<%dQ" % len(numbers), *numbers)


# ---- what a case prints


def least_length(n, e, c):
    return 65728 + 40 * n + 280 * e + 32 * c


def before(length):
    return (bytes(range(1, 256)) * (length // 255 + 1))[:length]


def new_volume(n, e, c, size, length):
    header = words(1, n, e, c, 1, 0, 0, 1)
    allocator = b"FSA1" + bytes(4) + words(size, 0, 0) + bytes(8 * 12) + bytes(8 * c)
    root = words(0) + bytes((DIRECTORY, NO_LIMIT)) + bytes(6) + words(1, 0, 0)
    tables = header + allocator + root.ljust(40 * n, b"\0") + bytes(280 * e) + bytes(24 * c)
    return tables.ljust(length, b"\0")


def accepted(n, e, c, size, length):
    return all(1 <= rows <= MOST_ROWS for rows in (n, e, c)) and length >= least_length(n, e, c) and size in SIZES


def shown(v, name, at, n):
    return [name, *struct.unpack_from("<%dQ" % n, v, at)]


def printed(n, e, c, size, length):
    if length > MEMORY:
        return "outside"
    if accepted(n, e, c, size, length):
        v = new_volume(n, e, c, size, length)
        assert len(v) == length
        line = ["answer", 0, 0, *shown(v, "header", 0, 8), *shown(v, "allocator", 64, 4), *shown(v, "node", 64 + 128 + 8 * c, 5)]
    else:
        v = before(length)
        line = ["answer", INVALID_ARGUMENT, 0, "unchanged"]
    return " ".join(map(str, [*line, "checksum", zlib.adler32(v)]))


# ---- the cases

LEAST = (1, 1, 1)
GREATEST = (MOST_ROWS, MOST_ROWS, MOST_ROWS)
BETWEEN = ((2, 3, 5), (40, 7, 64), (4095, 2, 1000), (300, 4095, 4095), (MOST_ROWS, 1, 1), (1, MOST_ROWS, 1), (1, 1, MOST_ROWS))


# the sizes in turn
def sized(i):
    return SIZES[i % len(SIZES)]


# in the shortest memory, in one a byte longer, and in all there is
def geometries():
    for rooms in (LEAST, GREATEST):
        for size in SIZES:
            yield *rooms, size, least_length(*rooms)
    for i, rooms in enumerate(BETWEEN):
        yield *rooms, sized(i), least_length(*rooms)
    for i, rooms in enumerate((LEAST, *BETWEEN, GREATEST)):
        yield *rooms, sized(i), least_length(*rooms) + 1
        yield *rooms, sized(i), MEMORY


# each table alone, also by numbers that look allowed when only their low 32 bits count, or their bytes modulo 2^64
def rooms_out_of_bounds():
    for table in range(3):
        for rows in (0, MOST_ROWS + 1, 2**32 + 1, 2**59, 2**61, 2**63, HUGE - 1, HUGE):
            rooms = list(LEAST)
            rooms[table] = rows
            yield *rooms, 16384, MEMORY
    yield 0, 0, 0, 16384, MEMORY
    yield HUGE, HUGE, HUGE, 16384, MEMORY


def memories_too_short():
    for i, rooms in enumerate((LEAST, *BETWEEN, GREATEST)):
        yield *rooms, sized(i), least_length(*rooms) - 1
    yield *GREATEST, 4096, least_length(*LEAST)
    for length in (0, 1, 63, 64, 192, 65536, 65728):
        yield *LEAST, 4096, length


def sizes_not_accepted():
    for size in NO_SIZES:
        yield *LEAST, size, least_length(*LEAST)
    yield *GREATEST, NO_SIZE, least_length(*GREATEST)


def several_at_once():
    yield 0, 0, 0, 0, 0
    yield HUGE, HUGE, HUGE, HUGE, 0
    yield *GREATEST, NO_SIZE, least_length(*GREATEST) - 1
    yield 0, MOST_ROWS + 1, 1, 0, MEMORY


def memories_too_long():
    for length in (MEMORY + 1, 2**32, HUGE):
        yield *LEAST, 4096, length


def main():
    folder = sys.argv[1]
    cases = [
        *geometries(),
        *rooms_out_of_bounds(),
        *memories_too_short(),
        *sizes_not_accepted(),
        *several_at_once(),
        *memories_too_long(),
    ]
    cases = list(dict.fromkeys(cases))
    lines = [" ".join("%x" % x for x in line) for line in [*((NEW, *case) for case in cases), (END,)]]
    with open(os.path.join(folder, "stdin"), "w") as out:
        out.writelines(line + "\n" for line in lines)
    with open(os.path.join(folder, "stdout"), "w") as out:
        out.writelines(printed(*case) + "\n" for case in cases)


main()
