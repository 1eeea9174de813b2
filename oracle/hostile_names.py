#!/usr/bin/env python3
"""oracle/hostile_names.py [FOLDER]: puts runs of refused calls behind the Rust's runs in FOLDER/stdin and FOLDER/stdout
(crates/name_vectors), with the scope's answers by plain_model.py: the Rust differs on most of them, or cannot judge them. Every refusal
of every call stands at least twice, at its edge where it has one; those that calls from a new volume cannot reach, behind a poke. The sum of all
bytes stands behind each line, so that a refused call shows that it changed none. Paths that mean a directory, which the Rust's runs leave out, stand
here with what they lead to, too. Searches, which the Rust has not, come last: at every limit from every index of small directories, with one sum behind
all of them. Run it after oracle/make-vectors."""
import collections
import itertools
import pathlib
import sys

import plain_model as model
from sound_volumes import HALF_LARGE, HALF_MIDDLE, LARGE, MIDDLE, NO_SIZE, NO_SIZES, SIZES, SMALL

HERE = pathlib.Path(__file__).resolve().parent
END = "0"

DIRECTORY, FILE, SYMBOLIC_LINK = 0, 1, 2
ANY, WANT_DIRECTORY, WANT_FILE = 0, 1, 2
LARGEST = 2**40
NEVER = 2**64 - 1
HIGHEST = 2**32 - 1


def hexed(*numbers):
    return " ".join(format(n, "x") for n in numbers)


def named(code, first, second, text, third=0):
    return hexed(code, first, second, len(text), third, *text)


def tables(nodes, entries, chunks):
    return 192 + 40 * nodes + 280 * entries + 32 * chunks


def volume(nodes, entries, chunks, span=4096, area=65536):
    return hexed(1, tables(nodes, entries, chunks) + area, nodes, entries, chunks, span)


def read(node, offset, count):
    return hexed(2, node, offset, count, 7)


def write(node, offset, count):
    return hexed(3, node, offset, count, 7)


def resize(node, size):
    return hexed(4, node, size, 0, 0)


def limit(node, most):
    return hexed(5, node, most, 1, 0)


def create(parent, name, kind=FILE):
    return named(6, parent, kind, name)


def link(parent, name, target):
    return named(7, parent, target, name)


def unlink(start, path, expected=ANY, opens=0):
    return named(8, start, opens, path, expected)


def remove(node):
    return hexed(9, node, 0, 0, 0)


def find(start, path):
    return named(0xA, start, 0, path)


def following(directory, index):
    return hexed(0xB, directory, index, 0, 0)


def search(directory, name, first, most):
    return named(0x10, directory, first, name, most)


def chunk_size(span):
    return hexed(0xC, 0, span, 0, 0)


def report(length):
    return hexed(0xD, 0, 0, length, 7)


def poke(at, piece):
    return named(0xE, 0, at, piece)


def poke_word(at, word):
    return poke(at, word.to_bytes(8, "little"))


class Breaking(str):
    """A poke that leaves no sound volume."""


CHECK = poke(0, b"")
SUM = hexed(0xF, 0, 0, 0, 0)


def summed(calls):
    return [line for call in calls for line in (call, SUM)]


# where things stand in a volume whose tables have these rooms (docs/LAYOUT.md)
ROOMS = (8, 8, 4)
USED_CHUNKS, NEXT_NODE, MARKER, NEXT_POINTER, UNREAD = 48, 56, 64, 88, 96
NODE_ROWS = 192 + 8 * ROOMS[2]
ENTRY_ROWS = NODE_ROWS + 40 * ROOMS[0]
AREA = tables(*ROOMS)
LENGTH = AREA + 65536


def poke_index(place, index):
    return poke(ENTRY_ROWS + 280 * place + 16, index.to_bytes(4, "little"))


LONG_NAME = b"n" * model.LONGEST_NAME
TOO_LONG_NAME = LONG_NAME + b"n"
BAD_NAMES = [b"", b".", b"..", b"/", b"a/b", b"a/", bytes(256), b"n" * 256]
ODD_NAMES = [b"...", b"\x00", b"\xff\xfe", b" ", b"n" * 255, b".hidden"]

# Names that are refused and odd ones that are not; what is no directory, and what is one; a name twice; a missing target.
NAMES = (
    [volume(16, 16, 4)]
    + [create(0, name) for name in BAD_NAMES + ODD_NAMES]
    + [create(0, name, SYMBOLIC_LINK) for name in ODD_NAMES]
    + [link(0, name, 1) for name in BAD_NAMES + ODD_NAMES[:2]]
    + [create(0, b"kind", kind) for kind in (3, 255)]
    + [create(0, b"folder", DIRECTORY), create(7, b"in", FILE), create(7, b"in", DIRECTORY), link(7, b"in", 1)]
    + [create(8, b"x"), create(1, b"x", DIRECTORY), link(8, b"x", 1), link(1, b"", 1), create(99, b""), create(NEVER, b"x"), link(99, b"x", 1)]
    + [link(0, b"again", 7), link(0, b"root", 0), link(0, b"none", 99), link(0, b"n" * 256, 99)]
    + [following(1, 0), following(8, 1), following(99, 0), following(0, 2**32 - 1), following(7, 2), following(7, 0), following(7, 1)]
    + [search(0, name, 0, NEVER) for name in BAD_NAMES + ODD_NAMES + [b"n" * 254, b"n" * 254 + b"m"]]
    + [search(node, name, 0, 1) for node in (1, 8, 99, NEVER) for name in (b"in", b"", b"n" * 256)]
    + [read(0, 0, 1), read(7, 5, 3), write(0, 0, 1), write(7, 0, 0), resize(0, 1), resize(7, 0), limit(0, 5), limit(7, LARGEST)]
    + [read(99, 0, 1), write(99, 0, 0), resize(99, 0), limit(99, 1), write(NEVER, NEVER, 1), limit(NEVER, NEVER), remove(99), remove(NEVER)]
)

# Paths that are too long, not permitted, without a part, from a missing start, below a file, with long parts; and what unlink judges.
PATHS = (
    [volume(8, 8, 4), create(0, b"folder", DIRECTORY), create(1, b"file"), create(1, b"sub", DIRECTORY), create(0, b"link", SYMBOLIC_LINK)]
    + [act(start, path) for act in (find, unlink) for start, path in (
        (0, b"a" * 4097), (99, b"/" * 4097), (0, b"/folder"), (99, b"/"), (0, b".."), (99, b"folder/../.."), (0, b"./../folder"),
        (99, b""), (99, b"folder"), (NEVER, b"."), (0, b"none"), (0, b"folder/none"), (0, b"folder/file/below"), (0, b"link/below"),
        (0, b"folder/file/" + b"b" * 256), (0, b"b" * 256), (0, b"b" * 256 + b"/.."), (2, b"below"), (0, b"fold"), (0, b"folder2"))]
    + [find(0, b"a" * 4095 + b"/"), find(0, b"./" * 2048), find(0, b"a/" * 2048), find(0, b"a/../" * 819 + b"b"), find(2, b""), find(4, b"./.")]
    + [unlink(0, path) for path in (b"", b".", b"folder/..", b"./.", b"//"[1:])]
    + [unlink(0, b"folder", WANT_FILE), unlink(0, b"folder/sub", WANT_FILE, 1), unlink(0, b"folder"), unlink(0, b"folder", WANT_DIRECTORY, 9)]
    + [unlink(0, b"folder/file", WANT_DIRECTORY), unlink(0, b"link", WANT_DIRECTORY, 3), unlink(0, b"folder/file", WANT_FILE, 1), unlink(0, b"folder/sub", ANY, NEVER)]
    + [remove(0), remove(1), remove(2), unlink(0, b"folder/sub", WANT_DIRECTORY), create(3, b"late"), link(3, b"late", 2), following(3, 0), create(3, b""), find(3, b""), find(3, b"x")]
    + [search(3, b"x", 0, 0), search(3, b"x", 0, NEVER), search(3, b"..", HIGHEST, 0), remove(3), remove(3), search(3, b"x", 0, 1)]
    + [unlink(0, b"folder/file", WANT_FILE), remove(2), unlink(0, b"folder", WANT_DIRECTORY), remove(1), find(0, b"link"), find(0, b"folder")]
)

# What paths that mean a directory end with; and what stands in front: every kind of node, a file by two names, names that are dots or long.
ENDS = [b"/", b"//", b"/.", b"/./", b"/x/..", b"/x/../", b"/.//x/./.."]
A_FILE, A_LINK, A_FOLDER = range(1, 4)
TREE = (
    [volume(16, 16, 4), create(0, b"hood7.csv"), create(0, b"link", SYMBOLIC_LINK), create(0, b"folder", DIRECTORY), create(A_FOLDER, b"sub", DIRECTORY)]
    + [link(A_FOLDER, b"again", A_FILE), create(0, b"..."), create(A_FOLDER, LONG_NAME)]
)
TO_FILES = [b"hood7.csv", b"folder/again", b"...", b"folder/" + LONG_NAME]


# a path with as many slashes behind it as make it so long
def stretched(path, length):
    return path + b"/" * (length - len(path))


# Only a directory or a symbolic link is found by such a path, or unlinked. A path that ends with a name may lead to a file, and one with no part gives
# the start, even a file. What is unlinked is put back.
MEANT = (
    TREE
    + [find(0, path + end) for path in TO_FILES + [b"link", b"folder", b"folder/sub"] for end in [b"", *ENDS]]
    + [find(0, path) for path in (b"folder/../hood7.csv", b"hood7.csv/../hood7.csv", b"hood7.csv/../hood7.csv/", b"folder/again/..", b"hood7.csv/.x", b"hood7.csv/../...")]
    + [act(start, path) for act in (find, unlink) for start in (A_FILE, A_LINK, A_FOLDER) for path in (b"", b".", b"./", b"x/..", b"x/../.")]
    + [unlink(0, path + end) for path in TO_FILES + [b"folder"] for end in ENDS]
    + [line for end in ENDS for line in (unlink(0, b"folder/sub" + end), create(A_FOLDER, b"sub", DIRECTORY), unlink(0, b"link" + end), link(0, b"link", A_LINK))]
)

# The refusals of the walk come before, but a part that `..` drops is not looked up; those of unlink alone come behind. The longest paths, and a byte more.
IN_TURN = (
    TREE
    + [act(start, path) for act in (find, unlink) for start, path in (
        (0, b"/hood7.csv/"), (0, b"hood7.csv/../.."), (99, b"hood7.csv/"), (0, b"missing/"), (0, b"folder/missing/."), (0, b"hood7.csv/x/"),
        (0, b"hood7.csv/x/y/.."), (0, b"link/x/"), (A_FILE, b"x/"), (0, TOO_LONG_NAME + b"/"), (0, b"hood7.csv/" + TOO_LONG_NAME + b"/"),
        (0, b"hood7.csv/x/.."), (0, b"hood7.csv/" + TOO_LONG_NAME + b"/.."), (0, b"folder/" + TOO_LONG_NAME + b"/.."))]
    + [unlink(0, path, expected, opens) for path in (b"hood7.csv/", b".../", b"folder/again/.", b"folder/") for expected in (ANY, WANT_DIRECTORY, WANT_FILE) for opens in (0, 1)]
    + [unlink(0, b"folder/sub/", WANT_FILE), unlink(0, b"folder/sub/", WANT_FILE, 1), unlink(0, b"folder/sub/", ANY, 1), unlink(0, b"folder/sub/", WANT_DIRECTORY, NEVER)]
    + [unlink(0, b"link/", WANT_DIRECTORY), unlink(0, b"link/", WANT_DIRECTORY, 1), unlink(0, b"link/", ANY, 1), unlink(0, b"link/", WANT_FILE, NEVER)]
    + [act(0, stretched(b"hood7.csv", length)) for act in (find, unlink) for length in (model.LONGEST_PATH, model.LONGEST_PATH + 1)]
    + [find(0, stretched(b"folder/sub", model.LONGEST_PATH)), unlink(0, stretched(b"folder/sub", model.LONGEST_PATH), WANT_DIRECTORY), find(0, b"folder/sub/")]
    + [unlink(0, b"link/", WANT_FILE), find(0, b"link/"), link(0, b"link", A_LINK), link(0, b"other", A_LINK), unlink(0, b"link/.", ANY, 1), unlink(0, b"other/x/..")]
    + [unlink(0, b"hood7.csv"), find(0, b"hood7.csv/"), find(0, b"folder/again/"), unlink(0, b"folder/again/", ANY, 1), unlink(0, b"folder/again", ANY, 1), unlink(0, b"folder/again")]
)

# Tables that are full, and full again after a place became free.
FULL = (
    [volume(3, 5, 2), create(0, b"a"), create(0, b"b"), create(0, b"c"), create(0, b"a"), link(0, b"c", 1), link(0, b"d", 1), link(0, b"e", 2)]
    + [link(0, b"f", 2), create(0, b"f"), link(0, b"a", 2), unlink(0, b"e"), link(0, b"e", 2), link(0, b"g", 2), unlink(0, b"a"), unlink(0, b"c"), unlink(0, b"d"), create(0, b"h"), remove(1), create(0, b"h"), create(0, b"i")]
    + [volume(4, 2, 1), create(0, b"a", DIRECTORY), create(0, b"b"), create(0, b"c"), create(1, b"c"), link(1, b"c", 2), unlink(0, b"b"), create(1, b"c"), create(1, b"d"), find(0, b"a/c")]
)

# No chunk room: a row too few, a chunk too few; sizes and limits past their edge. What takes no chunk needs no room.
ROOM = (
    [volume(4, 4, 2), create(0, b"a"), create(0, b"b"), write(1, 4095, 2), write(1, 8192, 1), write(2, 0, 1), write(2, LARGEST, 0), write(1, 0, 8192)]
    + [resize(2, 9000), resize(2, 5000), resize(2, 8192), resize(2, 4097), resize(1, 4096), resize(2, 4097), read(2, 0, 5000), write(2, 4096, 1), write(2, 0, 2)]
    + [volume(4, 4, 8, 65536), create(0, b"a"), create(0, b"b"), write(1, 0, 65536), write(1, 65536, 1), write(2, 7, 1), resize(1, 0), write(2, 7, 1), read(2, 0, 16)]
    + [write(2, LARGEST, 1), write(2, LARGEST - 1, 2), write(2, NEVER, 1), write(2, NEVER, 0), resize(2, LARGEST + 1), resize(2, LARGEST), resize(2, NEVER)]
    + [limit(2, LARGEST + 1), limit(2, NEVER), limit(2, 5), resize(2, 100), limit(2, 99), limit(2, 100), write(2, 100, 1), resize(2, 101), limit(2, 0), resize(2, 0), limit(2, 0), write(2, 0, 1)]
)

# A sparse file on a full volume: cut where it has a hole, which takes no chunk; grown again, it reads zero. Cut where it has bytes, it does, too.
SPARSE = (
    [volume(4, 4, 2), create(0, b"full"), create(0, b"sparse"), write(1, 4095, 2), resize(2, 40000), resize(2, 20000), report(512)]
    + [resize(2, 40000), read(2, 16384, 8192), resize(2, 20000), read(2, 16384, 8192), write(2, 19999, 1), resize(2, 4096), resize(2, 4095), resize(2, 1), resize(2, 40000)]
    + [resize(1, 4096), write(2, 16385, 3), resize(2, 16386), report(512), resize(2, 40000), read(2, 16384, 8192), resize(2, 10), report(512), resize(2, 40000), read(2, 16384, 8192)]
)


# The next node is the greatest number, or one before it.
LAST_NODE = (
    [volume(*ROOMS), create(0, b"a"), create(0, b"folder", DIRECTORY), poke_word(NEXT_NODE, NEVER - 1), create(0, b"b"), create(0, b"c"), create(2, b"c", DIRECTORY)]
    + [create(0, b"a"), create(0, b""), create(0, b"c", 3), create(1, b"c"), link(0, b"c", 1), write(NEVER - 1, 0, 5), find(0, b"b"), report(512)]
    + [unlink(0, b"b"), remove(NEVER - 1), create(0, b"b"), poke_word(NEXT_NODE, 3), create(0, b"b"), Breaking(poke_word(NEXT_NODE, 3)), poke_word(NEXT_NODE, NEVER), create(2, b"d", SYMBOLIC_LINK), find(0, b"b")]
)

# The greatest index of a directory is the greatest number, or one before it.
LAST_INDEX = (
    [volume(*ROOMS), create(0, b"a"), create(0, b"folder", DIRECTORY), create(2, b"in"), poke_index(1, HIGHEST - 1), create(0, b"b"), following(0, HIGHEST - 1), following(0, HIGHEST)]
    + [search(0, b"b", first, most) for first, most in ((0, 1), (0, 2), (0, 3), (HIGHEST - 1, 1), (HIGHEST, 0), (HIGHEST, 1))]
    + [search(0, name, first, NEVER) for name in (b"folder", b"in") for first in (2, HIGHEST - 1, HIGHEST)]
    + [create(0, b"c"), create(0, b"c", DIRECTORY), link(0, b"c", 1), link(0, b"d", 3), create(0, b"a"), link(0, b"b", 1), create(0, b"c", 3), link(0, b"c", 2), create(2, b"c")]
    + [unlink(0, b"b"), link(0, b"c", 1), following(0, 3), create(0, b"d"), unlink(0, b"a"), create(0, b"d"), link(0, b"d", 1), poke_index(3, HIGHEST), create(2, b"e"), link(2, b"e", 1)]
    + [poke_word(NEXT_NODE, NEVER), create(2, b"e"), create(0, b"e", DIRECTORY), link(2, b"e", 1), unlink(0, b"folder/c"), link(2, b"e", 1), following(2, 2)]
    + [volume(4, 2, 4), create(0, b"a"), create(0, b"b"), poke(192 + 8 * 4 + 40 * 4 + 280 + 16, b"\xff" * 4), create(0, b"c"), link(0, b"c", 1), unlink(0, b"a"), link(0, b"c", 2), create(0, b"c"), unlink(0, b"b"), create(0, b"c")]
)

# A directory that is its own entry, which is sound, though no call makes one: found, listed, filled, and never taken out.
OWN_ENTRY = (
    [volume(*ROOMS), create(0, b"d", DIRECTORY), Breaking(poke_word(ENTRY_ROWS, 1)), Breaking(poke_word(NODE_ROWS + 24, 0)), poke_word(NODE_ROWS + 40 + 24, 1)]
    + [find(1, b"d"), find(1, b"d/d/./d"), find(1, b"d/d/."), find(0, b"d"), following(1, 0), following(1, 2), following(0, 0)]
    + [search(1, b"d", 0, 1), search(1, b"d", 1, 0), search(1, b"d", 2, 1), search(0, b"d", 0, 1)]
    + [unlink(1, b"d"), unlink(1, b"d/d", WANT_DIRECTORY), unlink(1, b"d/d/"), unlink(1, b"d", WANT_FILE, 1), unlink(0, b"d"), remove(1), create(1, b"d"), link(1, b"d", 1), link(1, b"x", 1)]
    + [create(1, b"f"), link(1, b"d/g", 2), link(1, b"g", 2), find(1, b"d/d/g"), write(2, 4095, 3), unlink(1, b"d/d/f"), unlink(1, b"d/g", WANT_FILE), remove(2), unlink(1, b"d"), following(1, 1), report(512)]
)

# Another chunk size: only while no pointer was given out, not even one that came back.
EVERY_SIZE = [chunk_size(span) for span in (*SIZES, MIDDLE, NO_SIZE, 0)]
CHUNK_SIZES = (
    [volume(*ROOMS, MIDDLE), create(0, b"a")]
    + [chunk_size(span) for span in NO_SIZES]
    + [line for span in SIZES for line in (chunk_size(span), report(512))]
    + [chunk_size(MIDDLE), resize(1, LARGEST)]
    + EVERY_SIZE
    + [write(1, MIDDLE - 1, 3)]
    + EVERY_SIZE
    + [unlink(0, b"a"), remove(1), report(600)]
    + EVERY_SIZE
    + [volume(*ROOMS, LARGE), chunk_size(SMALL), create(0, b"a"), write(1, 0, SMALL + 1), resize(1, 0), chunk_size(LARGE), chunk_size(HALF_MIDDLE), chunk_size(SMALL), chunk_size(NO_SIZE)]
)

NEW_VOLUMES = [line for span in SIZES for line in (volume(*ROOMS, span), report(512))]


# Files on chunks of a size: over a chunk's end, cut, grown, over a hole, with no room, freed and taken again.
def on_chunks(S):
    return (
        [volume(*ROOMS, S, area=max(65536, 3 * S)), create(0, b"a"), create(0, b"b"), write(1, S - 1, 3), read(1, S - 2, 6), report(512)]
        + [resize(1, S), resize(1, 2 * S), read(1, S - 2, 6), write(2, 2 * S + 5, 9), resize(2, 2 * S + 6), resize(2, S + 1), report(512)]
        + [write(2, S // 2, S), read(2, 0, 2 * S), write(1, S, S + 1), write(1, S, S), resize(2, S // 2), resize(2, 2 * S), read(2, 0, 2 * S)]
        + [chunk_size(S), chunk_size(S // 2), chunk_size(2 * S), write(2, LARGEST - 1, 1), write(2, LARGEST, 1), unlink(0, b"a"), remove(1), write(2, LARGEST - 1, 1), report(512)]
    )


FILES_BETWEEN = on_chunks(HALF_MIDDLE) + on_chunks(HALF_LARGE)

# A report needs 512 bytes, however short its text is.
REPORTS = [volume(*ROOMS), report(0), report(110), report(511), report(512), report(513), create(0, b"a"), write(1, 0, 5000), resize(1, 1), poke_word(NEXT_NODE, NEVER), report(511), report(512), report(4096)]

# Every call, each one carried out on the volume before it is broken; and calls that have another reason to be refused, too.
EVERY_CALL = (
    [CHECK, read(1, 0, 9), write(1, 3, 2), write(1, 3, 0), resize(1, 4097), limit(1, LARGEST), create(0, b"new"), link(0, b"again", 1), unlink(0, b"gone"), remove(3), find(0, b"a"), following(0, 0), search(0, b"a", 0, 1), chunk_size(4096), report(512)]
    + [read(99, 0, 1), write(0, 0, 1), resize(99, 0), limit(0, 1), create(99, b""), link(1, b"/", 0), unlink(0, b""), unlink(0, b"a/"), remove(0), find(99, b"/"), find(0, b"a/"), following(99, 0), search(99, b"", 0, 0), chunk_size(1), report(0)]
)
WHOLE = [volume(*ROOMS), create(0, b"a"), create(0, b"gone"), create(0, b"old"), write(1, 0, 9), write(2, 5, 1), unlink(0, b"old")]

# One byte each, and the number that it was: every call is refused while it is wrong, and none after it is right again.
BREAKS = [
    (0, 2, 1),  # another form
    (USED_CHUNKS, 5, 2),  # more chunk rows than there is room for
    (MARKER + 3, 0x30, 0x31),
    (NEXT_POINTER + 1, 0x18, 0x20),  # word 3 no multiple
    (NODE_ROWS + 40 + 10, 1, 0),  # a node row's zeros
    (NODE_ROWS + 40 * 7, 1, 0),  # an unused row
    (ENTRY_ROWS + 280, 1, 0),  # a parent that is a file
    (AREA + 9, 1, 0),  # a byte above the size
]
BROKEN = [line for at, wrong, right in BREAKS for line in WHOLE + [Breaking(poke(at, bytes([wrong])))] + EVERY_CALL + [poke(at, bytes([right]))] + EVERY_CALL]

# What is no rule may be anything: words that nobody reads, bytes that no chunk has.
LOOSE = WHOLE + [poke(UNREAD, b"\xff" * 96), poke(AREA + 2 * 4096, b"\xff"), poke(LENGTH - 1, b"\xff"), write(1, 4096, 1), read(1, 0, 5000)] + EVERY_CALL

# A memory too short for any volume, or by a byte; and a new volume that is refused, over one that goes on.
SHORT = [line for length in (0, 63, 64, LENGTH - 1) for line in [hexed(1, length, *ROOMS, 4096)] + EVERY_CALL]
REFUSED_NEW = WHOLE + [volume(*ROOMS, span) for span in NO_SIZES] + [hexed(1, LENGTH, *rooms, span) for rooms, span in (
    ((0, 8, 4), 4096), ((8, 0, 4), 4096), ((8, 8, 0), 4096), ((4097, 1, 1), 4096), ((1, 4097, 1), 4096), ((1, 1, 4097), 4096), ((9, 8, 4), 4096), ((NEVER, 8, 4), 4096))] + EVERY_CALL

# Directories of none, one, three and four entries, with gaps where links were; the last one's entries end the table. Limits whose low bits are few.
FEW, SOME, EMPTY, LAST = range(1, 5)
TO_SEARCH = (
    [volume(16, 24, 4)]
    + [create(0, name, DIRECTORY) for name in (b"few", b"some", b"empty", b"last")]
    + [create(0, b"file"), create(FEW, b"e")]
    + [link(SOME, b"1", 5), create(SOME, b"a"), create(SOME, b"b"), link(SOME, b"4", 5), create(SOME, b"c"), link(SOME, b"6", 5), link(SOME, b"7", 5), create(SOME, b"d")]
    + [create(LAST, b"e"), create(LAST, b"a"), link(LAST, b"3", 5), create(LAST, b"c")]
    + [unlink(SOME, name) for name in (b"1", b"4", b"6", b"7")]
    + [unlink(LAST, b"3")]
    + [search(SOME, name, 0, most) for name in (b"d", b"x") for most in (2**32, 2**32 + 3, 2**63)]
)

# The indexes of each directory's entries, and the names to look for: its own in index order, then one that only others have, then one that none has.
SEARCHED = {
    FEW: ([1], [b"e", b"a"]),
    SOME: ([2, 3, 5, 8], [b"a", b"b", b"c", b"d", b"e", b"x"]),
    EMPTY: ([], [b"e"]),
    LAST: ([1, 2, 4], [b"e", b"a", b"c", b"d"]),
}


# every limit up to one more than there are entries, from every index next to an entry's
def searches(directory, indexes, names):
    firsts = {0, HIGHEST}.union(*({index - 1, index, index + 1} for index in indexes))
    limits = [*range(len(indexes) + 2), NEVER]
    return itertools.product([directory], names, sorted(firsts), limits)


EVERY_SEARCH = [asked for directory, (indexes, names) in SEARCHED.items() for asked in searches(directory, indexes, names)]


# What searches tell that go on where they stopped, with all entries that they looked at.
def in_all(told, directory, name, first, most):
    case, index, node, looked = told[directory, name, first, most]
    if case != model.STOPPED:
        return [case, index, node, looked]
    *rest, more = in_all(told, directory, name, index, most)
    return [*rest, looked + more]


# They tell what one without a limit tells.
def goes_on(answers):
    told = {asked: [int(number) for number in answer.split()[1:]] for asked, answer in zip(EVERY_SEARCH, answers, strict=True)}
    return all(in_all(told, *asked) == told[*asked[:3], NEVER] for asked in EVERY_SEARCH if asked[3] > 0)


# The refusals of each call, as the scope has them.
REFUSALS = {
    model.READ: {1, 2, 3},
    model.WRITE: {1, 2, 3, 5, 6},
    model.RESIZE: {1, 2, 3, 5},
    model.SET_LIMIT: {1, 2, 3, 13, 5},
    model.CREATE: {1, 2, 4, 9, 13, 10, 7, 14},
    model.LINK_CALL: {1, 2, 4, 9, 3, 10, 7, 14},
    model.UNLINK: {1, 13, 8, 2, 9, 3, 11, 4, 12},
    model.REMOVE: {1, 2, 12},
    model.FIND: {1, 13, 8, 2, 9, 4},
    model.NEXT_ENTRY: {1, 2, 4},
    model.SEARCH: {1, 2, 4, 9},
    model.SET_CHUNK_SIZE: {1, 13},
    model.REPORT: {1, 15},
    model.POKE: {1},
}


# the refusals that stand less than twice in the answers, or that no call has
def amiss(lines, answers):
    seen = collections.Counter()
    for line, answer in zip(lines, answers, strict=True):
        if answer[0].isdigit():
            seen[int(line.split()[0], 16), int(answer.split()[0])] += 1
    due = {(call, number) for call, numbers in REFUSALS.items() for number in numbers}
    return [pair for pair in due if seen[pair] < 2] + [pair for pair in seen if pair[1] != 0 and pair not in due]


def as_meant(line, answer):
    call, _, _, length, *_ = line.split()
    return int(call, 16) != model.POKE or length == "0" or (answer == "1 0") == isinstance(line, Breaking)


def main():
    folder = pathlib.Path(sys.argv[1]) if len(sys.argv) > 1 else HERE.parent / "crates/name_vectors"
    runs = NAMES + PATHS + MEANT + IN_TURN + FULL + ROOM + SPARSE + LAST_NODE + LAST_INDEX + CHUNK_SIZES + NEW_VOLUMES + FILES_BETWEEN + REPORTS + BROKEN + LOOSE + SHORT + REFUSED_NEW + OWN_ENTRY + TO_SEARCH
    lines = summed(runs) + [search(*asked) for asked in EVERY_SEARCH] + [SUM]
    answers = model.worked_out("name_vectors", "\n".join(lines), False)
    assert not amiss(lines, answers), amiss(lines, answers)
    assert all(map(as_meant, lines, answers))
    assert goes_on(answers[-1 - len(EVERY_SEARCH) : -1])
    before = (folder / "stdin").read_text().rstrip("\n").split("\n")
    assert before[-1] == END
    (folder / "stdin").write_text("\n".join(before[:-1] + lines + [END]) + "\n")
    with (folder / "stdout").open("a") as stdout:
        stdout.write("\n".join(answers) + "\n")


main()
