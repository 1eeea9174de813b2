#!/usr/bin/env python3
"""oracle/sequences.py [FOLDER [bulk]]: makes the stdin and the stdout of crates/sequence_vectors: sequences of calls that seeds draw, what each
call answers, and what then stands in every node. It prints how often each call had each number, a search with what it came to. With `bulk` there are
many more.

What a call answers is plain_model.py's. What stands in the nodes comes from `Plain`: files as arrays of bytes, directories as lists. It knows of a
call only whether it was carried out, and nothing of chunks. After each call the two must show the same."""
import collections
import pathlib
import sys
import zlib

import plain_model as model
from sound_volumes import DIRECTORY, FILE, HALF_LARGE, HALF_MIDDLE, LARGE, LINK, MIDDLE, MOST, NO_SIZE, SIZES, SMALL

# ---- what is drawn, as crates/sequence_vectors/src/draws.rt and asking.rt do it

FACTOR, PRIME = 48271, 2**31 - 1
WINDOW = 4
BEFORE, AROUND = 2, 5
FEW = 9
LEAST_OUTPUT = 512
SELDOM = 8
LETTERS, DIGITS = 4, 32
NODES, ROWS = 4096, 12
FIRSTS, LOOKS = 4, 5

KINDS = (
    ["read"] * 5
    + ["write"] * 12
    + ["resize"] * 6
    + ["set_limit"] * 3
    + ["create"] * 12
    + ["link"] * 4
    + ["find"] * 3
    + ["unlink"] * 8
    + ["remove"] * 5
    + ["next_entry"] * 2
    + ["search"] * 4
    + ["report", "check", "set_chunk_size", "new_volume"]
)

Draw = collections.namedtuple("Draw", "kind node other place length text")


def joined(state, number):
    return (state % PRIME * FACTOR + number % PRIME) % PRIME


def drawn(state):
    numbers = []
    for _ in Draw._fields:
        state = joined(state, 0)
        numbers.append(state)
    return Draw(*numbers)


def picked(weights, draw):
    """One of the values, each as often as its weight says; the draw goes by its rest."""
    values = [value for value, weight in weights for _ in range(weight)]
    return values[draw % len(values)]


def chunk_size(draw):
    return picked([(size, 1) for size in (*SIZES, NO_SIZE)], draw)


def around(edge, draw):
    return max(edge - BEFORE, 0) + draw % AROUND


def place(draw, span):
    kind, rest = draw % 8, draw // 8
    if kind == 0:
        return around(MOST, rest)
    if kind <= 2:
        return rest % (WINDOW * span + 1)
    return around(rest // AROUND % (WINDOW + 1) * span, rest)


def data_length(draw, span):
    kind, rest = draw % 8, draw // 8
    if kind == 0:
        return 0
    if kind <= 4:
        return 1 + rest % FEW
    if kind == 5:
        return around(span, rest)
    return rest % (2 * span + 1)


def spelled(length, text, is_path):
    out = bytearray()
    for i in range(length):
        digit, text = text % DIGITS, text // DIGITS
        out.append(ord("/") if is_path and i % 2 == 1 else {0: ord("."), 1: ord("/")}.get(digit, ord("a") + digit % LETTERS))
    return bytes(out)


def name(draw):
    return spelled(picked([(0, 1), (255, 1), (256, 1), (2, 3), (1, 26)], draw.length), draw.text, False)


def path(draw):
    return spelled(picked([(0, 1), (1, 7), (2, 5), (3, 2), (5, 1)], draw.length), draw.text, True)


def node(draw, last):
    if last == 0:
        return 1
    return last + 1 if draw % SELDOM == 0 else 1 + draw // SELDOM % last


def folder(draw, last):
    return 0 if draw % SELDOM != 0 else node(draw // SELDOM, last)


def file(draw, last):
    return 0 if draw % SELDOM == 0 else node(draw // SELDOM, last)


# the arguments of a call, as plain_model's functions take them
def arguments(kind, draw, span, last):
    target = file(draw.node, last)
    start = folder(draw.node, last)
    spot = place(draw.place, span)
    if kind in ("read", "write"):
        return target, spot, model.filled(draw.text, data_length(draw.length, span))
    return {
        "resize": (target, spot),
        "set_limit": (target, None if draw.other % SELDOM == 0 else spot),
        "create": (start, name(draw), picked([(DIRECTORY, 3), (FILE, 11), (LINK, 1), (3, 1)], draw.other)),
        "link": (start, name(draw), file(draw.other, last)),
        "find": (start, path(draw)),
        "unlink": (start, path(draw), picked([(model.A_DIRECTORY, 1), (model.A_FILE, 1), (model.ANY, 6)], draw.other), int(draw.place % SELDOM == 0)),
        "remove": (target,),
        "next_entry": (start, draw.other % ROWS),
        "search": (start, name(draw), draw.other % FIRSTS, draw.place % LOOKS),
        "report": (model.filled(draw.text, around(LEAST_OUTPUT, draw.length)),),
        "check": (),
        "set_chunk_size": (chunk_size(draw.other),),
        "new_volume": (1 + draw.node % ROWS, 1 + draw.other % ROWS, 1 + draw.place % ROWS, chunk_size(draw.length)),
    }[kind]


# ---- what stands in every node


class Array:
    """A file: its bytes, zeros where none were written. Only those in the window lie in an array, since a file may be 2^40 bytes long."""

    def __init__(self, window):
        self.size, self.near, self.far = 0, bytearray(window), {}

    def write(self, offset, data):
        for i, byte in enumerate(data, offset):
            if i < len(self.near):
                self.near[i] = byte
            else:
                self.far[i] = byte
        if data:
            self.size = max(self.size, offset + len(data))

    def resize(self, size):
        self.size = size
        self.near[size:] = bytes(len(self.near[size:]))
        self.far = {i: byte for i, byte in self.far.items() if i < size}

    def read(self, offset, count):
        near = bytes(self.near[offset : offset + count])
        return near + bytes(self.far.get(i, 0) for i in range(offset + len(near), offset + count))


class Plain:
    def __init__(self, window):
        self.window = window
        self.begin()

    def begin(self):
        self.kinds, self.limits, self.files, self.folders = {0: DIRECTORY}, {}, {}, {0: []}

    # a carried out call and what it told
    def follow(self, kind, arguments, told):
        if kind == "new_volume":
            self.begin()
        if kind == "write":
            self.files[arguments[0]].write(*arguments[1:])
        if kind == "resize":
            self.files[arguments[0]].resize(arguments[1])
        if kind == "set_limit":
            self.limits[arguments[0]] = arguments[1]
        if kind == "create":
            parent, text, type_ = arguments
            self.kinds[told] = type_
            (self.folders if type_ == DIRECTORY else self.files)[told] = [] if type_ == DIRECTORY else Array(self.window)
            self.enter(parent, text, told)
        if kind == "link":
            self.enter(*arguments)
        if kind == "unlink":
            self.leave(*self.last_step(*arguments[:2]))
        if kind == "remove":
            for table in (self.kinds, self.limits, self.files, self.folders):
                table.pop(arguments[0], None)

    # a directory is a list of index, node and name
    def enter(self, folder, text, node):
        entries = self.folders[folder]
        entries.append((entries[-1][0] + 1 if entries else 1, node, text))

    def last_step(self, start, path):
        for text in model.parts(path):
            folder, start = start, next(node for _, node, known in self.folders[start] if known == text)
        return folder, text

    def leave(self, folder, text):
        self.folders[folder] = [entry for entry in self.folders[folder] if entry[2] != text]

    # what a search comes to, by the position of the name among the entries from an index on
    def searched(self, folder, text, first, most):
        entries = [entry for entry in self.folders[folder] if entry[0] >= first]
        position = next((i for i, entry in enumerate(entries, 1) if entry[2] == text), most + 1)
        if position <= most:
            index, node, _ = entries[position - 1]
            return model.FOUND, index, node, position
        if most < len(entries):
            return model.STOPPED, entries[most][0], 0, most
        return model.ABSENT, 0, 0, len(entries)

    def links(self, node):
        return sum(entry[1] == node for entries in self.folders.values() for entry in entries) + (node == 0)

    def size(self, node):
        return len(self.folders[node]) if node in self.folders else self.files[node].size

    def shown(self):
        return [self.node_told(node) for node in sorted(self.kinds)]

    def node_told(self, node):
        limit = self.limits.get(node)
        told = joined(node, self.kinds[node])
        for number in (self.links(node), self.size(node), 0 if limit is None else joined(1, limit), self.content_told(node)):
            told = joined(told, number)
        return told

    def content_told(self, node):
        if node in self.files:
            return joined(min(self.size(node), self.window), zlib.adler32(self.files[node].near))
        told = 0
        for entry in self.folders[node]:
            told = joined(told, entry_told(*entry))
        return told


def entry_told(index, node, text):
    return joined(joined(index, node), zlib.adler32(text))


def search_told(case, index, node, looked):
    return joined(joined(joined(case, index), node), looked)


# the same of the model with chunks
def volume_agrees(plain, v):
    assert sorted(v.nodes) == sorted(plain.kinds)
    for node, row in v.nodes.items():
        assert (row.kind, row.links, row.size, row.limit) == (plain.kinds[node], plain.links(node), plain.size(node), plain.limits.get(node))
        if node in plain.folders:
            assert plain.folders[node] == [(index, found, text) for index, (text, found) in sorted(v.entries[node].items())]
        else:
            near = bytearray(plain.window)
            v.read(node, 0, near)
            assert near == plain.files[node].near


# ---- sequences


Sequence = collections.namedtuple("Sequence", "seed calls length N E C S")


def sequence(seed, calls, rooms, span, area=65536):
    N, E, C = rooms
    return Sequence(seed, calls, 192 + 40 * N + 280 * E + 32 * C + area, N, E, C, span)


SEQUENCES = (
    [sequence(1283 + i, 40, rooms, SMALL) for i, rooms in enumerate([(1, 1, 1), (2, 1, 1), (2, 2, 2)])]
    + [sequence(1383 + i, 160, rooms, SMALL) for i, rooms in enumerate([(3, 6, 2), (4, 4, 4), (5, 8, 3), (6, 3, 8), (8, 8, 8)])]
    + [sequence(1483 + i, 240, (12, 16, chunks), SMALL, area) for i, (chunks, area) in enumerate([(16, 65536), (12, 70000), (24, 69631), (6, 65536), (16, 131072)])]
    + [sequence(1683 + i, 160, rooms, HALF_MIDDLE, area) for i, (rooms, area) in enumerate([((4, 5, 4), 65536), ((8, 8, 12), 73728), ((12, 12, 6), 65537)])]
    + [sequence(2283 + i, 160, rooms, MIDDLE) for i, rooms in enumerate([(3, 3, 1), (5, 6, 3), (8, 8, 8), (12, 12, 12)])]
    + [sequence(2683 + i, 120, rooms, HALF_LARGE, area) for i, (rooms, area) in enumerate([((4, 5, 2), 65536), ((6, 6, 5), 131071), ((8, 8, 8), 200000)])]
    + [sequence(3283 + i, 120, rooms, LARGE, area) for i, (rooms, area) in enumerate([((4, 5, 2), 65536), ((5, 5, 5), 131073), ((8, 8, 8), 200000)])]
)


# what calls that tell several things tell of a refusal
NOTHING_TOLD = {"next_entry": (0, 0, b""), "search": (0, 0, 0, 0)}


class Run:
    def __init__(self, line, seen):
        self.line, self.seen = line, seen
        self.volume = model.Volume(line.length, line.N, line.E, line.C, line.S)
        self.plain = Plain(WINDOW * line.S)

    # what a call tells; the volume is another one behind a new volume
    def made(self, kind, args):
        if kind == "new_volume":
            self.volume = model.Volume(self.line.length, *args)
            return 0
        return getattr(self.volume, kind)(*args)

    def step(self, draw):
        kind = KINDS[draw.kind % len(KINDS)]
        args = arguments(kind, draw, self.line.S, (self.volume.next_node - 1) % NODES)
        try:
            number, told = 0, self.made(kind, args)
            self.plain.follow(kind, args, told)
        except model.Refused as refusal:
            number, told = refusal.number, NOTHING_TOLD.get(kind, 0)
        self.seen[kind, (number, told[0]) if kind == "search" else number] += 1
        volume_agrees(self.plain, self.volume)
        return [number, *self.answer(kind, args, number, told)]

    def answer(self, kind, args, number, told):
        if kind == "next_entry":
            return [entry_told(*told)]
        if kind == "search":
            assert number != 0 or told == self.plain.searched(*args)
            return [search_told(*told)]
        if kind == "read" and number == 0:
            assert args[2][:told] == self.plain.files[args[0]].read(args[1], told)
        return [told, zlib.adler32(args[-1])] if kind in ("read", "report") else [told]


def lines(line, seen):
    run = Run(line, seen)
    yield "volume 0"
    state = line.seed
    for _ in range(line.calls):
        draw = drawn(state)
        answer = run.step(draw)
        yield "%s: %s" % (" ".join(map(str, answer)), " ".join(map(str, run.plain.shown())))
        state = draw.text


# So many of the same kind, for runs by hand.
BULK = [sequence(10000 + i, 200, (1 + i % 13, 1 + i * 5 % 17, 1 + i * 7 % 19), SIZES[i % len(SIZES)], 65536 + i * 4099 % 131072) for i in range(300)]


def main():
    folder = pathlib.Path(sys.argv[1]) if len(sys.argv) > 1 else pathlib.Path(__file__).resolve().parent.parent / "crates/sequence_vectors"
    sequences = BULK if sys.argv[2:] == ["bulk"] else SEQUENCES
    seen = collections.Counter()
    told = [line for each in sequences for line in lines(each, seen)]
    (folder / "stdin").write_text("".join(" ".join(format(n, "x") for n in (1, *each)) + "\n" for each in sequences) + "0\n")
    (folder / "stdout").write_text("".join(line + "\n" for line in told))
    for kind in dict.fromkeys(KINDS):
        print(kind, {number: count for (each, number), count in sorted(seen.items()) if each == kind})
    print("%d sequences, %d calls" % (len(sequences), sum(seen.values())))


main()
