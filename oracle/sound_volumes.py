"""Sound volumes in parts, and the bytes that they lay out by docs/LAYOUT.md."""
import struct
import types

HUGE = 2**64 - 1
LAST_INDEX = 2**32 - 1
MOST = 2**40
LEAST_AREA = 65536
MOST_ROWS = 4096
# The chunk sizes: one bit set, 12 to 16 trailing zeros.
SMALL, HALF_MIDDLE, MIDDLE, HALF_LARGE, LARGE = SIZES = tuple(1 << shift for shift in range(12, 17))
# Numbers that are none: two bits set; next to a size; below and above all; a size where only the low 32 bits count, or the bit's place modulo 32.
NO_SIZE = SMALL + HALF_MIDDLE
NEXT_TO_SIZES = tuple(size + step for size in SIZES for step in (-1, 1))
NO_SIZES = (NO_SIZE, MIDDLE + LARGE, *NEXT_TO_SIZES, 0, 1, SMALL // 2, 2 * LARGE, 2**32, 2**32 + SMALL, 2**44, 2**63, HUGE)
DIRECTORY, FILE, LINK = range(3)


def words(*numbers):
    return struct.pack("<%dQ" % len(numbers), *numbers)


# ---- the bytes of a volume


def node_row(node, kind, links, size, limit=None):
    flag = int(limit is not None)
    return types.SimpleNamespace(node=node, kind=kind, flag=flag, spare=bytes(6), links=links, size=size, limit=limit or 0)


def entry_row(parent, index, name, node):
    return types.SimpleNamespace(parent=parent, node=node, index=index, length=len(name), name=name)


def chunk_row(node, index, pointer):
    return types.SimpleNamespace(node=node, index=index, pointer=pointer)


def node_bytes(row):
    return words(row.node) + bytes((row.kind, row.flag)) + row.spare + words(row.links, row.size, row.limit)


def entry_bytes(row):
    return words(row.parent, row.node) + struct.pack("<LL", row.index, row.length) + row.name.ljust(256, b"\0")


def chunk_bytes(row):
    return words(row.node, row.index, row.pointer)


# A volume in parts, any of which a case can change. Free pointers, then words that hold old ones; data are pieces of the chunk area, each
# behind its place.
def volume(label, rooms, S, area, next_node, nodes, entries=(), chunks=(), word_3=0, free=(), stale=(), unread=(0,) * 12, data=()):
    return types.SimpleNamespace(
        label=label,
        form=1,
        N=rooms[0],
        E=rooms[1],
        C=rooms[2],
        used=None,
        next_node=next_node,
        marker=b"FSA1" + bytes(4),
        S=S,
        free_count=len(free),
        word_3=word_3,
        unread=list(unread),
        free=[*free, *stale],
        nodes=[node_row(*row) for row in nodes],
        entries=[entry_row(*row) for row in entries],
        chunks=[chunk_row(*row) for row in chunks],
        area=area,
        pieces=[("area", place, piece) for place, piece in data],
        cut=None,
    )


def starts(v):
    nodes = 192 + 8 * v.C
    entries = nodes + 40 * v.N
    chunks = entries + 280 * v.E
    return {"header": 0, "nodes": nodes, "entries": entries, "chunks": chunks, "area": chunks + 24 * v.C}


def lay(v):
    at = starts(v)
    used = v.used or (len(v.nodes), len(v.entries), len(v.chunks))
    tables = [
        ("header", 0, words(v.form, v.N, v.E, v.C, *used, v.next_node) + v.marker),
        ("header", 72, words(v.S, v.free_count, v.word_3, *v.unread, *v.free)),
        ("nodes", 0, b"".join(map(node_bytes, v.nodes))),
        ("entries", 0, b"".join(map(entry_bytes, v.entries))),
        ("chunks", 0, b"".join(map(chunk_bytes, v.chunks))),
    ]
    memory = bytearray(at["area"] + v.area)
    for area, place, piece in [*tables, *v.pieces]:
        start = at[area] + place
        assert start + len(piece) <= len(memory)
        memory[start : start + len(piece)] = piece
    return bytes(memory[: v.cut])


# ---- the sound volumes


def new_volume(label, rooms, S):
    return volume(label, rooms, S, LEAST_AREA, 1, [(0, DIRECTORY, 1, 0)])


NEW = new_volume("new", (2, 3, 5), MIDDLE)
LEAST = new_volume("least", (1, 1, 1), SMALL)
GREATEST = new_volume("greatest", (MOST_ROWS,) * 3, LARGE)

LONG_NAME = (b"traverse " * 29)[:255]

# Files, folders, hard links, a symbolic link, holes, chunks that end inside, freed pointers, a removed file that still has its chunks,
# an unlinked folder. The chunk area has a rest that no chunk fits in.
FILES = volume(
    "files",
    (14, 14, 14),
    MIDDLE,
    12 * MIDDLE + 776,
    20,
    nodes=[
        (0, DIRECTORY, 1, 5),
        (1, DIRECTORY, 1, 4),
        (2, DIRECTORY, 1, 2),
        (3, FILE, 1, 3 * MIDDLE + 100),
        (4, FILE, 3, MIDDLE + 1, MIDDLE + 1),
        (5, LINK, 1, 11),
        (6, FILE, 0, 2 * MIDDLE),
        (7, DIRECTORY, 0, 0),
        (9, FILE, 1, MOST),
        (10, FILE, 1, 0, MOST),
        (12, DIRECTORY, 1, 0),
        (13, FILE, 1, 0),
    ],
    entries=[
        (0, 1, b"traces", 1),
        (0, 2, b"a", 4),
        (0, 5, b"link", 5),
        (0, 7, b"big", 9),
        (0, 8, b"folder", 12),
        (1, 1, b"june", 2),
        (1, 2, b"a", 3),
        (1, 3, b"b", 4),
        (1, 4, LONG_NAME, 10),
        (2, 3, b"again", 4),
        (2, 9, b"empty", 13),
    ],
    chunks=[
        (3, 0, 0),
        (3, 1, 4 * MIDDLE),
        (3, 3, 2 * MIDDLE),
        (4, 1, 7 * MIDDLE),
        (5, 0, 3 * MIDDLE),
        (6, 0, 9 * MIDDLE),
        (6, 1, 1 * MIDDLE),
        (9, MOST // MIDDLE - 1, 6 * MIDDLE),
    ],
    word_3=10 * MIDDLE,
    free=[8 * MIDDLE, 5 * MIDDLE],
    stale=[9 * MIDDLE, 8 * MIDDLE, 123, HUGE, 0, 10 * MIDDLE],
    unread=[*range(1, 12), HUGE],
    data=[
        (0, b"velocity" * 3),
        (MIDDLE - 8, b"velocity"),
        (MIDDLE, b"x"),
        (2 * MIDDLE - 1, b"y"),
        (2 * MIDDLE, b"v" * 100),
        (3 * MIDDLE, b"traces/june"),
        (5 * MIDDLE - 8, b"velocity"),
        (7 * MIDDLE, b"z"),
        (8 * MIDDLE, b"old bytes"),
        (10 * MIDDLE - 1, b"w"),
        (10 * MIDDLE + 5, b"never given out"),
    ],
)

# The smallest chunks: sizes on both sides of a chunk's end.
SMALL_CHUNKS = volume(
    "small chunks",
    (6, 6, 20),
    SMALL,
    20 * SMALL,
    6,
    nodes=[
        (0, DIRECTORY, 1, 5),
        (1, FILE, 1, 3 * SMALL),
        (2, FILE, 1, SMALL - 1),
        (3, FILE, 1, SMALL + 1, 2 * SMALL),
        (4, LINK, 1, 10 * SMALL),
        (5, FILE, 1, 10 * SMALL + 1),
    ],
    entries=[(0, index, b"file %d" % index, index) for index in range(1, 6)],
    chunks=[
        (1, 0, 0 * SMALL),
        (1, 1, 1 * SMALL),
        (1, 2, 2 * SMALL),
        (2, 0, 3 * SMALL),
        (3, 0, 4 * SMALL),
        (3, 1, 5 * SMALL),
        (4, 9, 6 * SMALL),
        (5, 0, 9 * SMALL),
        (5, 10, 7 * SMALL),
    ],
    word_3=10 * SMALL,
    free=[8 * SMALL],
    data=[(0, b"b"), (3 * SMALL - 1, b"e"), (4 * SMALL - 2, b"e"), (5 * SMALL - 1, b"e"), (5 * SMALL, b"b")],
)

# The largest chunks, and numbers of nodes that need more than 32 bits. Next node is the greatest number.
LARGE_CHUNKS = volume(
    "large chunks",
    (7, 7, 3),
    LARGE,
    4 * LARGE - 8,
    HUGE,
    nodes=[
        (0, DIRECTORY, 1, 2),
        (5, FILE, 1, LARGE + 1),
        (2**32, FILE, 1, 8),
        (2**32 + 5, DIRECTORY, 1, 3),
        (2**63, DIRECTORY, 1, 1),
        (HUGE - 1, FILE, 2, 5 * LARGE),
    ],
    entries=[
        (0, 1, b"five", 5),
        (0, LAST_INDEX, b"folder", 2**32 + 5),
        (2**32 + 5, 1, b"low", 2**32),
        (2**32 + 5, 2, b"high", HUGE - 1),
        (2**32 + 5, 3, b"deep", 2**63),
        (2**63, 1, b"up", HUGE - 1),
    ],
    chunks=[(5, 0, LARGE), (5, 1, 0)],
    word_3=3 * LARGE,
    free=[2 * LARGE],
    data=[(0, b"a"), (LARGE, b"b"), (2 * LARGE - 1, b"c")],
)


# The sizes between: files that end with a chunk and inside one, a hole, a removed file, freed pointers. Every chunk was given out.
def chunks_of(label, S):
    return volume(
        label,
        (6, 6, 8),
        S,
        8 * S,
        9,
        nodes=[
            (0, DIRECTORY, 1, 3),
            (1, FILE, 1, 2 * S),
            (2, FILE, 1, 3 * S + 1, 4 * S),
            (4, LINK, 1, S - 1),
            (7, FILE, 0, MOST),
        ],
        entries=[(0, 1, b"even", 1), (0, 2, b"odd", 2), (0, 4, b"link", 4)],
        chunks=[(1, 0, 7 * S), (1, 1, 0), (2, 0, 3 * S), (2, 3, S), (4, 0, 4 * S), (7, MOST // S - 1, 5 * S)],
        word_3=8 * S,
        free=[6 * S, 2 * S],
        data=[(0, b"b"), (S - 1, b"e"), (S, b"o"), (5 * S - 2, b"e"), (6 * S, b"old bytes"), (8 * S - 1, b"e")],
    )


BETWEEN = (chunks_of("8K chunks", HALF_MIDDLE), chunks_of("32K chunks", HALF_LARGE))

# Every row of every table in use, every chunk given out, none freed; the shortest memory.
FULL = volume(
    "full",
    (6, 5, 4),
    MIDDLE,
    LEAST_AREA,
    10,
    nodes=[
        (0, DIRECTORY, 1, 3),
        (1, DIRECTORY, 1, 2),
        (2, FILE, 2, 2 * MIDDLE),
        (3, FILE, 0, 1),
        (4, LINK, 2, 1),
        (8, DIRECTORY, 0, 0),
    ],
    entries=[
        (0, 1, b"d", 1),
        (0, 2, b"f", 2),
        (0, 3, b"l", 4),
        (1, 1, b"f", 2),
        (1, LAST_INDEX, b"l", 4),
    ],
    chunks=[(2, 0, 3 * MIDDLE), (2, 1, 0), (3, 0, 2 * MIDDLE), (4, 0, MIDDLE)],
    word_3=4 * MIDDLE,
    data=[(0, b"b"), (MIDDLE - 1, b"e"), (MIDDLE, b"l"), (2 * MIDDLE, b"r"), (4 * MIDDLE - 1, b"e")],
)


# Every chunk given out and freed again.
def freed(label, C, S, area, count):
    return volume(label, (1, 1, C), S, area, 1, [(0, DIRECTORY, 1, 0)], word_3=count * S, free=[S * i for i in reversed(range(count))])


FREED = freed("freed", 6, SMALL, LEAST_AREA, 6)
SHORT_AREA = freed("short area", 6, MIDDLE, 5 * MIDDLE, 5)
ONE_CHUNK = freed("one chunk", 2, LARGE, LEAST_AREA, 1)


# Two folders that hold the same files under the same names, and a chunk for every second file.
def many(files):
    nodes = [3 + 5 * i for i in range(files)]
    sizes = [37 * (i + 1) for i in range(files)]
    names = [b"sample %d" % i for i in range(files)]
    pointers = [SMALL * (i * 7 % files) for i in range(files)]
    return volume(
        "many",
        (files + 5, 2 * files + 5, files + 5),
        SMALL,
        (files + 5) * SMALL,
        nodes[-1] + 100,
        nodes=[(0, DIRECTORY, 1, 2), (1, DIRECTORY, 1, files), (2, DIRECTORY, 1, files), *((n, FILE, 2, z) for n, z in zip(nodes, sizes))],
        entries=[
            (0, 1, b"first", 1),
            (0, 2, b"second", 2),
            *((parent, 1 + i, names[i], nodes[i]) for parent in (1, 2) for i in range(files)),
        ],
        chunks=[(nodes[i], 0, pointers[i]) for i in range(0, files, 2)],
        word_3=files * SMALL,
        free=[pointers[i] for i in range(1, files, 2)],
        data=[(pointers[i] + sizes[i] - 1, b"s") for i in range(files)],
    )


MANY = many(64)
VOLUMES = (NEW, LEAST, GREATEST, FILES, SMALL_CHUNKS, *BETWEEN, LARGE_CHUNKS, FULL, FREED, SHORT_AREA, ONE_CHUNK, MANY)
