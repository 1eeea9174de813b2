"""Cases at random for crates/broken_volumes: up to three changes of a sound volume, most of which keep the counts."""
import copy

import breakings
from sound_volumes import DIRECTORY, FILE, HUGE, LAST_INDEX, LINK, LONG_NAME, MOST, NO_SIZES, SIZES, lay, starts

FIELDS = {
    "nodes": {"node": 64, "kind": 8, "flag": 8, "links": 64, "size": 64, "limit": 64},
    "entries": {"parent": 64, "node": 64, "index": 32, "length": 32},
    "chunks": {"node": 64, "index": 64, "pointer": 64},
}
WHOLE = {"next_node": 64, "S": 64, "free_count": 64, "word_3": 64}


# a number near the old one, or one that the volume knows from elsewhere
def near(random, v, old, bits):
    known = [row.node for row in v.nodes] + [row.size for row in v.nodes] + [row.pointer for row in v.chunks] + v.free
    edges = [0, 1, 2, MOST, MOST + 1, LAST_INDEX, 2**32, HUGE, v.word_3, v.next_node, v.S]
    step = random.choice([1, v.S, 2**32])
    return random.choice([old + step, old - step, old + 1, old - 1, random.choice(edges), random.choice(known)]) % 2**bits


def some_field(random, v):
    table = random.choice([table for table in FIELDS if getattr(v, table)])
    row = random.randrange(len(getattr(v, table)))
    name, bits = random.choice(list(FIELDS[table].items()))
    old = getattr(getattr(v, table)[row], name)
    return breakings.row_of(table, row, **{name: near(random, v, old, bits)})


def some_number(random, v):
    name, bits = random.choice(list(WHOLE.items()))
    return breakings.whole(**{name: near(random, v, getattr(v, name), bits)})


def some_byte(random, v):
    place = random.randrange(starts(v)["area"])
    return breakings.piece("header", place, bytes([random.choice([0, 1, 128, 255])]))


def some_chunk_byte(random, v):
    start = random.choice([0, *(row.pointer for row in v.chunks)])
    place = start + random.choice([0, 1, 36, 100, 8192, *(size - 1 for size in SIZES)])
    return breakings.piece("area", min(place, v.area - 1), bytes([random.choice([0, 1])]))


def some_node(random, v):
    return random.choice(v.nodes).node


def some_directory(random, v):
    return random.choice([row.node for row in v.nodes if row.kind == DIRECTORY] or [0])


def some_name(random, v):
    return random.choice([row.name for row in v.entries] + [b"x", b"y", LONG_NAME, b"z" * 255])


def some_entry(random, v):
    parent, node = random.choice([some_directory, some_directory, some_node])(random, v), some_node(random, v)
    return breakings.add_entry(parent, random.choice([100, 101, 102, LAST_INDEX]), some_name(random, v), node)


def some_move(random, v):
    if not v.entries:
        return some_entry(random, v)
    numbers = [("parent", some_directory(random, v)), ("node", some_node(random, v)), ("index", random.randrange(12))]
    field, value = random.choice([*numbers, ("name", some_name(random, v))])
    return breakings.move_entry(random.randrange(len(v.entries)), **{field: value})


def some_removal(random, v):
    return breakings.remove_entry(random.randrange(len(v.entries))) if v.entries else some_entry(random, v)


def some_chunk(random, v):
    owner = random.choice(v.nodes)
    places = -(-owner.size // max(v.S, 1))
    index = random.choice([0, 1, max(places - 1, 0), places])
    pointer = None if 0 < v.free_count <= len(v.free) else v.word_3
    return breakings.add_chunk(owner.node, index, pointer)


def some_release(random, v):
    if not v.chunks or v.free_count >= v.C:
        return some_number(random, v)
    return breakings.release(random.randrange(len(v.chunks)))


def some_size(random, v):
    row = random.randrange(len(v.nodes))
    size = random.choice([0, 1, v.S - 1, v.S, v.S + 1, MOST, MOST + 1])
    limit = random.choice([None, size, size + 1, MOST])
    return breakings.node(row, size=size, flag=int(limit is not None), limit=limit or 0)


def some_chunk_size(random, v):
    return breakings.whole(S=random.choice(random.choice([SIZES, NO_SIZES])))


def some_kind(random, v):
    return breakings.node(random.randrange(len(v.nodes)), kind=random.choice([DIRECTORY, FILE, LINK]))


def some_swap(random, v):
    table = random.choice([table for table in FIELDS if getattr(v, table)])
    rows = len(getattr(v, table))
    return breakings.swap(table, random.randrange(rows), random.randrange(rows))


CHANGES = (
    some_field,
    some_field,
    some_number,
    some_byte,
    some_chunk_byte,
    some_entry,
    some_move,
    some_move,
    some_removal,
    some_chunk,
    some_release,
    some_size,
    some_chunk_size,
    some_kind,
    some_swap,
)


# what a volume has become, in bytes. A size, a limit or a count that fell below 0 is taken modulo 2^64.
def changed(random, v):
    v = copy.deepcopy(v)
    for _ in range(random.choice([1, 1, 2, 3])):
        random.choice(CHANGES)(random, v)(v)
    for row in v.nodes:
        row.size %= 2**64
        row.limit %= 2**64
        row.links %= 2**64
    return lay(v)
