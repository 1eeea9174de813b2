"""The cases of crates/broken_volumes: what is changed in a sound volume, and which rules that breaks.

A case breaks one rule alone where that can be had; a few break others with it, and some keep all rules and only come close to an edge.
The names of the rules are those of oracle/judge.py.
"""
import copy

from sound_volumes import DIRECTORY, FILE, LINK, chunk_row, entry_row, lay, words
from sound_volumes import HUGE, LARGE, LAST_INDEX, LEAST_AREA, MIDDLE, MOST, MOST_ROWS, NO_SIZE, NO_SIZES, SIZES, SMALL
from sound_volumes import BETWEEN, FILES, FREED, FULL, GREATEST, LARGE_CHUNKS, LEAST, MANY, NEW, ONE_CHUNK, SHORT_AREA, SMALL_CHUNKS
from sound_volumes import LONG_NAME, VOLUMES

# ---- changes: each takes a volume in parts and changes it


def set_fields(thing, fields):
    for name, value in fields.items():
        setattr(thing, name, value(getattr(thing, name)) if callable(value) else value)


def by(step):
    return lambda old: old + step


def whole(**fields):
    return lambda v: set_fields(v, fields)


def row_of(table, row, **fields):
    return lambda v: set_fields(getattr(v, table)[row], fields)


def node(row, **fields):
    return row_of("nodes", row, **fields)


def entry(row, **fields):
    return row_of("entries", row, **fields)


def chunk(row, **fields):
    return row_of("chunks", row, **fields)


def set_in(part, i, value):
    def change(v):
        getattr(v, part)[i] = value

    return change


def word(i, value):
    return set_in("unread", i - 4, value)


def free_word(i, value):
    return set_in("free", i, value)


def piece(area, place, data):
    return lambda v: v.pieces.append((area, place, data))


def used(**counts):
    def change(v):
        there = {table: len(getattr(v, table)) for table in ("nodes", "entries", "chunks")}
        v.used = tuple({**there, **counts}.values())

    return change


def swap(table, a, b):
    def change(v):
        rows = getattr(v, table)
        rows[a], rows[b] = rows[b], rows[a]

    return change


def drop(table, row):
    return lambda v: getattr(v, table).pop(row)


def double(table, row):
    return lambda v: getattr(v, table).insert(row, copy.copy(getattr(v, table)[row]))


# changes that keep the counts: links, sizes of directories, free pointers


def rows_of(v, number):
    return [row for row in v.nodes if row.node == number]


def count_entry(v, row, step):
    for parent in rows_of(v, row.parent):
        if parent.kind == DIRECTORY:
            parent.size += step
    for target in rows_of(v, row.node):
        if target.node != 0:
            target.links += step


def remove_entry(row):
    return lambda v: count_entry(v, v.entries.pop(row), -1)


def add_entry(parent, index, name, node):
    def change(v):
        row = entry_row(parent, index, name, node)
        v.entries = sorted([*v.entries, row], key=lambda row: (row.parent, row.index))
        count_entry(v, row, 1)

    return change


def move_entry(row, **fields):
    def change(v):
        moved = copy.copy(v.entries[row])
        set_fields(moved, fields)
        remove_entry(row)(v)
        add_entry(moved.parent, moved.index, moved.name, moved.node)(v)

    return change


# a row with the pointer that was freed last, or with one that stands there already
def add_chunk(node, index, pointer=None):
    def change(v):
        taken = pointer
        if pointer is None:
            v.free_count -= 1
            taken = v.free[v.free_count]
        v.chunks = sorted([*v.chunks, chunk_row(node, index, taken)], key=lambda row: (row.node, row.index))

    return change


def add_free(pointer):
    def change(v):
        v.free[v.free_count : v.free_count + 1] = [pointer]
        v.free_count += 1

    return change


def release(row):
    return lambda v: add_free(v.chunks.pop(row).pointer)(v)


# ---- the cases


class Cases(list):
    def breaks(self, rules, v, label, *changes):
        self.append((v, tuple(rules.split(" + ")), label, changes))

    def keeps(self, v, label, *changes):
        self.append((v, (), label, changes))


def unchanged(to):
    for v in VOLUMES:
        to.keeps(v, "as it is")


def header(to):
    for form in (0, 2, 2**32 + 1, 2**56 + 1, HUGE):
        to.breaks("form", NEW, "form %d" % form, whole(form=form))
    to.breaks("form", FILES, "form 2", whole(form=2))
    to.breaks("rooms + root", LEAST, "N is 0, and no node is there", whole(N=0, nodes=[]))
    for name in ("E", "C"):
        to.breaks("rooms", LEAST, name + " is 0", whole(**{name: 0}))
    for name in ("N", "E", "C"):
        to.keeps(LEAST, name + " is 4,096", whole(**{name: MOST_ROWS}))
        to.breaks("rooms", LEAST, name + " is 4,097", whole(**{name: MOST_ROWS + 1}))
        to.breaks("rooms", GREATEST, name + " is 4,097", whole(**{name: MOST_ROWS + 1}))
    for i, name in enumerate(("N", "E", "C")):
        for room in (2**32 + 2, 2**61, HUGE):
            to.breaks("rooms + length", NEW, "%s is %d" % (name, room), piece("header", 8 + 8 * i, words(room)))


def length(to):
    for v in (NEW, LEAST, GREATEST):
        to.breaks("length", v, "one byte short", whole(area=by(-1)))
        to.keeps(v, "one byte longer", whole(area=by(1)))
    to.breaks("length", FREED, "one byte short", whole(area=by(-1)))
    to.breaks("length", NEW, "8 bytes short", whole(area=by(-8)))
    to.breaks("length", NEW, "no chunk area", whole(area=0))
    for cut in (0, 1, 63, 64, 65, 191, 192, 272):
        to.breaks("length", NEW, "cut at byte %d" % cut, whole(cut=cut))
    to.keeps(NEW, "five bytes longer", whole(area=by(5)))


def used_counts(to):
    tables = {"nodes": "N", "entries": "E", "chunks": "C"}
    for table, room in tables.items():
        rows = len(getattr(FILES, table))
        to.breaks("used", FILES, "%s + 1 %s used" % (room, table), used(**{table: getattr(FILES, room) + 1}))
        to.breaks("used", FILES, "2^64 - 1 %s used" % table, used(**{table: HUGE}))
        to.breaks("used", FILES, "2^32 %s used too many" % table, used(**{table: 2**32 + rows}))
        to.breaks("used", FULL, "%s + 1 %s used" % (room, table), used(**{table: getattr(FULL, room) + 1}))
        to.breaks("used", NEW, "2^63 %s used" % table, used(**{table: 2**63}))
    to.breaks("unused + once", FILES, "one chunk row used too few", used(chunks=len(FILES.chunks) - 1))
    to.breaks("unused + directory size + links", FILES, "one entry row used too few", used(entries=len(FILES.entries) - 1))
    to.breaks("unused + target", FILES, "one node row used too few", used(nodes=len(FILES.nodes) - 1))
    zeros = "node order + directory size + unlinked + links"
    to.breaks(zeros, FILES, "one node row used too many: it is zero, and so is a node 0", used(nodes=len(FILES.nodes) + 1))


def allocator_head(to):
    with_more = (b"FSA1\x01", b"FSA1\0\x01", b"FSA1\0\0\x01", b"FSA1\0\0\0\x80")
    for marker in (*with_more, b"ALO1", b"FSA0", b"FSA2", b"fsa1", b"GSA1", b"", b"1ASF", b"\0\0\0\0FSA1"):
        marker = marker.ljust(8, b"\0")
        to.breaks("marker", NEW, "word 0 has the bytes " + marker.hex(" "), whole(marker=marker))
    to.breaks("marker", FILES, "word 0 has a fifth byte", whole(marker=b"FSA1\x01\0\0\0"))
    to.breaks("marker", FILES, "ALO1", whole(marker=b"ALO1\0\0\0\0"))
    for v in (NEW, FILES, FREED, GREATEST):
        to.breaks("free count", v, "C + 1 free pointers", whole(free_count=v.C + 1))
        to.breaks("free count", v, "2^64 - 1 free pointers", whole(free_count=HUGE))
    to.breaks("free count", FILES, "2^32 free pointers too many", whole(free_count=by(2**32)))


# Numbers that are no size; and sizes, on volumes whose pointers go with them or do not.
def chunk_sizes(to):
    for size in (*NO_SIZES, 2**32 + MIDDLE):
        to.breaks("chunk size", NEW, "chunk size %d" % size, whole(S=size))
    for v in (FILES, *BETWEEN):
        for size in (0, SMALL // 2, NO_SIZE, 2 * LARGE, 2**32 + SMALL, HUGE):
            to.breaks("chunk size", v, "chunk size %d" % size, whole(S=size))
        to.breaks("word 3 room + once", v, "chunks half as long", whole(S=v.S // 2))
        to.breaks("once", v, "chunks half as long, and room for twice as many", whole(S=v.S // 2, C=2 * v.C))
    for size in SIZES:
        if size != NEW.S:
            to.keeps(NEW, "chunk size %d" % size, whole(S=size))
        if size != ONE_CHUNK.S:
            to.keeps(ONE_CHUNK, "chunk size %d, and word 3 is one chunk" % size, whole(S=size, word_3=size))
            to.breaks("once", ONE_CHUNK, "chunk size %d, and word 3 as it was" % size, whole(S=size, C=LARGE // size))
    for v in BETWEEN:
        to.breaks("place + zeros + stray", v, "chunks twice as long", whole(S=2 * v.S))


def unread_words(to):
    for i in (4, 15):
        to.keeps(FILES, "word %d changed" % i, word(i, 0x123456789ABCDEF0))
        to.keeps(NEW, "word %d set" % i, word(i, HUGE))
    to.keeps(NEW, "all words from 4 to 15 set", whole(unread=[HUGE - i for i in range(12)]))
    to.keeps(NEW, "all free words set, none of them counted", whole(free=[MIDDLE * i + 1 for i in range(5)]))
    to.keeps(FILES, "the first free word past the count is a row's pointer", free_word(2, 0))
    to.keeps(FILES, "the first free word past the count is a free pointer", free_word(2, 5 * MIDDLE))
    to.keeps(FILES, "the last free word set", whole(free=FILES.free + [0] * 5 + [HUGE]))
    to.keeps(FILES, "the free words past the count are zero", whole(free=FILES.free[:2] + [0] * 12))


def node_rows(to):
    to.breaks("type + root", NEW, "node 0 has type 3", node(0, kind=3))
    for kind in (3, 4, 255):
        to.breaks("type", FILES, "the last node has type %d" % kind, node(-1, kind=kind))
    to.breaks("type", FULL, "the file that was removed has type 3", node(3, kind=3))
    to.breaks("type", LARGE_CHUNKS, "the last node has type 128", node(-1, kind=128))
    to.keeps(FILES, "the last node is a symbolic link", node(-1, kind=LINK))
    to.keeps(FILES, "the symbolic link is a file", node(5, kind=FILE))
    for flag in (2, 3, 255):
        to.breaks("flag", FILES, "the last node has flag %d" % flag, node(-1, flag=flag))
    to.breaks("flag + directory limit", FILES, "node 0 has flag 2", node(0, flag=2))
    to.breaks("flag", FULL, "a file has flag 2", node(2, flag=2))
    to.breaks("flag", FILES, "flag 2 and a limit", node(9, flag=2))
    for i in range(6):
        spare = bytes(6 * (j == i) for j in range(6))
        to.breaks("spare", NEW, "spare byte %d of the first node" % (i + 1), node(0, spare=spare))
        to.breaks("spare", FILES, "spare byte %d of the last node" % (i + 1), node(-1, spare=spare))


def limits(to):
    for row, what in ((9, "a file"), (-1, "the last node")):
        to.breaks("limit", FILES, what + " with the limit 2^40 + 1", node(row, flag=1, limit=MOST + 1))
        to.breaks("limit", FILES, what + " with the limit 2^64 - 1", node(row, flag=1, limit=HUGE))
        to.keeps(FILES, what + " with the limit 0", node(row, flag=1, limit=0))
        to.breaks("no flag", FILES, what + " with the limit 1 and no flag", node(row, flag=0, limit=1))
        to.breaks("no flag", FILES, what + " with the limit 2^40 and no flag", node(row, flag=0, limit=MOST))
    to.keeps(FILES, "the last node with the limit 2^40", node(-1, flag=1, limit=MOST))
    to.keeps(FILES, "a file with the limit 2^40 - 1", node(9, limit=MOST - 1))
    to.breaks("no flag", NEW, "node 0 with the limit 1 and no flag", node(0, limit=1))
    to.breaks("no flag", FILES, "the last node with the limit 2^39 and no flag", node(-1, limit=2**39))
    to.breaks("limit + no flag", FILES, "the last node with the limit 2^40 + 1 and no flag", node(-1, limit=MOST + 1))
    to.keeps(FILES, "limit equal to size", node(3, flag=1, limit=FILES.nodes[3].size))
    to.breaks("size", FILES, "limit one below size", node(3, flag=1, limit=FILES.nodes[3].size - 1))
    to.breaks("size", FILES, "size one above limit", node(4, limit=by(-1)))
    to.keeps(FILES, "limit one above size", node(4, limit=by(1)))
    to.breaks("size", FILES, "size 1, limit 0", node(-1, flag=1, limit=0, size=1))
    to.keeps(FILES, "size 2^40 and no limit", node(-1, size=MOST))
    to.keeps(FILES, "size 2^40, limit 2^40", node(9, size=MOST))
    to.breaks("size", FILES, "size 2^40, limit 2^40 - 1", node(8, flag=1, limit=MOST - 1))
    for v in (FILES, LARGE_CHUNKS):
        to.breaks("size", v, "the last node with size 2^40 + 1", node(-1, size=MOST + 1))
        to.breaks("size", v, "the last node with size 2^63", node(-1, size=2**63))
        to.breaks("size", v, "the last node with size 2^64 - 1", node(-1, size=HUGE))
    to.breaks("size", FILES, "size 2^40 + 1, limit 2^40", node(9, size=MOST + 1))
    to.breaks("size", FULL, "the symbolic link with size 2^40 + 1", node(4, size=MOST + 1))
    to.breaks("size", FULL, "the file that was removed with size 2^40 + 1", node(3, size=MOST + 1))


def names(to):
    full_name = bytes([255]) * 255
    for v, row, what in ((FILES, 0, "the first entry"), (FILES, -1, "the last entry"), (FULL, -1, "the last row")):
        to.breaks("name length", v, what + " has no name", entry(row, name=b"", length=0))
        to.breaks("name length", v, what + " has 256 bytes", entry(row, name=b"n" * 256, length=256))
        to.keeps(v, what + " has 255 bytes", entry(row, name=full_name, length=255))
        for name in (b"/", b".", b"..", b"/a", b"a/b", b"a/"):
            to.breaks("name", v, "%s is named %s" % (what, name.decode()), entry(row, name=name, length=len(name)))
        to.breaks("name rest", v, what + " has a byte right after its name", entry(row, name=by(b"x")))
        to.breaks("name rest", v, what + " has a byte at the end of its 256", entry(row, name=lambda name: name.ljust(255, b"\0") + b"x"))
    to.breaks("name length", FILES, "a name of 257 bytes", entry(5, name=b"n" * 256, length=257))
    to.breaks("name length", FILES, "a name of 2^32 - 1 bytes", entry(5, name=b"n" * 256, length=LAST_INDEX))
    to.breaks("name length + name rest", FILES, "the length of a name is 0, its bytes stand", entry(5, length=0))
    to.breaks("name rest", FILES, "the length of a name is one too small", entry(5, length=by(-1)))
    to.keeps(FILES, "the length of a name is one too great: it ends with a zero byte", entry(5, length=by(1)))
    to.breaks("name rest", FILES, "a byte after a name of 255 bytes", entry(8, name=LONG_NAME + b"x"))
    to.breaks("name", FILES, "a name of 255 bytes whose last is a slash", entry(8, name=LONG_NAME[:254] + b"/"))
    for name in (b"...", b".a", b"a.", b"..a", b"\0", b".\0", b"\\", b"-", b"0", b" "):
        to.keeps(FILES, "an entry is named by the bytes " + name.hex(" "), entry(5, name=name, length=len(name)))


def unused_rows(to):
    for table, size, room in (("nodes", 40, "N"), ("entries", 280, "E"), ("chunks", 24, "C")):
        for v in (FILES, MANY):
            first, end = size * len(getattr(v, table)), size * getattr(v, room)
            to.breaks("unused", v, "first byte of the first unused row of %s" % table, piece(table, first, b"\x01"))
            to.breaks("unused", v, "last byte of the last unused row of %s" % table, piece(table, end - 1, b"\x80"))
        to.breaks("unused", NEW, "a byte in the last row of %s" % table, piece(table, size * getattr(NEW, room) - 9, b"\x10"))


def orders(to):
    for v in (FILES, LARGE_CHUNKS, FULL, MANY):
        to.breaks("node order", v, "the first two nodes changed places", swap("nodes", 0, 1))
        to.breaks("node order", v, "the last two nodes changed places", swap("nodes", -1, -2))
        to.breaks("entry order", v, "the first two entries changed places", swap("entries", 0, 1))
        to.breaks("entry order", v, "the last two entries changed places", swap("entries", -1, -2))
        to.breaks("chunk order", v, "the first two chunk rows changed places", swap("chunks", 0, 1))
        if len(v.chunks) > 2:
            to.breaks("chunk order", v, "the last two chunk rows changed places", swap("chunks", -1, -2))
    to.breaks("node order", MANY, "the first and the last file changed places", swap("nodes", 3, -1))
    to.breaks("node order", FILES, "the first node stands twice", double("nodes", 0))
    to.breaks("node order", FILES, "the last node stands twice", double("nodes", -1))
    to.breaks("node order", LARGE_CHUNKS, "a node stands twice", double("nodes", 2))
    to.breaks("entry order", FILES, "two entries of node 0 with the same index", entry(1, index=FILES.entries[0].index))
    to.breaks("entry order", FILES, "the last two entries with the same index", entry(-1, index=FILES.entries[-2].index))
    to.breaks("entry order", FILES, "an index below the one before it", entry(2, index=1))
    to.breaks("entry order", FILES, "entries of two directories changed places", swap("entries", 4, 5))
    to.keeps(FILES, "an index one above the one before it", entry(2, index=FILES.entries[1].index + 1))
    to.breaks("chunk order", FILES, "two chunk rows with the same index, first of a file", chunk(1, index=0))
    to.breaks("chunk order", FILES, "two chunk rows with the same index, last of a file", chunk(6, index=0))
    to.breaks("chunk order", FILES, "chunk rows of two files changed places", swap("chunks", 3, 4))
    to.keeps(FILES, "a chunk row's index in a hole", chunk(2, index=2))


def indexes(to):
    to.breaks("index", FILES, "the first entry has index 0", entry(0, index=0))
    to.breaks("index", FILES, "the first entry of the last directory has index 0", entry(9, index=0))
    to.breaks("index", LARGE_CHUNKS, "the last entry has index 0", entry(-1, index=0))
    to.keeps(FILES, "the last entry of each directory has the index 2^32 - 1", *(entry(row, index=LAST_INDEX) for row in (4, 8, 10)))
    to.keeps(FILES, "the last entry has the index 2^31", entry(-1, index=2**31))
    to.keeps(FULL, "the last index is one below the greatest", entry(-1, index=LAST_INDEX - 1))


def next_nodes(to):
    for v in (FILES, FULL, MANY):
        last = v.nodes[-1].node
        to.breaks("next node", v, "next node is the greatest node", whole(next_node=last))
        to.keeps(v, "next node is one above the greatest node", whole(next_node=last + 1))
        to.keeps(v, "next node is 2^64 - 1", whole(next_node=HUGE))
        to.breaks("next node", v, "next node is one below the greatest node", whole(next_node=last - 1))
    to.breaks("next node", NEW, "next node is 0", whole(next_node=0))
    to.keeps(NEW, "next node is 2^63", whole(next_node=2**63))
    to.breaks("next node", LARGE_CHUNKS, "next node is the greatest node", whole(next_node=HUGE - 1))
    to.breaks("next node", LARGE_CHUNKS, "next node is 0", whole(next_node=0))
    to.breaks("next node", LARGE_CHUNKS, "the greatest node is 2^64 - 1, and so is next node", *renumber(-1, HUGE))
    to.breaks("next node", FILES, "the greatest node has the low half 13", *renumber(-1, 2**32 + 13))


# a node's number, also where entries name it
def renumber(row, number):
    def change(v):
        old = v.nodes[row].node
        v.nodes[row].node = number
        for named in v.entries:
            if named.node == old:
                named.node = number

    return (change,)


def root(to):
    for v in (NEW, LEAST, GREATEST):
        to.breaks("root", v, "node 0 is a file", node(0, kind=FILE))
        to.breaks("root", v, "node 0 is a symbolic link", node(0, kind=LINK))
        to.breaks("root", v, "no node is there", whole(nodes=[]))
    to.breaks("root", NEW, "node 0 is missing, node 1 is an unlinked directory", node(0, node=1, links=0), whole(next_node=2))
    to.breaks("root + parent", FILES, "node 0 is a file", node(0, kind=FILE))
    to.breaks("root + parent", FILES, "node 0 is missing", drop("nodes", 0))
    to.breaks("root unnamed", FILES, "the first entry names node 0", move_entry(1, node=0))
    to.breaks("root unnamed", FILES, "the last entry names node 0", move_entry(-1, node=0))
    to.breaks("root unnamed", LARGE_CHUNKS, "the last entry names node 0", move_entry(-1, node=0))
    to.breaks("root unnamed", LEAST, "node 0 is an entry of node 0", add_entry(0, 1, b"self", 0))
    to.breaks("root unnamed + links", LEAST, "node 0 is an entry of node 0 and has links 2", add_entry(0, 1, b"self", 0), node(0, links=2))
    to.breaks("root unnamed + named twice", FILES, "two entries name node 0", move_entry(-1, node=0), move_entry(-2, node=0))


def parents_and_targets(to):
    last = -1
    files = {3: "a file", 4: "a file that is named thrice", 5: "the symbolic link", 6: "the removed file", 13: "its own node, a file"}
    for parent, what in files.items():
        to.breaks("parent", FILES, "the parent of the last entry is " + what, move_entry(last, parent=parent))
    for parent in (8, 14, 20, 2**32, HUGE):
        to.breaks("parent", FILES, "the parent of the last entry is %d, which is missing" % parent, move_entry(last, parent=parent))
    to.breaks("parent", FULL, "the parent of the first file is a file", move_entry(1, parent=2))
    to.breaks("parent", LARGE_CHUNKS, "the parent of an entry is missing, but for its low half", move_entry(0, parent=2**33))
    to.breaks("parent", MANY, "the parent of the first sample is a sample", move_entry(2, parent=8))
    to.keeps(FILES, "an entry moves to another directory", move_entry(last, parent=12))
    for missing in (8, 11, 20, 2**32 + 3, HUGE):
        to.breaks("target", FILES, "the last entry names %d, which is missing" % missing, move_entry(last, node=missing))
    to.breaks("target", FILES, "the first name of a file names a missing node", move_entry(1, node=8))
    to.breaks("target", FULL, "the last entry names a missing node", move_entry(last, node=5))
    to.breaks("target", LARGE_CHUNKS, "an entry names a node that is there but for its high half", move_entry(2, node=2**33))
    to.breaks("target", MANY, "the last entry names next node", move_entry(last, node=MANY.next_node))
    to.breaks("target + links", FILES, "the first entry names a missing node, its own target keeps its link", entry(1, node=8))
    to.keeps(FILES, "an entry names the removed file", move_entry(last, node=6))
    to.keeps(FILES, "an entry names the unlinked directory", move_entry(last, node=7))


def names_twice(to):
    def as_named(v, row, other):
        return entry(row, name=v.entries[other].name, length=v.entries[other].length)

    to.breaks("name twice", FILES, "the first two entries", as_named(FILES, 1, 0))
    to.breaks("name twice", FILES, "the first and the last entry of node 0", as_named(FILES, 4, 0))
    to.breaks("name twice", FILES, "the last two entries", as_named(FILES, 10, 9))
    to.breaks("name twice", FILES, "two names of 255 bytes", as_named(FILES, 5, 8))
    to.breaks("name twice", FILES, "two entries of one directory for one file", move_entry(8, name=b"b", node=4))
    to.keeps(FILES, "two names for one file in one directory", move_entry(8, node=4))
    to.keeps(FILES, "the same name in each of three directories", as_named(FILES, 9, 1))
    to.keeps(FILES, "names of 255 bytes that differ in the last", entry(5, name=LONG_NAME[:254] + b"!", length=255))
    to.keeps(FILES, "names of 255 bytes that differ in the first", entry(5, name=b"!" + LONG_NAME[1:], length=255))
    to.keeps(FILES, "names of 254 and 255 bytes, equal so far", entry(5, name=LONG_NAME[:254], length=254))
    to.keeps(FILES, "two names that differ by a zero byte at the end", entry(7, name=b"a\0", length=2))
    to.keeps(FILES, "two names that differ in the case of a letter", entry(7, name=b"A", length=1))
    to.keeps(FILES, "two names that differ in the highest bit", entry(7, name=b"\xe1", length=1))
    to.breaks("name twice", FULL, "the two entries of the last directory", as_named(FULL, -1, -2))
    to.breaks("name twice", LARGE_CHUNKS, "the first and the last entry of a directory", as_named(LARGE_CHUNKS, 4, 2))
    half = 2 + (len(MANY.entries) - 2) // 2
    to.breaks("name twice", MANY, "the first and the last of the first folder", as_named(MANY, half - 1, 2))
    to.breaks("name twice", MANY, "the first and the last of the second folder", as_named(MANY, -1, half))
    to.breaks("name twice", MANY, "two neighbours of the second folder", as_named(MANY, half + 30, half + 31))


def directories(to):
    to.breaks("named twice", FILES, "an empty directory, twice in node 0", move_entry(2, node=12))
    to.breaks("named twice", FILES, "a directory in itself too", add_entry(2, 10, b"loop", 2))
    to.breaks("named twice", FILES, "a directory in two directories", move_entry(-1, node=1))
    to.breaks("named twice", LARGE_CHUNKS, "the last directory in itself too", move_entry(-1, node=2**63))
    to.breaks("named twice", FULL, "a directory thrice", move_entry(-1, node=1), move_entry(-2, node=1))
    to.breaks("named twice + links", FILES, "a directory named twice, links 1", add_entry(2, 10, b"loop", 2), node(2, links=1))
    to.keeps(FULL, "the unlinked directory is named once", move_entry(-1, node=8))
    to.breaks("directory limit", NEW, "node 0 has the limit 2^40", node(0, flag=1, limit=MOST))
    to.breaks("directory limit", NEW, "node 0 has the limit 0", node(0, flag=1))
    to.breaks("directory limit", FILES, "node 0 has its size as limit", node(0, flag=1, limit=5))
    to.breaks("directory limit", FILES, "the last directory has the limit 0", node(10, flag=1))
    to.breaks("directory limit", FULL, "the unlinked directory has the limit 1", node(-1, flag=1, limit=1))
    last = (FILES, 2, "the last directory with entries"), (LARGE_CHUNKS, 4, "the last directory"), (MANY, 2, "the second folder")
    for v, row, what in ((FILES, 0, "node 0"), *last):
        to.breaks("directory size", v, what + " one too great", node(row, size=by(1)))
        to.breaks("directory size", v, what + " one too small", node(row, size=by(-1)))
    to.breaks("directory size", NEW, "node 0 has size 1 and no entry", node(0, size=1))
    to.breaks("directory size", FILES, "an empty directory has size 1", node(10, size=1))
    to.breaks("directory size", FULL, "an unlinked directory has size 1", node(-1, size=1))
    to.breaks("directory size", FILES, "node 0 has 2^32 too many", node(0, size=by(2**32)))
    to.breaks("directory size + size", FILES, "node 0 has size 2^64 - 1", node(0, size=HUGE))
    to.breaks("unlinked", FILES, "the last directory with entries loses its name", remove_entry(5))
    to.breaks("unlinked", FILES, "the first directory loses its name", remove_entry(0))
    to.breaks("unlinked", LARGE_CHUNKS, "the last directory loses its name", remove_entry(4))
    to.breaks("unlinked", FULL, "an unlinked directory gets an entry", move_entry(-1, parent=8))
    to.breaks("unlinked", MANY, "the second folder loses its name", remove_entry(1))
    to.keeps(FILES, "an empty directory loses its name", remove_entry(4))


def links(to):
    for links in (0, 2, 2**32 + 1, HUGE):
        to.breaks("links", NEW, "node 0 has links %d" % links, node(0, links=links))
    to.breaks("links", FILES, "node 0 has links 2", node(0, links=2))
    to.breaks("unlinked + links", FILES, "node 0 has links 0", node(0, links=0))
    rows = {3: "the first file", 4: "a file that is named thrice", 5: "the symbolic link", 10: "a directory", -1: "the last node"}
    for row, what in rows.items():
        to.breaks("links", FILES, what + " has one too many", node(row, links=by(1)))
        to.breaks("links", FILES, what + " has one too few", node(row, links=by(-1)))
    to.breaks("links", FILES, "the removed file has links 1", node(6, links=1))
    to.breaks("links", FILES, "the unlinked directory has links 1", node(7, links=1))
    to.breaks("unlinked + links", FILES, "a directory with entries has links 0", node(1, links=0))
    to.breaks("links", FILES, "the last node has 2^32 too many", node(-1, links=by(2**32)))
    to.breaks("links", FULL, "the last node has 2^64 - 1", node(-1, links=HUGE))
    to.breaks("links", LARGE_CHUNKS, "the last node has one too few", node(-1, links=by(-1)))
    to.breaks("links", MANY, "the last sample has one too many", node(-1, links=by(1)))
    to.breaks("links", MANY, "the first sample has one too few", node(3, links=by(-1)))
    to.breaks("links", MANY, "an entry names another sample, links as before", entry(-1, node=MANY.entries[2].node))
    to.keeps(MANY, "an entry names another sample, and links say so", move_entry(-1, node=MANY.entries[2].node))
    to.keeps(FILES, "a file loses its only name", remove_entry(-1))
    to.keeps(FILES, "a file loses one of three names", remove_entry(1))


def owners(to):
    for number in (0, 1, 2):
        to.breaks("owner", FILES, "a chunk row of the directory %d" % number, add_chunk(number, 0))
    for number in (8, 11, 19, HUGE):
        to.breaks("owner", FILES, "a chunk row of %d, which is missing" % number, add_chunk(number, 0))
    to.breaks("owner", MANY, "the first chunk row is of the first folder", chunk(0, node=1))
    to.breaks("owner", FULL, "the last chunk row is of a missing node", chunk(-1, node=5))
    to.breaks("owner", LARGE_CHUNKS, "a chunk row of a node that is there but for its high half", add_chunk(2**33, 0))
    to.breaks("owner + place", FILES, "a chunk row of an empty directory", add_chunk(12, 0))
    to.keeps(FILES, "a chunk row more, for a hole", add_chunk(4, 0))


def places(to):
    last = {v.label: len(v.chunks) - 1 for v in VOLUMES}
    big = MOST // MIDDLE
    to.keeps(FILES, "the last chunk of 2^40 bytes one place earlier", chunk(last["files"], index=big - 2))
    for index in (big, big + 1, 2**32, 2**32 + big - 1, 2**50, 2**63, HUGE):
        to.breaks("place", FILES, "a chunk of 2^40 bytes at index %d" % index, chunk(last["files"], index=index))
    to.breaks("place", FILES, "a chunk of an empty file", add_chunk(13, 0))
    to.breaks("place", FILES, "a chunk at the rounded-up size of a file that ends inside", add_chunk(3, 4))
    to.breaks("place", FILES, "a chunk at the rounded-up size of a file that ends with a chunk", add_chunk(6, 2))
    to.breaks("place", FILES, "a second chunk of the symbolic link", add_chunk(5, 1))
    to.keeps(FILES, "a chunk in the hole of a file", add_chunk(3, 2))
    to.breaks("place", SMALL_CHUNKS, "a chunk at the size of a file that ends with a chunk", chunk(6, index=10))
    to.breaks("place", SMALL_CHUNKS, "a chunk behind the last one", chunk(-1, index=11))
    to.keeps(SMALL_CHUNKS, "the file ends with the chunk before", chunk(-1, index=9), node(-1, size=10 * SMALL))
    to.breaks("place", SMALL_CHUNKS, "the file ends one byte before its last chunk", node(-1, size=10 * SMALL))
    to.breaks("place", SMALL_CHUNKS, "the last file is empty and has its chunks", node(-1, size=0))
    for index in (2**28, 2**32, 2**32 + 10, 2**52, 2**52 + 9, 2**64 - 2**12, HUGE):
        to.breaks("place", SMALL_CHUNKS, "the last chunk row has index %d" % index, chunk(-1, index=index))
    for index in (1, 2**16, 2**32, 2**48, HUGE):
        to.breaks("place", LARGE_CHUNKS, "a chunk of a short file at index %d" % index, add_chunk(2**32, index))
    for v in BETWEEN:
        to.breaks("place", v, "a chunk at the size of a file that ends with a chunk", add_chunk(1, 2))
        to.breaks("place", v, "a chunk at the rounded-up size of a file that ends inside", add_chunk(2, 4))
        to.keeps(v, "a chunk in the hole of a file", add_chunk(2, 2))
        to.keeps(v, "the last chunk of 2^40 bytes one place earlier", chunk(-1, index=by(-1)))
        to.breaks("place", v, "the last chunk of 2^40 bytes one place later", chunk(-1, index=by(1)))
    to.keeps(LARGE_CHUNKS, "a chunk at the last place of the last node", add_chunk(HUGE - 1, 4))
    to.breaks("place", LARGE_CHUNKS, "a chunk at the size of the last node", add_chunk(HUGE - 1, 5))


def zeros(to):
    pairs = (
        (FILES, 2 * MIDDLE, 100, MIDDLE, "a file's last chunk"),
        (FILES, 7 * MIDDLE, 1, MIDDLE, "a file of one chunk and a byte"),
        (FILES, 3 * MIDDLE, 11, MIDDLE, "the symbolic link"),
        (SMALL_CHUNKS, 5 * SMALL, 1, SMALL, "a file of one chunk and a byte"),
        (SMALL_CHUNKS, 7 * SMALL, 1, SMALL, "the last row"),
        *((v, v.S, 1, v.S, "a file of three chunks and a byte") for v in BETWEEN),
        (LARGE_CHUNKS, 0, 1, LARGE, "a file of one chunk and a byte"),
        (FULL, 2 * MIDDLE, 1, MIDDLE, "the removed file"),
        (FULL, MIDDLE, 1, MIDDLE, "the last row"),
    )
    for v, pointer, end, S, what in pairs:
        to.breaks("zeros", v, what + ": the first byte above size", piece("area", pointer + end, b"\x01"))
        to.breaks("zeros", v, what + ": the last byte of the chunk", piece("area", pointer + S - 1, b"\x80"))
        to.keeps(v, what + ": the last byte below size", piece("area", pointer + end - 1, b"\xff"))
    to.breaks("zeros", FILES, "a byte in the middle of a chunk above size", piece("area", 2 * MIDDLE + 9000, b"\x01"))
    to.breaks("zeros", SMALL_CHUNKS, "the only byte above size", piece("area", 4 * SMALL - 1, b"\x01"))
    first, last = MANY.chunks[0].pointer, MANY.chunks[-1].pointer
    to.breaks("zeros", MANY, "the first byte above the size of the first sample", piece("area", first + MANY.nodes[3].size, b"\x01"))
    to.breaks("zeros", MANY, "the last byte of the last sample's chunk", piece("area", last + SMALL - 1, b"\x01"))
    to.breaks("zeros", FILES, "a file one byte shorter than its bytes", node(3, size=by(-1)))
    to.keeps(FILES, "a file one byte longer than its bytes", node(3, size=by(1)))
    to.breaks("zeros", SMALL_CHUNKS, "a full file one byte shorter", node(1, size=by(-1)))
    to.keeps(FILES, "bytes of a chunk that is free", piece("area", 5 * MIDDLE, b"old" * 9))
    to.keeps(FILES, "bytes of the chunk area past word 3", piece("area", 11 * MIDDLE - 1, b"old" * 9))
    to.keeps(FILES, "the last whole word of the memory", piece("area", FILES.area - 8, b"last one"))
    to.keeps(NEW, "bytes of the chunk area, none of which is given out", piece("area", 0, b"old"), piece("area", LEAST_AREA - 8, b"old"))


def word_3(to):
    for v in (FILES, SMALL_CHUNKS, *BETWEEN, LARGE_CHUNKS, FULL, FREED):
        to.breaks("word 3 aligned", v, "one too small", whole(word_3=by(-1)))
        to.breaks("word 3 aligned", v, "a chunk too small but for a byte", whole(word_3=by(1 - v.S)))
        to.breaks("word 3 aligned", v, "half a chunk too small", whole(word_3=by(-v.S // 2)))
    to.breaks("word 3 aligned", FILES, "a multiple of 4,096", whole(word_3=by(-4096)))
    to.breaks("word 3 aligned", LARGE_CHUNKS, "a multiple of 16,384", whole(word_3=by(-16384)))
    to.breaks("word 3 aligned + once", FILES, "one too great", whole(word_3=by(1)))
    to.breaks("word 3 aligned + once", NEW, "1, and nothing was given out", whole(word_3=1))
    to.breaks("word 3 inside", SHORT_AREA, "A is one byte less than word 3", whole(area=by(-1)))
    to.breaks("word 3 inside", SHORT_AREA, "a chunk more is free than A has room for", add_free(5 * MIDDLE), whole(word_3=by(MIDDLE)))
    to.keeps(SHORT_AREA, "a chunk more is free, and A has room for it", add_free(5 * MIDDLE), whole(word_3=by(MIDDLE), area=by(MIDDLE)))
    one_more = (add_free(LARGE), whole(word_3=by(LARGE)))
    to.breaks("word 3 inside", ONE_CHUNK, "a chunk more is free than A has room for", *one_more)
    to.breaks("word 3 inside", ONE_CHUNK, "the same, and A a byte too short", *one_more, whole(area=2 * LARGE - 1))
    to.keeps(ONE_CHUNK, "the same, and A long enough", *one_more, whole(area=2 * LARGE))
    to.breaks("word 3 room", LARGE_CHUNKS, "one chunk above C x S", whole(C=2))
    to.breaks("word 3 room", SMALL_CHUNKS, "one chunk above C x S", whole(C=9))
    to.keeps(SMALL_CHUNKS, "word 3 is C x S, less than A", whole(C=10))
    for v in BETWEEN:
        to.breaks("word 3 room", v, "one chunk above C x S", whole(C=7))
        to.keeps(v, "word 3 is C x S, less than A", whole(area=by(1)))
    to.breaks("word 3 room", FULL, "a chunk more is free than C allows", whole(area=by(MIDDLE), word_3=by(MIDDLE)), add_free(4 * MIDDLE))
    to.breaks("word 3 inside + word 3 room + once", FILES, "2^63", whole(word_3=2**63))
    to.breaks("word 3 inside + word 3 room + once", FILES, "2^32 above what it was", whole(word_3=by(2**32)))
    to.breaks("word 3 inside + word 3 room + once", FULL, "2^64 less a chunk", whole(word_3=2**64 - MIDDLE))
    to.breaks("word 3 aligned + word 3 inside + word 3 room + once", NEW, "2^64 - 1", whole(word_3=HUGE))


def pointers(to):
    rows = FILES.chunks
    twice = "stands twice, none is missing"
    to.breaks("once", FILES, "the first row's pointer in the second, its own is missing", chunk(1, pointer=0))
    to.breaks("once", FILES, "the first row's pointer in the last row, its own is missing", chunk(-1, pointer=0))
    to.breaks("once", FILES, "the first row's pointer in one row more: " + twice, add_chunk(3, 2, rows[0].pointer))
    to.breaks("once", FULL, "the first two rows have one pointer", chunk(1, pointer=3 * MIDDLE))
    to.breaks("once", MANY, "the first and the last row have one pointer", chunk(-1, pointer=MANY.chunks[0].pointer))
    to.breaks("once", FILES, "a free pointer " + twice, add_free(8 * MIDDLE))
    to.breaks("once", FILES, "the last free pointer " + twice, add_free(5 * MIDDLE))
    to.breaks("once", FREED, "the last free pointer is the first", free_word(-1, FREED.free[0]))
    to.breaks("once", FILES, "the first row's pointer is also free: " + twice, add_free(rows[0].pointer))
    to.breaks("once", FILES, "the last row's pointer is also free: " + twice, add_free(rows[-1].pointer))
    to.breaks("once", FILES, "a free pointer is also a row's: " + twice, add_chunk(3, 2, 5 * MIDDLE))
    to.breaks("once", FILES, "a free pointer is also a row's, and one is missing", free_word(0, rows[3].pointer))
    to.breaks("once", FILES, "the first row is gone", drop("chunks", 0))
    to.breaks("once", FILES, "the last row is gone", drop("chunks", -1))
    to.breaks("once", FILES, "one free pointer fewer", whole(free_count=by(-1)))
    to.breaks("once", FREED, "no free pointer", whole(free_count=0))
    to.breaks("once", FILES, "word 3 one chunk further", whole(word_3=by(MIDDLE)))
    to.breaks("once", NEW, "word 3 is one chunk, no pointer stands", whole(word_3=MIDDLE))
    to.breaks("stray", FILES, "word 3 one chunk back, and the pointer below it stands", whole(word_3=by(-MIDDLE)))
    to.breaks("stray", FULL, "word 3 is 0", whole(word_3=0))
    for pointer, what in (
        (1, "1"),
        (MIDDLE - 1, "one less than a multiple"),
        (5 * MIDDLE + 1, "one more than a multiple"),
        (3 * MIDDLE + 4096, "a multiple of 4,096"),
        (10 * MIDDLE, "word 3"),
        (11 * MIDDLE, "a chunk past word 3"),
        (2**32, "2^32"),
        (2**64 - MIDDLE, "2^64 less a chunk"),
        (HUGE, "2^64 - 1"),
    ):
        to.breaks("stray", FILES, "a free pointer more: " + what, add_free(pointer))
        to.breaks("stray", FILES, "a row more, whose pointer is " + what, add_chunk(9, 0, pointer))
    for v in BETWEEN:
        to.breaks("stray", v, "a free pointer more: half a chunk", add_free(v.S // 2))
        to.breaks("stray", v, "a row more, whose pointer is half a chunk", add_chunk(2, 1, v.S // 2))
        to.breaks("once", v, "the first and the last row have one pointer", chunk(-1, pointer=v.chunks[0].pointer))
    to.breaks("stray", NEW, "a free pointer 0, and nothing was given out", add_free(0))
    to.breaks("once + stray", FILES, "the first row's pointer is not aligned", chunk(0, pointer=by(1)))
    to.breaks("once + stray", FILES, "the last row's pointer is word 3", chunk(-1, pointer=10 * MIDDLE))
    to.breaks("once + stray", FREED, "the first free pointer is word 3", free_word(0, 6 * SMALL))
    to.breaks("once + stray", FREED, "the last free pointer is not aligned", free_word(-1, 1))
    to.keeps(FILES, "free pointers in another order", whole(free=[5 * MIDDLE, 8 * MIDDLE, *FILES.free[2:]]))
    to.keeps(FREED, "free pointers in another order", whole(free=[SMALL * i for i in (3, 0, 5, 1, 4, 2)]))
    to.keeps(FREED, "one chunk less was given out", whole(word_3=by(-SMALL), free=FREED.free[1:], free_count=by(-1)))
    to.keeps(FULL, "rows with their pointers exchanged", chunk(0, pointer=0), chunk(1, pointer=3 * MIDDLE))


GROUPS = (
    unchanged,
    header,
    length,
    used_counts,
    allocator_head,
    chunk_sizes,
    unread_words,
    node_rows,
    limits,
    names,
    unused_rows,
    orders,
    indexes,
    next_nodes,
    root,
    parents_and_targets,
    names_twice,
    directories,
    links,
    owners,
    places,
    zeros,
    word_3,
    pointers,
)


def cases():
    listed = Cases()
    for group in GROUPS:
        group(listed)
    return listed


def changed(v, changes):
    v = copy.deepcopy(v)
    for change in changes:
        change(v)
    return lay(v)
