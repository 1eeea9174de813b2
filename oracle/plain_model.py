"""The scope as a program: a volume in dictionaries and bytearrays, and every call on it, with its refusals in their order.

It shares nothing with the Rust, so that it can be compared with the lists of the oracle:

    plain_model.py LIST FILE ..           works each FILE out and compares with the answers beside it
    plain_model.py LIST FILE .. sound     the same, and after every call the memory must be a sound volume
    plain_model.py LIST -                 prints what the standard input comes to

LIST is name_vectors or file_vectors. The answers beside `stdin` stand in `stdout`, those beside `X.stdin` in `X.stdout`.
"""
import pathlib
import struct
import sys
import zlib

import judge
import sound_volumes
from sound_volumes import DIRECTORY, HUGE, LAST_INDEX, LEAST_AREA, LINK, MOST, MOST_ROWS, SIZES

# the numbers of refusals
UNSOUND_MEMORY = 1
NO_SUCH_ENTRY = 2
IS_DIRECTORY = 3
NOT_DIRECTORY = 4
FILE_TOO_LARGE = 5
NO_CHUNK_ROOM = 6
NO_ROW_ROOM = 7
PATH_NOT_PERMITTED = 8
BAD_NAME = 9
NAME_EXISTS = 10
DIRECTORY_NOT_EMPTY = 11
BUSY = 12
INVALID_ARGUMENT = 13
NO_INDEX_LEFT = 14
OUTPUT_TOO_SHORT = 15

LONGEST_NAME = 255
LONGEST_PATH = 4096
LEAST_OUTPUT = 512
LONGEST_MEMORY = 1_572_864  # of a run

# what unlink may be told to expect
ANY, A_DIRECTORY, A_FILE = range(3)

# what a search comes to
ABSENT, FOUND, STOPPED = range(3)


class Refused(Exception):
    def __init__(self, number):
        super().__init__(number)
        self.number = number


def refuse_if(condition, number):
    if condition:
        raise Refused(number)


# ---- names and paths


def is_name(name):
    return 1 <= len(name) <= LONGEST_NAME and b"/" not in name and name not in (b".", b"..")


def parts(path):
    refuse_if(len(path) > LONGEST_PATH, INVALID_ARGUMENT)
    refuse_if(path.startswith(b"/"), PATH_NOT_PERMITTED)
    found = []
    for piece in path.split(b"/"):
        if piece == b"..":
            refuse_if(not found, PATH_NOT_PERMITTED)
            found.pop()
        elif piece not in (b"", b"."):
            found.append(piece)
    return found


# its last piece is empty, `.` or `..`, and a part is left
def means_directory(path, names):
    return len(names) > 0 and path.split(b"/")[-1] in (b"", b".", b"..")


# ---- the volume


class Node:
    def __init__(self, kind, links=1, size=0, limit=None):
        self.kind, self.links, self.size, self.limit = kind, links, size, limit

    def is_directory(self):
        return self.kind == DIRECTORY

    def file_limit(self):
        return MOST if self.limit is None else self.limit


class Volume:
    """A sound volume. Each call changes it or raises Refused."""

    def __init__(self, length, N, E, C, S):
        refuse_if(not all(1 <= room <= MOST_ROWS for room in (N, E, C)), INVALID_ARGUMENT)
        tables = 64 + 128 + 40 * N + 280 * E + 32 * C
        refuse_if(length < tables + LEAST_AREA, INVALID_ARGUMENT)
        refuse_if(S not in SIZES, INVALID_ARGUMENT)
        self.N, self.E, self.C, self.S = N, E, C, S
        self.next_node = 1
        self.nodes = {0: Node(DIRECTORY)}
        self.entries = {0: {}}  # by directory and index: name and node
        self.chunks = {}  # by node and index: pointer
        self.unread = [0] * 12
        self.free_words = [0] * C
        self.free_count = 0
        self.word_3 = 0
        self.area = bytearray(length - tables)

    # -- rows

    def node(self, n):
        refuse_if(n not in self.nodes, NO_SUCH_ENTRY)
        return self.nodes[n]

    def file(self, n):
        row = self.node(n)
        refuse_if(row.is_directory(), IS_DIRECTORY)
        return row

    def used_entries(self):
        return sum(map(len, self.entries.values()))

    def used_chunks(self):
        return sum(map(len, self.chunks.values()))

    def entry_named(self, directory, name):
        for index, (known, node) in self.entries.get(directory, {}).items():
            if known == name:
                return index, node
        return None

    # -- chunks

    def room(self):
        return min(self.C - self.used_chunks(), self.free_count + (len(self.area) - self.word_3) // self.S)

    def allocate(self):
        if self.free_count > 0:
            self.free_count -= 1
            return self.free_words[self.free_count]
        self.word_3 += self.S
        return self.word_3 - self.S

    def free(self, pointer):
        self.free_words[self.free_count] = pointer
        self.free_count += 1

    def take(self, node, index):
        pointer = self.allocate()
        self.chunks.setdefault(node, {})[index] = pointer
        self.area[pointer : pointer + self.S] = bytes(self.S)

    def free_from(self, node, index):
        of_node = self.chunks.get(node, {})
        freed = sorted(i for i in of_node if i >= index)
        for i in freed:
            self.free(of_node.pop(i))

    # -- calls on the volume

    def check(self):
        return 0

    def set_chunk_size(self, S):
        refuse_if(S not in SIZES or S != self.S and self.word_3 != 0, INVALID_ARGUMENT)
        self.S = S
        return 0

    def report(self, output):
        refuse_if(len(output) < LEAST_OUTPUT, OUTPUT_TOO_SHORT)
        values = {
            "format": 1,
            "chunk_size": self.S,
            "chunk_shift": self.S.bit_length() - 1,
            "nodes": len(self.nodes),
            "entries": self.used_entries(),
            "chunks": self.used_chunks(),
            "free": self.free_count,
            "next_ptr": self.word_3,
            "next_node": self.next_node,
        }
        text = "".join("%s=%d\n" % item for item in values.items()).encode()
        output[: len(text)] = text
        return len(text)

    # -- calls on files

    def read(self, n, offset, buffer):
        row = self.file(n)
        count = max(0, min(len(buffer), row.size - offset))
        of_node, S = self.chunks.get(n, {}), self.S
        at = offset
        while at < offset + count:
            end = min(offset + count, at // S * S + S)
            piece = bytes(end - at)
            if at // S in of_node:
                start = of_node[at // S] + at % S
                piece = self.area[start : start + end - at]
            buffer[at - offset : end - offset] = piece
            at = end
        return count

    def write(self, n, offset, data):
        row = self.file(n)
        if not data:
            return 0
        end, S = offset + len(data), self.S
        refuse_if(end > row.file_limit(), FILE_TOO_LARGE)
        touched = range(offset // S, (end - 1) // S + 1)
        holes = [i for i in touched if i not in self.chunks.get(n, {})]
        refuse_if(len(holes) > self.room(), NO_CHUNK_ROOM)
        for index in holes:
            self.take(n, index)
        for index in touched:
            first, last = max(offset, index * S), min(end, index * S + S)
            start = self.chunks[n][index] + first % S
            self.area[start : start + last - first] = data[first - offset : last - offset]
        row.size = max(row.size, end)
        return len(data)

    def resize(self, n, size):
        row = self.file(n)
        refuse_if(size > row.file_limit(), FILE_TOO_LARGE)
        if size < row.size:
            self.shrink(n, size)
        row.size = size
        return 0

    def shrink(self, n, size):
        S = self.S
        self.free_from(n, -(-size // S))
        of_node = self.chunks.get(n, {})
        if size // S in of_node:
            start = of_node[size // S]
            self.area[start + size % S : start + S] = bytes(S - size % S)

    def set_limit(self, n, limit):
        row = self.file(n)
        if limit is not None:
            refuse_if(limit > MOST, INVALID_ARGUMENT)
            refuse_if(limit < row.size, FILE_TOO_LARGE)
        row.limit = limit
        return 0

    # -- calls on names

    def new_place(self, parent, name):
        row = self.node(parent)
        refuse_if(row.links == 0, NO_SUCH_ENTRY)
        refuse_if(not row.is_directory(), NOT_DIRECTORY)
        refuse_if(not is_name(name), BAD_NAME)

    def enter(self, parent, name, node):
        index = max(self.entries[parent], default=0) + 1
        self.entries[parent][index] = (bytes(name), node)
        self.nodes[parent].size += 1

    def create(self, parent, name, kind):
        self.new_place(parent, name)
        refuse_if(kind > LINK, INVALID_ARGUMENT)
        refuse_if(self.entry_named(parent, name), NAME_EXISTS)
        rows_left = len(self.nodes) < self.N and self.used_entries() < self.E
        refuse_if(not rows_left or self.next_node == HUGE, NO_ROW_ROOM)
        refuse_if(LAST_INDEX in self.entries[parent], NO_INDEX_LEFT)
        node = self.next_node
        self.next_node += 1
        self.nodes[node] = Node(kind)
        if kind == DIRECTORY:
            self.entries[node] = {}
        self.enter(parent, name, node)
        return node

    def link(self, parent, name, target):
        self.new_place(parent, name)
        row = self.file(target)
        refuse_if(self.entry_named(parent, name), NAME_EXISTS)
        refuse_if(self.used_entries() == self.E, NO_ROW_ROOM)
        refuse_if(LAST_INDEX in self.entries[parent], NO_INDEX_LEFT)
        self.enter(parent, name, target)
        row.links += 1
        return 0

    # the node, and the entry that led there last: its directory and index
    def walk(self, start, names):
        self.node(start)
        node, entry = start, None
        for name in names:
            refuse_if(len(name) > LONGEST_NAME, BAD_NAME)
            found = self.entry_named(node, name)
            refuse_if(found is None, NO_SUCH_ENTRY)
            entry, node = (node, found[0]), found[1]
        return node, entry

    # the same; a path that means a directory must lead to one or to a symbolic link, which is not followed
    def walk_path(self, start, path, names):
        node, entry = self.walk(start, names)
        refuse_if(means_directory(path, names) and self.nodes[node].kind not in (DIRECTORY, LINK), NOT_DIRECTORY)
        return node, entry

    def find(self, start, path):
        return self.walk_path(start, path, parts(path))[0]

    def unlink(self, start, path, expected, opens):
        names = parts(path)
        refuse_if(not names, PATH_NOT_PERMITTED)
        node, (parent, index) = self.walk_path(start, path, names)
        row = self.nodes[node]
        if row.is_directory():
            refuse_if(expected == A_FILE, IS_DIRECTORY)
            refuse_if(row.size > 0, DIRECTORY_NOT_EMPTY)
        else:
            refuse_if(expected == A_DIRECTORY, NOT_DIRECTORY)
        refuse_if(opens > 0 and row.links == 1, BUSY)
        del self.entries[parent][index]
        self.nodes[parent].size -= 1
        row.links -= 1
        return node

    def remove(self, n):
        refuse_if(self.node(n).links > 0, BUSY)
        self.free_from(n, 0)
        del self.nodes[n]
        self.chunks.pop(n, None)
        self.entries.pop(n, None)
        return 0

    # the index, the node and the name
    def next_entry(self, directory, index):
        refuse_if(not self.node(directory).is_directory(), NOT_DIRECTORY)
        found = min((i for i in self.entries[directory] if i >= index), default=None)
        refuse_if(found is None, NO_SUCH_ENTRY)
        name, node = self.entries[directory][found]
        return found, node, name

    # what it comes to, the index, the node, and how many entries were looked at
    def search(self, directory, name, first, most):
        refuse_if(not self.node(directory).is_directory(), NOT_DIRECTORY)
        refuse_if(not is_name(name), BAD_NAME)
        looked = 0
        for index, (known, node) in sorted(self.entries[directory].items()):
            if index < first:
                continue
            if looked == most:
                return STOPPED, index, 0, looked
            looked += 1
            if known == name:
                return FOUND, index, node, looked
        return ABSENT, 0, 0, looked

    # -- bytes

    def memory(self):
        """The bytes by docs/LAYOUT.md."""
        nodes = [(n, row.kind, row.links, row.size, row.limit) for n, row in sorted(self.nodes.items())]
        entries = [(d, i, *entry) for d, of_d in sorted(self.entries.items()) for i, entry in sorted(of_d.items())]
        chunks = [(n, i, p) for n, of_n in sorted(self.chunks.items()) for i, p in sorted(of_n.items())]
        return sound_volumes.lay(
            sound_volumes.volume(
                "",
                (self.N, self.E, self.C),
                self.S,
                len(self.area),
                self.next_node,
                nodes,
                entries,
                chunks,
                self.word_3,
                self.free_words[: self.free_count],
                self.free_words[self.free_count :],
                self.unread,
                [(0, self.area)],
            )
        )


def opened(memory):
    """The volume that bytes show, or 1."""
    refuse_if(judge.broken(memory), UNSOUND_MEMORY)
    head = judge.Header(*struct.unpack_from("<8Q", memory))
    words = [word for (word,) in struct.iter_unpack("<Q", memory[64 : 192 + 8 * head.C])]
    v = Volume(len(memory), head.N, head.E, head.C, words[1])
    v.free_count, v.word_3, v.unread, v.free_words = words[2], words[3], words[4:16], words[16:]
    v.next_node = head.next_node
    at = 192 + 8 * head.C
    for row in rows(judge.Node, "<QBB6sQQQ", memory, at, head.nodes):
        v.nodes[row.node] = Node(row.type, row.links, row.size, row.limit if row.flag else None)
        if row.type == DIRECTORY:
            v.entries[row.node] = {}
    at += 40 * head.N
    for row in rows(judge.Entry, "<QQLL256s", memory, at, head.entries):
        v.entries[row.parent][row.index] = (row.name[: row.length], row.node)
    at += 280 * head.E
    for row in rows(judge.Chunk, "<QQQ", memory, at, head.chunks):
        v.chunks.setdefault(row.node, {})[row.index] = row.pointer
    at += 24 * head.C
    v.area = bytearray(memory[at:])
    return v


class Unsound:
    """A memory that is no sound volume: 1 is what every call gives."""

    def __init__(self, memory):
        self.bytes = bytes(memory)

    def memory(self):
        return self.bytes

    def __getattr__(self, call):
        raise Refused(UNSOUND_MEMORY)


def shown(memory):
    try:
        return opened(memory)
    except Refused:
        return Unsound(memory)


def poked(v, at, piece):
    memory = bytearray(v.memory())
    if at + len(piece) <= len(memory):
        memory[at : at + len(piece)] = piece
    return shown(memory)


def rows(form, layout, memory, at, used):
    size = struct.calcsize(layout)
    return [form(*row) for row in struct.iter_unpack(layout, memory[at : at + size * used])]


def open_allocator(memory):
    """The allocator's words after an open, on these alone."""
    refuse_if(len(memory) < 128, INVALID_ARGUMENT)
    whole = len(memory) // 8 * 8
    words = [word for (word,) in struct.iter_unpack("<Q", memory[:whole])]
    S, free_count, word_3 = words[1:4]
    refuse_if(memory[:4] not in (b"FSA1", b"ALO1"), UNSOUND_MEMORY)
    refuse_if(S == 0 and word_3 != 0, UNSOUND_MEMORY)
    S = S or 16384
    refuse_if(S not in SIZES or word_3 % S != 0, UNSOUND_MEMORY)
    free = words[16 : 16 + free_count]
    refuse_if(len(free) < free_count or len(set(free)) < len(free), UNSOUND_MEMORY)
    refuse_if(any(pointer % S != 0 or pointer >= word_3 for pointer in free), UNSOUND_MEMORY)
    after = bytearray(memory)
    if memory[:4] == b"ALO1":
        after[:8] = b"FSA1" + bytes(4)
    after[8:16] = struct.pack("<Q", S)
    return bytes(after)


# ---- the oracle's lists

READ, WRITE, RESIZE, SET_LIMIT, CREATE, LINK_CALL, UNLINK, REMOVE, FIND, NEXT_ENTRY, SET_CHUNK_SIZE, REPORT, POKE, SUM, SEARCH = range(2, 17)
WITH_TEXT = (CREATE, LINK_CALL, UNLINK, FIND, POKE, SEARCH)
GIVES_BYTES = (READ, REPORT)

# what calls that tell several numbers tell of a refusal
NOTHING_TOLD = {NEXT_ENTRY: [0, 0], SEARCH: [0, 0, 0, 0]}


# byte i that a seed makes is (seed + 7 i) mod 251, plus 1
FILLED = bytes((7 * i) % 251 + 1 for i in range(2 * 251))
START = {(7 * i) % 251: i for i in range(251)}


def filled(seed, length):
    start = START[seed % 251]
    turn = FILLED[start : start + 251]
    return bytearray(turn * (length // 251) + turn[: length % 251])


def carry_out(v, call, node, place, length, seed, text, buffer):
    """The count, the node or 0; for next entry a list: index, node and the bytes of the name; for a search its four numbers."""
    if call == READ:
        return v.read(node, place, buffer)
    if call == WRITE:
        return v.write(node, place, buffer)
    if call == RESIZE:
        return v.resize(node, place)
    if call == SET_LIMIT:
        return v.set_limit(node, place if length else None)
    if call == CREATE:
        return v.create(node, text, place)
    if call == LINK_CALL:
        return v.link(node, text, place)
    if call == UNLINK:
        return v.unlink(node, text, seed, place)
    if call == REMOVE:
        return v.remove(node)
    if call == FIND:
        return v.find(node, text)
    if call == SET_CHUNK_SIZE:
        return v.set_chunk_size(place)
    if call == REPORT:
        return v.report(buffer)
    if call == POKE:
        return v.check()
    if call == SEARCH:
        return v.search(node, text, place, seed)
    index, found, name = v.next_entry(node, place)
    return [index, found, *name]


def answer(v, call, node, place, length, seed, text):
    buffer = filled(seed, length) if call in (READ, WRITE, REPORT) else bytearray()
    try:
        number, told = 0, carry_out(v, call, node, place, length, seed, text, buffer)
    except Refused as refusal:
        number, told = refusal.number, NOTHING_TOLD.get(call, 0)
    numbers = [number, *told] if call in NOTHING_TOLD else [number, told]
    if call in GIVES_BYTES:
        numbers.append(zlib.adler32(buffer))
    return numbers


# a refused new volume leaves the memory as the runs before have left it
def names_volume(numbers, lines, memory):
    length, N, E, C, S = numbers
    try:
        return Volume(length, N, E, C, S), "volume 0"
    except Refused as refusal:
        return shown(memory[:length]), "volume %d" % refusal.number


def files_volume(numbers, lines, _):
    length, runs = numbers
    memory = bytearray(length)
    for _ in range(runs):
        at, count, *words = numbers_of(next(lines))
        memory[at : at + 8 * count] = struct.pack("<%dQ" % count, *words)
    return opened(memory), "volume"


def numbers_of(line):
    return [int(word, 16) for word in line.split()]


def printed(kind, call, numbers, v, node):
    if kind == "file_vectors":
        size = v.nodes[node].size if node in v.nodes else 0
        numbers = numbers[:2] + [size] + numbers[2:]
    return " ".join(map(str, numbers))


def steps(kind, text, check):
    """Each line, what it comes to, and the volume behind it."""
    begin = {"name_vectors": names_volume, "file_vectors": files_volume}[kind]
    lines = iter(text.splitlines())
    lent, v = bytearray(LONGEST_MEMORY), Unsound(b"")
    for line in lines:
        call, *numbers = numbers_of(line)
        if call == 0:
            return
        if call == 1:
            before = v.memory()
            lent[: len(before)] = before
            v, told = begin(numbers, lines, lent)
            yield line, told, v
            continue
        if call == SUM:
            yield line, "sum %d" % zlib.adler32(v.memory()), v
            continue
        node, place, length, seed, *bytes_ = numbers
        assert len(bytes_) == (length if call in WITH_TEXT else 0)
        if call == POKE:
            v = poked(v, place, bytes(bytes_))
        yield line, printed(kind, call, answer(v, call, node, place, length, seed, bytes(bytes_)), v, node), v
        if check and not isinstance(v, Unsound):
            memory = v.memory()
            assert not judge.broken(memory), judge.broken(memory)
            assert opened(memory).memory() == memory


def worked_out(kind, text, check):
    return [told for _, told, _ in steps(kind, text, check)]


def answers_beside(path):
    return path.with_name("stdout") if path.name == "stdin" else path.with_suffix(".stdout")


def main(kind, *files):
    check = files[-1:] == ("sound",)
    files = files[: len(files) - check]
    if files == ("-",):
        for line in worked_out(kind, sys.stdin.read(), check):
            print(line)
        return 0
    calls = runs = 0
    for path in map(pathlib.Path, files):
        expected = answers_beside(path).read_text().splitlines()
        found = worked_out(kind, path.read_text(), check)
        for number, (one, other) in enumerate(zip(expected, found, strict=True), 1):
            if one != other:
                print("%s: line %d of the answers: %s there, %s here" % (path, number, one, other))
                return 1
        begun = sum(line.startswith("volume") for line in found)
        runs, calls = runs + begun, calls + len(found) - begun
    print("%d files, %d runs, %d calls: all equal" % (len(files), runs, calls))
    return 0


if __name__ == "__main__":
    if len(sys.argv) < 3 or sys.argv[1] not in ("name_vectors", "file_vectors"):
        sys.exit(__doc__)
    sys.exit(main(*sys.argv[1:]))
