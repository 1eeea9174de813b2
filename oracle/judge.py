"""Whether a memory is a sound volume: the scope's sentences once more, in their order.

`broken(memory)` names the rules that the memory breaks; a sound one breaks none. It reads the bytes by docs/LAYOUT.md and shares nothing
with what lays them out. Rules of rows that cannot be told, since a number before them is wrong, are not named.
"""
import collections
import struct

# each rule with the scope's words for it
RULES = {
    "form": "form (1)",
    "rooms": "N, E and C are 1 to 4,096",
    "length": "Length is at least 65,728 + 40N + 280E + 32C",
    "used": "used counts fit",
    "marker": "word 0 is FSA1 and four zero bytes",
    "chunk size": "Chunk sizes S: one bit set and 12 to 16 trailing zeros",
    "free count": "C words for free pointers, from word 16",
    "type": "type byte (0 directory, 1 regular file, 2 symbolic link)",
    "flag": "limit flag byte (0 or 1)",
    "spare": "six zeros",
    "limit": "limit at most 2^40",
    "no flag": "limit 0 without flag",
    "name length": "Names: 1 to 255 bytes",
    "name": "no /, not . or ..",
    "name rest": "name in 256 bytes, the rest of them zero",
    "unused": "unused rows are zero",
    "node order": "rows strictly ascend by node",
    "entry order": "by (parent, index)",
    "chunk order": "by (node, index)",
    "index": "an entry's index is at least 1",
    "next node": "next node exceeds every node",
    "root": "node 0 is a directory",
    "root unnamed": "named by no entry",
    "parent": "Every entry's parent is a directory",
    "target": "and its node has a row",
    "name twice": "No name stands twice in a directory",
    "named twice": "A directory is named by at most one entry",
    "directory limit": "has no limit",
    "directory size": "and a size equal to its number of entries",
    "unlinked": "which is 0 if its links are 0",
    "links": "Links equal the entries naming the node; node 0 has 1",
    "size": "Size is at most the file limit",
    "owner": "Chunk rows belong to non-directories",
    "place": "with index below size divided by S, rounded up",
    "zeros": "bytes of a chunk above size are zero",
    "word 3 aligned": "Word 3 is a multiple of S",
    "word 3 inside": "at most A",
    "word 3 room": "and C x S",
    "once": "Each multiple of S below it stands exactly once among row pointers and free pointers",
    "stray": "and no other pointer stands there",
}

DIRECTORY = 0
MOST = 2**40

Header = collections.namedtuple("Header", "form N E C nodes entries chunks next_node")
Node = collections.namedtuple("Node", "node type flag spare links size limit")
Entry = collections.namedtuple("Entry", "parent node index length name")
Chunk = collections.namedtuple("Chunk", "node index pointer")


class Verdict(list):
    def rule(self, name, *facts):
        assert name in RULES
        if not all(facts) and name not in self:
            self.append(name)


def ascends(keys):
    return all(a < b for a, b in zip(keys, keys[1:]))


def broken(memory):
    verdict = Verdict()
    if len(memory) < 64:
        return ["length"]
    head = Header(*struct.unpack_from("<8Q", memory))
    verdict.rule("form", head.form == 1)
    verdict.rule("rooms", *(1 <= room <= 4096 for room in (head.N, head.E, head.C)))
    verdict.rule("length", len(memory) >= 65728 + 40 * head.N + 280 * head.E + 32 * head.C)
    verdict.rule("used", head.nodes <= head.N, head.entries <= head.E, head.chunks <= head.C)
    area_at = 64 + 128 + 8 * head.C + 40 * head.N + 280 * head.E + 24 * head.C
    if area_at > len(memory) or "used" in verdict:
        return verdict
    judge_tables(verdict, memory, head)
    return sorted(verdict, key=list(RULES).index)


def judge_tables(verdict, memory, head):
    nodes_at = 64 + 128 + 8 * head.C
    entries_at = nodes_at + 40 * head.N
    chunks_at = entries_at + 280 * head.E
    area_at = chunks_at + 24 * head.C
    nodes = [Node(*row) for row in struct.iter_unpack("<QBB6sQQQ", memory[nodes_at : nodes_at + 40 * head.nodes])]
    entries = [Entry(*row) for row in struct.iter_unpack("<QQLL256s", memory[entries_at : entries_at + 280 * head.entries])]
    chunks = [Chunk(*row) for row in struct.iter_unpack("<QQQ", memory[chunks_at : chunks_at + 24 * head.chunks])]
    verdict.rule(
        "unused",
        not any(memory[nodes_at + 40 * head.nodes : entries_at]),
        not any(memory[entries_at + 280 * head.entries : chunks_at]),
        not any(memory[chunks_at + 24 * head.chunks : area_at]),
    )
    judge_rows(verdict, head, nodes, entries, chunks)
    judge_relations(verdict, nodes, entries)
    judge_allocator(verdict, memory[64:nodes_at], memory[area_at:], head.C, nodes, chunks)


# each table by itself
def judge_rows(verdict, head, nodes, entries, chunks):
    verdict.rule("type", *(n.type in (0, 1, 2) for n in nodes))
    verdict.rule("flag", *(n.flag in (0, 1) for n in nodes))
    verdict.rule("spare", *(n.spare == bytes(6) for n in nodes))
    verdict.rule("limit", *(n.limit <= MOST for n in nodes))
    verdict.rule("no flag", *(n.limit == 0 for n in nodes if n.flag == 0))
    verdict.rule("name length", *(1 <= e.length <= 255 for e in entries))
    verdict.rule("name", *(b"/" not in e.name[: e.length] and e.name[: e.length] not in (b".", b"..") for e in entries))
    verdict.rule("name rest", *(not any(e.name[e.length :]) for e in entries))
    verdict.rule("node order", ascends([n.node for n in nodes]))
    verdict.rule("entry order", ascends([(e.parent, e.index) for e in entries]))
    verdict.rule("chunk order", ascends([(c.node, c.index) for c in chunks]))
    verdict.rule("index", *(e.index >= 1 for e in entries))
    verdict.rule("next node", *(head.next_node > n.node for n in nodes))


# what nodes and entries say of each other
def judge_relations(verdict, nodes, entries):
    directories = {n.node for n in nodes if n.type == DIRECTORY}
    numbers = {n.node for n in nodes}
    naming = collections.Counter(e.node for e in entries)
    holding = collections.Counter(e.parent for e in entries)
    names = collections.Counter((e.parent, e.name[: e.length]) for e in entries)
    verdict.rule("root", 0 in directories)
    verdict.rule("root unnamed", naming[0] == 0)
    verdict.rule("parent", *(e.parent in directories for e in entries))
    verdict.rule("target", *(e.node in numbers for e in entries))
    verdict.rule("name twice", *(times == 1 for times in names.values()))
    for n in nodes:
        if n.type == DIRECTORY:
            verdict.rule("named twice", naming[n.node] <= 1)
            verdict.rule("directory limit", n.flag == 0)
            verdict.rule("directory size", n.size == holding[n.node])
            verdict.rule("unlinked", n.links != 0 or holding[n.node] == 0)
        verdict.rule("links", n.links == (1 if n.node == 0 else naming[n.node]))
        verdict.rule("size", n.size <= (n.limit if n.flag == 1 else MOST))


def is_chunk_size(number):
    bits = format(number, "b")
    trailing_zeros = len(bits) - len(bits.rstrip("0"))
    return bits.count("1") == 1 and 12 <= trailing_zeros <= 16


def judge_allocator(verdict, allocator, area, C, nodes, chunks):
    words = [word for (word,) in struct.iter_unpack("<Q", allocator)]
    S, free_count, word_3 = words[1:4]
    verdict.rule("marker", allocator[:8] == b"FSA1" + bytes(4))
    verdict.rule("chunk size", is_chunk_size(S))
    verdict.rule("free count", free_count <= C)
    if "chunk size" in verdict or "free count" in verdict:
        return
    judge_chunks(verdict, S, area, nodes, chunks)
    verdict.rule("word 3 aligned", word_3 % S == 0)
    verdict.rule("word 3 inside", word_3 <= len(area))
    verdict.rule("word 3 room", word_3 <= C * S)
    standing = collections.Counter([c.pointer for c in chunks] + words[16 : 16 + free_count])
    due = {pointer for pointer in standing if pointer % S == 0 and pointer < word_3}
    multiples = -(-word_3 // S)
    verdict.rule("once", len(due) == multiples, *(standing[pointer] == 1 for pointer in due))
    verdict.rule("stray", due == set(standing))


# what chunk rows say of nodes, and their bytes
def judge_chunks(verdict, S, area, nodes, chunks):
    rows = {n.node: n for n in reversed(nodes)}
    for c in chunks:
        verdict.rule("owner", c.node in rows and rows[c.node].type != DIRECTORY)
        if c.node in rows:
            size = rows[c.node].size
            verdict.rule("place", c.index < -(-size // S))
            above = max(0, size - c.index * S)
            verdict.rule("zeros", not any(area[c.pointer + above : c.pointer + S]))
