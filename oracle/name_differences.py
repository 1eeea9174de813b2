"""The inputs of docs/DIFFERENCES.md that calls can make, with the scope's answers.

    name_differences.py             prints each input and what the model answers, by the names of docs/DIFFERENCES.md
    name_differences.py PROGRAM     the same, and PROGRAM must answer alike: it reads the list as name_vectors does
    name_differences.py list        prints the list

The Rust's answers to the same inputs: oracle/show-differences.
"""
import subprocess
import sys

import plain_model as model
from plain_model import ANY

ROOMS, CHUNK_SIZE = (8, 8, 8), 16384
LENGTH = 65728 + 40 * ROOMS[0] + 280 * ROOMS[1] + 32 * ROOMS[2]
DIRECTORY, FILE, SYMBOLIC_LINK, NO_TYPE = range(4)
LONG = b"n" * 256
LAST_INDEX = 2**32 - 1
HUGE = 2**64 - 1


def create(parent, kind, name):
    return [model.CREATE, parent, kind, len(name), 0, *name]


def link(parent, name, target):
    return [model.LINK_CALL, parent, target, len(name), 0, *name]


def unlink(start, path, expected=ANY, opens=0):
    return [model.UNLINK, start, opens, len(path), expected, *path]


def remove(node):
    return [model.REMOVE, node, 0, 0, 0]


def find(start, path):
    return [model.FIND, start, 0, len(path), 0, *path]


def next_entry(directory, index):
    return [model.NEXT_ENTRY, directory, index, 0, 0]


def read(node):
    return [model.READ, node, 0, 4, 8]


def write(node, offset=0, length=5):
    return [model.WRITE, node, offset, length, 8]


def resize(node, size):
    return [model.RESIZE, node, size, 0, 0]


def set_limit(node, limit):
    return [model.SET_LIMIT, node, limit, 1, 0]


f = create(0, FILE, b"f")
g = create(0, FILE, b"g")
d = create(0, DIRECTORY, b"d")

# the name, what is made before, and the calls that are asked, each with its words
CASES = [
    ("directory-read", [f], [("read node 0", read(0))]),
    ("directory-write", [f], [("write to node 0", write(0))]),
    ("directory-resize", [f], [("resize node 0 to 0", resize(0, 0))]),
    ("directory-limit", [], [("limit 0 on node 0", set_limit(0, 0)), ("then create", f)]),
    ("write-2^40", [f], [("one byte at 2^40", write(1, 2**40, 1))]),
    ("write-wraps", [f], [("%d at u64::MAX" % length, write(1, HUGE, length)) for length in (1, 2)]),
    ("write-cut-index", [f], [("limit 2^60", set_limit(1, 2**60)), ("one byte at 2^46", write(1, 2**46, 1))]),
    ("limit-above", [f], [("limit u64::MAX", set_limit(1, HUGE))]),
    ("resize-unlimited", [f], [("to 2^60", resize(1, 2**60))]),
    ("shrink-cut-index", [f, write(1, 0, 1)], [("to 2^47", resize(1, 2**47))]),
    ("room", [f], [("five chunks where there is room for four", write(1, 0, 65537))]),
    (
        "cut-hole",
        [f, g, write(1, 0, 65536), resize(2, 40000)],
        [("to 20,000, where there is no room", resize(2, 20000)), ("then two bytes there", write(2, 20000, 2))],
    ),
    ("name-twice", [f], [("create f twice", f)]),
    ("name-bad", [], [("create %r" % name, create(0, FILE, name)) for name in (b"", b".", b"..", b"a/b")]),
    (
        "under-removed",
        [d, f, unlink(0, b"d")],
        [("create there", create(1, FILE, b"x")), ("link there", link(1, b"x", 2))],
    ),
    ("below-file", [f, g], [("create in f", create(1, FILE, b"x")), ("link in f", link(1, b"x", 2))]),
    ("symbolic-link", [], [("create", create(0, SYMBOLIC_LINK, b"l"))]),
    (
        "create-refused",
        [],
        [
            ("in parent 77", create(77, FILE, b"f")),
            ("name of 256 bytes", create(0, FILE, LONG)),
            ("then create", f),
        ],
    ),
    (
        "create-type",
        [],
        [
            ("type 3 in parent 77", create(77, NO_TYPE, b"f")),
            ("type 3, name of 256 bytes", create(0, NO_TYPE, LONG)),
            ("type 3", create(0, NO_TYPE, b"f")),
        ],
    ),
    ("link-directory", [d], [("link d as e", link(0, b"e", 1)), ("link d in d", link(1, b"d", 1))]),
    ("link-existing", [f, g], [("link f as g", link(0, b"g", 1)), ("link f as f", link(0, b"f", 1))]),
    ("link-makes-folders", [f], [("link f as x/y", link(0, b"x/y", 1))]),
    ("link-order", [], [("a missing node, name of 256 bytes", link(0, LONG, 99))]),
    (
        "link-refused",
        [f],
        [("link f in parent 99", link(99, b"x", 1)), ("then unlink f while it is open", unlink(0, b"f", ANY, 1))],
    ),
    ("remove-linked", [f], [("a file with a name", remove(1)), ("node 0", remove(0))]),
    (
        "find-missing-start",
        [],
        [
            ("find an empty path from node 99", find(99, b"")),
            ("find a name of 256 bytes from node 99", find(99, LONG)),
            ("unlink a name of 256 bytes from node 99", unlink(99, LONG)),
        ],
    ),
    ("path-long", [], [("find ./ 2,049 times", find(0, b"./" * 2049))]),
    ("unlink-no-parts", [], [("unlink %r" % path, unlink(0, path)) for path in (b"", b".", b"a/..")]),
    (
        "folder-path",
        [f, create(0, FILE, b"hood7.csv"), d, create(0, SYMBOLIC_LINK, b"l")],
        [("find %s" % path, find(0, path.encode())) for path in ("f/", "f/.", "f/x/..", "hood7.csv/", "d/", "l/")]
        + [("unlink f/ while it is open", unlink(0, b"f/", ANY, 1)), ("unlink f/", unlink(0, b"f/"))],
    ),
    (
        "unlink-v1-row",
        [f, g],
        [("unlink f beside g", unlink(0, b"f")), ("then list", next_entry(0, 0))],
    ),
    (
        "list-dots",
        [d],
        [("from u32::MAX - 5", next_entry(1, LAST_INDEX - 5)), ("from u32::MAX - 4", next_entry(1, LAST_INDEX - 4))],
    ),
    ("list-no-directory", [f], [("a file", next_entry(1, 0)), ("a missing node", next_entry(99, 0))]),
]


def listed():
    """The list, and the words for each line of its answers: none for what is made before."""
    lines, words = [], []
    for name, before, asked in CASES:
        lines.append([1, LENGTH, *ROOMS, CHUNK_SIZE])
        lines += before + [call for _, call in asked]
        words += [None] * (1 + len(before)) + ["%s: %s" % (name, word) for word, _ in asked]
    lines.append([0])
    return "".join(" ".join("%x" % number for number in line) + "\n" for line in lines), words


def main(program=None):
    text, words = listed()
    if program == "list":
        print(text, end="")
        return 0
    answers = list(model.worked_out("name_vectors", text, True))
    for word, answer in zip(words, answers, strict=True):
        if word:
            print("%s: %s" % (word, answer))
        else:
            assert answer.startswith(("volume 0", "0 "))
    if program:
        printed = subprocess.run([program], input=text, capture_output=True, text=True, check=True).stdout
        if printed.splitlines() != answers:
            print("%s answers otherwise" % program)
            return 1
        print("%s answers alike" % program)
    return 0


if __name__ == "__main__":
    if len(sys.argv) > 2:
        sys.exit(__doc__)
    sys.exit(main(*sys.argv[1:]))
