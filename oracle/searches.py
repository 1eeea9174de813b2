#!/usr/bin/env python3
"""oracle/searches.py FOLDER: puts a search behind every fifth line of the Rust's runs in FOLDER/name_vectors-*.stdin, with the answers of
plain_model.py, since the Rust has no such search. Its own answers stay, and must be the model's. It prints how often a search had each number, with what
it came to. Run it after oracle/make-vectors, once."""
import collections
import pathlib
import random
import sys

import plain_model as model
from sound_volumes import HUGE, LAST_INDEX

EVERY = 5
END = "0\n"
NO_NAMES = [b"", b".", b"..", b"a/b", b"n" * 256]
NAMES = [b"a", b"b", b"n" * 255]


# mostly a directory, and of these mostly one with entries
def some_directory(chance, v):
    filled = [directory for directory, entries in v.entries.items() if entries]
    return chance.choice(chance.choice([filled or [0]] * 6 + [list(v.entries), list(v.nodes), [v.next_node]]))


# mostly one of the directory's own
def some_name(chance, v, directory):
    own = [name for name, _ in v.entries.get(directory, {}).values()]
    every = [name for entries in v.entries.values() for name, _ in entries.values()]
    return chance.choice(chance.choice([own or NAMES] * 6 + [every or NAMES, NAMES, NO_NAMES]))


# an index next to an entry's, and a limit of no more than one above the entries that are left there
def some_edges(chance, v, directory):
    indexes = sorted(v.entries.get(directory, {}))
    near = chance.choice([0, *indexes]) + chance.choice([-1, 0, 1])
    first = chance.choice([0, 0, min(max(near, 0), LAST_INDEX), min(max(near, 0), LAST_INDEX), LAST_INDEX])
    left = sum(index >= first for index in indexes)
    return first, chance.choice([*range(left + 2), HUGE])


def some_search(chance, v):
    directory = some_directory(chance, v)
    name = some_name(chance, v, directory)
    first, most = some_edges(chance, v, directory)
    return [model.SEARCH, directory, first, len(name), most, *name]


def put_in(path, chance, seen):
    lines, answers = [], []
    for number, (line, told, v) in enumerate(model.steps("name_vectors", path.read_text(), False), 1):
        lines.append(line)
        answers.append(told)
        if number % EVERY == 0:
            call, node, place, length, seed, *name = some_search(chance, v)
            found = model.answer(v, call, node, place, length, seed, bytes(name))
            seen[tuple(found[:2])] += 1
            lines.append(" ".join(format(n, "x") for n in (call, node, place, length, seed, *name)))
            answers.append(" ".join(map(str, found)))
    own = [told for line, told in zip(lines, answers, strict=True) if int(line.split()[0], 16) != model.SEARCH]
    beside = model.answers_beside(path)
    assert own == beside.read_text().splitlines()
    path.write_text("".join(line + "\n" for line in lines) + END)
    beside.write_text("".join(told + "\n" for told in answers))


def main(folder):
    chance, seen = random.Random(9), collections.Counter()
    files = sorted(pathlib.Path(folder).glob("name_vectors-*.stdin"))
    for path in files:
        put_in(path, chance, seen)
    print("searches:", dict(sorted(seen.items())))
    print("%d searches in %d files" % (sum(seen.values()), len(files)))


if __name__ == "__main__":
    if len(sys.argv) != 2:
        sys.exit(__doc__)
    main(sys.argv[1])
