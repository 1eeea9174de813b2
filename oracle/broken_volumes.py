#!/usr/bin/env python3
"""The vectors of crates/broken_volumes: sound volumes, and copies of them that break a rule or keep to its edge.

From the top of the repository

    python3 oracle/broken_volumes.py crates/broken_volumes

rewrites stdin (volumes and cases, as oracle/README.md tells) and stdout (what each case must print). The volumes stand in
oracle/sound_volumes.py, the cases in oracle/breakings.py. Every case states which rules it breaks, and oracle/judge.py, which sees only
the bytes, must name the same ones; else nothing is written. It knows nothing of the Rattle code but the order of the numbers and what is
printed.

    python3 oracle/broken_volumes.py FOLDER bulk

writes longer lists of the same form into FOLDER, with changes at random (oracle/chance.py) and the judge's verdict on them.
"""
import collections
import os
import random
import struct
import sys
import zlib

import breakings
import chance
import judge
import sound_volumes

MEMORY = 1572864
MOST_TEXT = 1000000
BULK_FILES = 20
BULK_CASES = 400
END, VOLUME, CASE = range(3)

# ---- the text

# the words that differ from those before them, in runs; a run goes on over a gap of two words
def runs(before, after):
    found = []
    before = before.ljust(len(after), b"\0")
    for start in range(0, len(after), 4096):
        end = min(start + 4096, len(after))
        for at in range(start, end, 8) if before[start:end] != after[start:end] else ():
            if before[at : at + 8][: end - at] != after[at : at + 8]:
                if not found or at > found[-1][1] + 16:
                    found.append([at, 0])
                found[-1][1] = at + 8
    return [(at, struct.unpack("<%dQ" % ((end - at) // 8), after[at:end])) for at, end in found]


def numbers(*them):
    return " ".join("%x" % number for number in them)


def spelled(found):
    return "".join(" " + numbers(at, len(run), *run) for at, run in found)


def volume_lines(memory):
    found = runs(b"", memory)
    return [numbers(VOLUME, len(found)), *(spelled([run])[1:] for run in found)]


def case_line(before, after, label):
    found = runs(before, after)
    return numbers(CASE, len(after), len(found)) + spelled(found) + " " + label


def printed(memory, rules, label):
    return "answer %d unchanged checksum %d %s" % (bool(rules), zlib.adler32(memory), label)


# ---- the cases, and what they have to be

Told = collections.namedtuple("Told", "of label rules memory")


def told(v, rules, what, memory):
    return Told(v, "%s, %s: %s" % (v.label, " + ".join(rules) or "sound", what), rules, memory)


def listed():
    return [told(v, rules, what, breakings.changed(v, changes)) for v, rules, what, changes in breakings.cases()]


def at_random(random, count):
    for i in range(count):
        v = random.choice(sound_volumes.VOLUMES)
        memory = chance.changed(random, v)
        yield told(v, judge.broken(memory), "at random, %d" % i, memory)


def repeated(things):
    return [thing for thing, times in collections.Counter(things).items() if times > 1]


def faults(cases):
    for case in cases:
        verdict = judge.broken(case.memory)
        if verdict != list(case.rules):
            yield "%s: the judge names %s" % (case.label, verdict)
    for label in repeated(case.label for case in cases):
        yield "%s: a label twice" % label
    for memory in repeated(case.memory for case in cases):
        yield "%s: the same bytes" % [case.label for case in cases if case.memory == memory]
    alone = collections.Counter(case.rules[0] for case in cases if len(case.rules) == 1)
    for rule in judge.RULES:
        if alone[rule] < 2:
            yield "%s: broken alone %d times" % (rule, alone[rule])


def write(cases, stdin, stdout):
    lines, prints = [], []
    for v in sound_volumes.VOLUMES:
        before = sound_volumes.lay(v)
        lines += volume_lines(before)
        for case in cases:
            if case.of is v:
                assert len(case.memory) <= MEMORY
                lines.append(case_line(before, case.memory, case.label))
                prints.append(printed(case.memory, case.rules, case.label))
    text = "".join(line + "\n" for line in [*lines, numbers(END)])
    assert len(text) <= MOST_TEXT
    with open(stdin, "w") as out:
        out.write(text)
    with open(stdout, "w") as out:
        out.writelines(line + "\n" for line in prints)
    sound = sum(not case.rules for case in cases)
    print("%s: %d cases, %d sound, %d broken" % (stdin, len(cases), sound, len(cases) - sound))


def main():
    folder = sys.argv[1]
    if sys.argv[2:] == ["bulk"]:
        for seed in range(1, BULK_FILES + 1):
            name = os.path.join(folder, "broken_volumes-%03d" % seed)
            write(list(at_random(random.Random(seed), BULK_CASES)), name + ".stdin", name + ".stdout")
        return
    cases = listed()
    wrong = list(faults(cases))
    if wrong:
        sys.exit("\n".join(wrong))
    write(cases, os.path.join(folder, "stdin"), os.path.join(folder, "stdout"))


main()
