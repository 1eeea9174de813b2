#!/usr/bin/env python3
"""The vectors of crates/words_vectors, computed from what each function is defined to do.

From the top of the repository

    python3 oracle/words.py crates/words_vectors

rewrites stdin (a step to a line: the function's number, then its arguments, in hexadecimal) and stdout (what each step must print).
It knows nothing of the Rattle code but the numbers of the functions, the order of their arguments and the bytes of the fresh buffers.
"""
import os
import sys
import zlib

SIZE = 1024
HUGE = 2**64 - 1
END, GET, PUT, PUT_WORDS, COPY, CLEAR, SHIFT_UP, SHIFT_DOWN, SAME, IS_ZERO, RANKS_BELOW, NO_FUNCTION = range(12)
WIDTHS = (1, 2, 4, 8)
WORDS = 8


def pattern(by):
    return bytearray((3 + i * by) % 256 for i in range(SIZE))


def buffer():
    return pattern(7)


SOURCE = bytes(pattern(11))

# ---- what a step prints


def fits(at, n):
    return at + n <= SIZE


def get(width, at):
    if width in WIDTHS and fits(at, width):
        return int.from_bytes(buffer()[at : at + width], "little")


def put(v, width, at, x):
    if width in WIDTHS and fits(at, width):
        v[at : at + width] = (x % 256**width).to_bytes(width, "little")
        return True


def put_words(v, at, n, *words):
    if n <= len(words) and fits(at, 8 * n):
        v[at : at + 8 * n] = b"".join(w.to_bytes(8, "little") for w in words[:n])
        return True


def copy(v, at, start, n):
    if fits(at, n) and fits(start, n):
        v[at : at + n] = SOURCE[start : start + n]
        return True


def clear(v, at, n):
    if fits(at, n):
        v[at : at + n] = bytes(n)
        return True


def shift_up(v, start, end, by):
    if start <= end and fits(end, by):
        v[start + by : end + by] = v[start:end]
        return True


def shift_down(v, start, end, by):
    if by <= start <= end <= SIZE:
        v[start - by : end - by] = v[start:end]
        return True


def two_strings(n, m, at, x):
    if n <= SIZE and m <= SIZE and at < SIZE:
        other = buffer()
        other[at] = x % 256
        return buffer()[:n], other[:m]


def same(*args):
    two = two_strings(*args)
    return two and int(two[0] == two[1])


# shorter ones first, those of one length by the number that they spell
def rank(string):
    return len(string), int.from_bytes(string, "little")


def ranks_below(*args):
    two = two_strings(*args)
    return two and int(rank(two[0]) < rank(two[1]))


def is_zero(start, n, at, x):
    if fits(start, n) and at < SIZE:
        v = bytearray(SIZE)
        v[at] = x % 256
        return int(v[start : start + n] == bytes(n))


ANSWERS = {GET: get, SAME: same, IS_ZERO: is_zero, RANKS_BELOW: ranks_below}
CHANGES = {PUT: put, PUT_WORDS: put_words, COPY: copy, CLEAR: clear, SHIFT_UP: shift_up, SHIFT_DOWN: shift_down}


def printed(op, *args):
    answer = None
    if op in ANSWERS:
        answer = ANSWERS[op](*args)
    elif op in CHANGES:
        v = buffer()
        if CHANGES[op](v, *args):
            assert len(v) == SIZE
            answer = zlib.adler32(v)
    return "outside" if answer is None else "%x" % answer


# ---- the steps


def numbers():
    values = (0, HUGE, 0x0123456789ABCDEF, 0x8000000000000080, 0xFF)
    for width in WIDTHS:
        ends = (0, 7, SIZE - width - 1, SIZE - width, SIZE - width + 1, SIZE, HUGE - width + 1, HUGE)
        for i, at in enumerate(ends):
            yield GET, width, at
            yield PUT, width, at, values[i % len(values)]
    for width in (0, 3, 16, HUGE):
        yield GET, width, 8
        yield PUT, width, 8, 1


def runs_of_words():
    words = [(0x0102030405060708 * (3 * i + 1)) % 2**64 for i in range(WORDS)]
    for n in range(WORDS + 1):
        for at in (0, 3, SIZE - 8 * n, SIZE - 8 * n + 1):
            yield (PUT_WORDS, at, n, *words)
    yield (PUT_WORDS, 0, WORDS + 1, *words)
    yield (PUT_WORDS, HUGE, 1, *words)
    yield (PUT_WORDS, SIZE, 0, *words)
    yield (PUT_WORDS, 16, 2, HUGE, 0, *words[2:])


def runs_of_bytes():
    for n in (0, 1, 7, 8, 24, 40, 63, 64, 65, 280, SIZE):
        yield COPY, 0, 0, n
        yield COPY, SIZE - n, (SIZE - n) // 2, n
        yield CLEAR, 0, n
        yield CLEAR, SIZE - n, n
    for at, n in ((1, SIZE), (SIZE, 1), (SIZE + 1, 0), (0, SIZE + 1), (HUGE, 1), (1, HUGE), (HUGE, HUGE)):
        yield CLEAR, at, n
        yield COPY, at, 0, n
        yield COPY, 0, at, n


# by the sizes of the rows, over more bytes than they move by and over fewer
def moves():
    for by in (0, 1, 24, 40, 280):
        for length in (0, by, by + 1, 2 * by - 3, SIZE - by):
            if 0 <= length <= SIZE - by:
                yield SHIFT_UP, 0, length, by
                yield SHIFT_UP, SIZE - by - length, SIZE - by, by
                yield SHIFT_DOWN, by, by + length, by
                yield SHIFT_DOWN, SIZE - length, SIZE, by
    yield SHIFT_UP, 0, SIZE - 24 + 1, 24
    yield SHIFT_UP, 41, 40, 24
    yield SHIFT_UP, 0, 40, HUGE
    yield SHIFT_UP, 0, HUGE, 1
    yield SHIFT_DOWN, 23, 40, 24
    yield SHIFT_DOWN, 41, 40, 24
    yield SHIFT_DOWN, 24, SIZE + 1, 24
    yield SHIFT_DOWN, HUGE, HUGE, HUGE


def near_a_block(n):
    return n % 8 in (7, 0, 1)


# the byte just past the end must not count, and the last byte must
def comparisons():
    fresh = buffer()
    for n in range(71):
        if near_a_block(n):
            yield SAME, n, n, n, fresh[n] ^ 1
        if n > 0:
            yield SAME, n, n, n - 1, fresh[n - 1] ^ 0x80
    for at in (0, 7, 8, 55, 56, 63, 64):
        yield SAME, 70, 70, at, fresh[at] ^ 0xFF
        yield SAME, 70, 70, at, fresh[at] + 256
    for n, m in ((0, 1), (1, 0), (8, 7), (8, 9), (64, 72), (72, 64), (SIZE, SIZE - 1)):
        yield SAME, n, m, SIZE - 1, 0
    for n, m, at in ((SIZE, SIZE, SIZE), (SIZE + 1, 0, 0), (0, SIZE + 1, 0), (8, 8, HUGE), (HUGE, HUGE, 0)):
        yield SAME, n, m, at, 0


# a byte that is greater or less, anywhere in a block or in what is left of the first one; other lengths
def ranks():
    fresh = buffer()
    for n in range(1, 35):
        for at in {0, n // 2, n - 1, n}:
            for x in {0, fresh[at], 255}:
                yield RANKS_BELOW, n, n, at, x
    for n, m in ((0, 0), (0, 1), (1, 0), (8, 7), (8, 9), (255, 254), (254, 255), (255, 255)):
        yield RANKS_BELOW, n, m, 0, 0
        yield RANKS_BELOW, n, m, 0, 255
    for n, m, at in ((SIZE, SIZE, SIZE), (SIZE + 1, 0, 0), (0, SIZE + 1, 0), (8, 8, HUGE), (HUGE, HUGE, 0)):
        yield RANKS_BELOW, n, m, at, 0


def zeros():
    for n in range(71):
        start = 5 * n
        if near_a_block(n):
            yield IS_ZERO, start, n, start + n, 0xFF
        if n > 0:
            yield IS_ZERO, start, n, start + n - 1, 1 << n % 8
    for at in (0, 3, 4, 7, 8, 15, 16, 31, 32, 63, 64, 127, 128, SIZE - 64, SIZE - 1):
        yield IS_ZERO, 0, SIZE, at, 0x80
    yield IS_ZERO, 1, 70, 0, 1
    yield IS_ZERO, 0, SIZE, 100, 0x100
    for start, n, at in ((SIZE, 0, 0), (SIZE, 1, 0), (1, SIZE, 0), (0, 8, SIZE), (HUGE, 8, 0), (0, HUGE, 0)):
        yield IS_ZERO, start, n, at, 1


def main():
    folder = sys.argv[1]
    steps = [*numbers(), *runs_of_words(), *runs_of_bytes(), *moves(), *comparisons(), *zeros(), *ranks(), (NO_FUNCTION,)]
    steps = list(dict.fromkeys(steps))
    lines = [" ".join("%x" % x for x in step) for step in [*steps, (END,)]]
    with open(os.path.join(folder, "stdin"), "w") as out:
        out.writelines(line + "\n" for line in lines)
    with open(os.path.join(folder, "stdout"), "w") as out:
        out.writelines(printed(*step) + "\n" for step in steps)


main()
