/* How long the check takes, next to one pass over the same bytes: of volumes that stress one rule each, of full ones, and of two full volumes for
   each group of rules. docs/PERFORMANCE.md says what came of it. */
#define _POSIX_C_SOURCE 199309L
#include <stdio.h>
#include <stdlib.h>
#include <string.h>
#include <time.h>

#include "lentilraft.h"
#include "volumes.h"

enum { TURNS = 25 };

static const struct shape SHAPES[] = {
    {"new volume", 1, 0, NO_ENTRIES, NO_CHUNKS},
    {"nodes only", ROWS, 0, NO_ENTRIES, NO_CHUNKS},
    {"entries in 64 directories", ROWS, 64, SHORT_NAMES, NO_CHUNKS},
    {"entries in 64 directories, long names", ROWS, 64, LONG_NAMES, NO_CHUNKS},
    {"entries in one directory", ROWS, 0, SHORT_NAMES, NO_CHUNKS},
    {"entries in one directory, long names", ROWS, 0, LONG_NAMES, NO_CHUNKS},
    {"chunk rows", ROWS, 0, NO_ENTRIES, WHOLE_CHUNKS},
    {"chunk rows, one byte in each chunk", ROWS, 0, NO_ENTRIES, ENDED_CHUNKS},
    {"free pointers", ROWS, 0, NO_ENTRIES, FREE_CHUNKS},
    {"full, 64 directories", ROWS, 64, SHORT_NAMES, WHOLE_CHUNKS},
    {"full, one directory", ROWS, 0, SHORT_NAMES, WHOLE_CHUNKS},
    {"full, one directory, long names, one byte in each chunk", ROWS, 0, LONG_NAMES, ENDED_CHUNKS},
    {"the same, names that differ in front, in no order", ROWS, 0, SHUFFLED_NAMES, ENDED_CHUNKS},
};

/* Those whose rules are told apart: no group costs so much that the others are lost in its noise. */
static const struct shape APART[] = {
    {"full, 64 directories", ROWS, 64, SHORT_NAMES, WHOLE_CHUNKS},
    {"full, 64 directories, one byte in each chunk", ROWS, 64, SHORT_NAMES, ENDED_CHUNKS},
};

static const char *const GROUPS[RULES] = {
    "frame", "order of nodes and entries", "next node, node 0, indexes, names allowed", "parents and targets", "links, limits, directory sizes", "names twice",
    "order of chunk rows, pointers", "owners of chunks, zeros above a size",
};

struct times {
    double read, copy, check;
};

/* What a pass leaves, so that none is left out. */
static volatile uint64_t kept;

static uint8_t other[LENGTH];

/* Of the processor: what other programs take meanwhile is not counted. */
static double milliseconds(void)
{
    struct timespec t;
    clock_gettime(CLOCK_PROCESS_CPUTIME_ID, &t);
    return (double)t.tv_sec * 1e3 + (double)t.tv_nsec / 1e6;
}

static void least(double *best, double start)
{
    double took = milliseconds() - start;
    if (took < *best)
        *best = took;
}

static void read_pass(void)
{
    uint64_t sum = 0;
    for (size_t i = 0; i < LENGTH; i++)
        sum += volume[i];
    kept = sum;
}

static void copy_pass(void)
{
    memcpy(other, volume, LENGTH);
    kept = other[LENGTH - 1];
}

static void check(uint32_t expected)
{
    if (lentilraft_check(volume, LENGTH) != expected) {
        fputs("the check answers something else than expected\n", stderr);
        exit(1);
    }
}

/* The least times of some turns, over the volume as it stands. */
static struct times measure(uint32_t expected)
{
    struct times best = {1e9, 1e9, 1e9};
    for (unsigned turn = 0; turn < TURNS; turn++) {
        double start = milliseconds();
        read_pass();
        least(&best.read, start);
        start = milliseconds();
        copy_pass();
        least(&best.copy, start);
        start = milliseconds();
        check(expected);
        least(&best.check, start);
    }
    return best;
}

static void show(const struct shape *shape)
{
    build(shape);
    struct times t = measure(LENTILRAFT_DONE);
    printf("| %s | %.2f | %.2f | %.2f | %.2f | %.2f |\n", shape->what, t.check / t.read, t.check / t.copy, t.check, t.read, t.copy);
}

/* What each group costs: the time to its refusal less the time to that of the group before. */
static void show_groups(const struct shape *shape)
{
    double before = 0;
    printf("\n%s:\n\n| rules | their part of the check / read pass | ms |\n|---|---|---|\n", shape->what);
    for (unsigned group = 0; group < RULES; group++) {
        build(shape);
        break_rule(group);
        struct times t = measure(LENTILRAFT_UNSOUND_MEMORY);
        printf("| %s | %.3f | %.3f |\n", GROUPS[group], (t.check - before) / t.read, t.check - before);
        before = t.check;
    }
}

int main(void)
{
    printf("%d bytes, of which the tables have %d; least of %d turns\n\n", (int)LENGTH, (int)BYTES, (int)TURNS);
    puts("| volume | check / read pass | check / copy | check, ms | read pass, ms | copy, ms |\n|---|---|---|---|---|---|");
    for (size_t i = 0; i < sizeof SHAPES / sizeof SHAPES[0]; i++)
        show(&SHAPES[i]);
    for (size_t i = 0; i < sizeof APART / sizeof APART[0]; i++)
        show_groups(&APART[i]);
    return 0;
}
