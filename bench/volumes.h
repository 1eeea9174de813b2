/* Volumes to measure, all of one geometry: room for 4,096 rows of each table, and 4,096 chunks of 4,096 bytes. */
#ifndef VOLUMES_H
#define VOLUMES_H

#include <stddef.h>
#include <stdint.h>

enum { ROWS = 4096, CHUNK = 4096 };

/* Where the areas start, and the length. */
enum {
    ALLOCATOR = 64,
    FREE_WORDS = ALLOCATOR + 128,
    NODES = FREE_WORDS + 8 * ROWS,
    ENTRIES = NODES + 40 * ROWS,
    CHUNKS = ENTRIES + 280 * ROWS,
    BYTES = CHUNKS + 24 * ROWS,
    LENGTH = BYTES + CHUNK * ROWS
};

/* Names of ten bytes, or of 255, the most; two of them differ in their last four bytes only, in ascending order, or in their first four, in no
   order. */
enum names { NO_ENTRIES, SHORT_NAMES, LONG_NAMES, SHUFFLED_NAMES };

/* Chunks written to their end or for one byte each, or all of them freed. */
enum chunks { NO_CHUNKS, WHOLE_CHUNKS, ENDED_CHUNKS, FREE_CHUNKS };

struct shape {
    const char *what;
    unsigned nodes;       /* rows of nodes; the root is one */
    unsigned directories; /* below the root; with none, every entry stands in the root */
    enum names names;
    enum chunks chunks;
};

/* Groups of rules, in the order of the check. */
enum rules { FRAME, ORDER, NUMBERS, RELATIONS, LINKS, NAMES, POINTERS, OWNERS, RULES };

extern uint8_t volume[LENGTH];

/* Makes a sound volume of a shape. */
void build(const struct shape *shape);

/* Breaks a full one, so that the last row that one group of rules looks at is refused. */
void break_rule(enum rules rules);

#endif
