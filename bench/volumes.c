#include "volumes.h"

#include <stdio.h>
#include <stdlib.h>
#include <string.h>

#include "lentilraft.h"

/* In the header. */
enum { NODES_USED = 32, ENTRIES_USED = 40, CHUNKS_USED = 48, NEXT_NODE = 56 };

/* In the allocator. */
enum { FREE_COUNT = ALLOCATOR + 16, NEXT_POINTER = ALLOCATOR + 24 };

/* In a node's row, and two of the types. */
enum { TYPE = 8, LINK_COUNT = 16, SIZE = 24 };
enum { DIRECTORY = 0, REGULAR_FILE = 1 };

/* In an entry's row. */
enum { NODE = 8, INDEX = 16, NAME_LENGTH = 20, NAME = 24, NAME_ROOM = 256 };

/* In a chunk's row. */
enum { CHUNK_INDEX = 8, POINTER = 16 };

uint8_t volume[LENGTH];

static void put(size_t at, unsigned bytes, uint64_t x)
{
    for (unsigned i = 0; i < bytes; i++)
        volume[at + i] = (uint8_t)(x >> 8 * i);
}

static uint64_t get(size_t at, unsigned bytes)
{
    uint64_t x = 0;
    for (unsigned i = 0; i < bytes; i++)
        x |= (uint64_t)volume[at + i] << 8 * i;
    return x;
}

static void add(size_t at, uint64_t more)
{
    put(at, 8, get(at, 8) + more);
}

static size_t node_row(unsigned i)
{
    return NODES + (size_t)40 * i;
}

static size_t entry_row(unsigned i)
{
    return ENTRIES + (size_t)280 * i;
}

static size_t chunk_row(unsigned i)
{
    return CHUNKS + (size_t)24 * i;
}

/* ---- nodes */

/* Nodes 1 on, with no links yet, each in the row of its number; the directories come first. */
static void put_nodes(const struct shape *shape)
{
    for (unsigned node = 1; node < shape->nodes; node++) {
        put(node_row(node), 8, node);
        put(node_row(node) + TYPE, 1, node <= shape->directories ? DIRECTORY : REGULAR_FILE);
    }
    put(NODES_USED, 8, shape->nodes);
    put(NEXT_NODE, 8, shape->nodes);
}

/* ---- entries */

/* Every number below as many as rows once, in no order. */
static unsigned shuffled(unsigned i)
{
    return i * 2731 % ROWS;
}

static unsigned put_name(size_t at, enum names names, unsigned i)
{
    char digits[16];
    unsigned length = names == SHORT_NAMES ? 10 : 255;
    int in_front = names == SHUFFLED_NAMES;
    memset(&volume[at], 'x', length);
    snprintf(digits, sizeof digits, "%04u", in_front ? shuffled(i) : i);
    memcpy(&volume[in_front ? at : at + length - 4], digits, 4);
    return length;
}

/* The entry in row i; its directory and its node learn of it. */
static void put_entry(enum names names, unsigned i, unsigned parent, unsigned node)
{
    size_t at = entry_row(i);
    add(node_row(parent) + SIZE, 1);
    add(node_row(node) + LINK_COUNT, 1);
    put(at, 8, parent);
    put(at + NODE, 8, node);
    put(at + INDEX, 4, get(node_row(parent) + SIZE, 8));
    put(at + NAME_LENGTH, 4, put_name(at + NAME, names, i));
}

/* One for each node but the root, and a second one for the last node: as many as rows. */
static void put_entries(const struct shape *shape)
{
    unsigned directories = shape->directories, files = ROWS - 1 - directories;
    for (unsigned d = 0; d < directories; d++)
        put_entry(shape->names, d, 0, 1 + d);
    for (unsigned f = 0; f < files; f++)
        put_entry(shape->names, directories + f, directories ? 1 + f * directories / files : 0, directories + 1 + f);
    put_entry(shape->names, ROWS - 1, directories, ROWS - 1);
    put(ENTRIES_USED, 8, ROWS);
}

/* ---- chunks */

static uint64_t pointer(unsigned i)
{
    return (uint64_t)shuffled(i) * CHUNK;
}

static void put_free(unsigned i)
{
    put(FREE_WORDS + (size_t)8 * i, 8, pointer(i));
    add(FREE_COUNT, 1);
}

/* The chunk in row i: one a file, and what is left for the last file. */
static void put_chunk(const struct shape *shape, unsigned i)
{
    unsigned first = shape->directories + 1, files = ROWS - first;
    unsigned node = first + (i < files ? i : files - 1);
    int last = i + 1 < files || i + 1 == ROWS;
    size_t bytes = last && shape->chunks == ENDED_CHUNKS ? 1 : CHUNK;
    put(chunk_row(i), 8, node);
    put(chunk_row(i) + CHUNK_INDEX, 8, i - (node - first));
    put(chunk_row(i) + POINTER, 8, pointer(i));
    memset(&volume[BYTES + pointer(i)], 0xa5, bytes);
    add(node_row(node) + SIZE, bytes);
    add(CHUNKS_USED, 1);
}

static void put_chunks(const struct shape *shape)
{
    for (unsigned i = 0; i < ROWS; i++) {
        if (shape->chunks == FREE_CHUNKS)
            put_free(i);
        else
            put_chunk(shape, i);
    }
    put(NEXT_POINTER, 8, (uint64_t)ROWS * CHUNK);
}

void build(const struct shape *shape)
{
    if (lentilraft_new_volume(volume, LENGTH, ROWS, ROWS, ROWS, CHUNK) != LENTILRAFT_DONE)
        exit(1);
    put_nodes(shape);
    if (shape->names != NO_ENTRIES)
        put_entries(shape);
    if (shape->chunks != NO_CHUNKS)
        put_chunks(shape);
}

/* ---- broken */

/* The last multiple of the chunk size stands nowhere, and the one before it twice. */
static void break_pointers(void)
{
    for (unsigned i = 0; i < ROWS; i++)
        if (pointer(i) == (uint64_t)(ROWS - 1) * CHUNK)
            put(chunk_row(i) + POINTER, 8, (uint64_t)(ROWS - 2) * CHUNK);
}

void break_rule(enum rules rules)
{
    size_t entry = entry_row(ROWS - 1), name = entry + NAME;
    switch (rules) {
    case FRAME: volume[name + NAME_ROOM - 1] = 1; break;
    case ORDER: put(entry + INDEX, 4, 0); break;
    case NUMBERS: volume[name + get(entry + NAME_LENGTH, 4) - 1] = '/'; break;
    case RELATIONS: put(entry + NODE, 8, ROWS); break;
    case LINKS: add(node_row(ROWS - 1) + LINK_COUNT, 1); break;
    case NAMES: memcpy(&volume[name], &volume[entry_row(ROWS - 2) + NAME], NAME_ROOM); break;
    case POINTERS: break_pointers(); break;
    case OWNERS: put(chunk_row(ROWS - 1) + CHUNK_INDEX, 8, ROWS); break;
    case RULES: break;
    }
}
