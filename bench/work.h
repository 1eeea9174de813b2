/* What every peer is given to do, drawn once: short writes at random places of one file, then reads at random places. */
#ifndef WORK_H
#define WORK_H

#include <stddef.h>
#include <stdint.h>

/* Bytes of a write, of a read and of a chunk, and the most chunks of a volume. */
enum { WRITE = 100, READ = 4096, CHUNK = 16384, MOST_CHUNKS = 4096 };

/* Where a call writes or reads: in the file, and in flat bytes that hold the windows one behind the other. */
struct place {
    uint64_t offset;
    size_t flat;
};

struct work {
    uint64_t size;    /* of the file */
    size_t windows;   /* parts of the file in which all calls lie; what is between them is gap */
    size_t span;      /* bytes of a window */
    size_t margin;    /* how many of these at either end are read, and never written */
    uint64_t *starts; /* of the windows, in the file */
    size_t calls;     /* how many writes, and how many reads */
    struct place *writes, *reads;
    uint8_t *source; /* of what is written */
    uint8_t *model;  /* what the windows hold once all is written */
};

/* One window, which is the whole file. */
struct work dense_work(size_t calls, size_t range);

/* A window for each traverse, each in its own GiB of a file of 2^40 bytes. */
struct work sparse_work(size_t calls);

void drop_work(struct work *work);

size_t flat_length(const struct work *work);

/* Where a byte of the flat bytes stands. */
struct place flat_place(const struct work *work, size_t flat);

/* What the write of this number writes. */
const uint8_t *written(const struct work *work, size_t number);

/* Chunks that hold something once all is written. */
size_t chunks_touched(const struct work *work);

/* Chunks that a store for this work is given room for: all of the file, or the most. */
size_t chunk_room(const struct work *work);

#endif
