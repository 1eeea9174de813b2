/* Those that are measured, asked in one way. */
#ifndef PEERS_H
#define PEERS_H

#include <stdbool.h>
#include <stddef.h>
#include <stdint.h>

#include "work.h"

/* Bytes that hold something, and bytes that were given before the first call; 0 where a peer takes them itself. */
struct held {
    uint64_t used, given;
};

/* A call that is not carried out in full ends the program. */
struct peer {
    const char *name;
    bool dense_only;                        /* gaps would have to be stored */
    void (*begin)(const struct work *work); /* a new store with one file of the work's size, all of it gap */
    void (*write)(const struct place *place, const uint8_t *bytes, size_t length);
    void (*settle)(void); /* if not null: what is left to do once all is written */
    void (*read)(const struct place *place, uint8_t *buffer, size_t length);
    struct held (*held)(void);
    void (*end)(void);
};

extern const struct peer lentilraft_checked, lentilraft_unchecked, sqlite_one_blob, sqlite_rows, sqlite_rows_in_file, ext2_in_memory, copies;

const char *sqlite_version(void);
const char *ext2_version(void);

/* For peers that keep files, one of a file system in memory. */
extern const char *folder;

/* Memory, which the caller is to write to before it is measured: a first touch costs. */
void *take(size_t length);

_Noreturn void give_up(const char *who, const char *why);

#endif
