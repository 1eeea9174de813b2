/* Lentilraft for C, over the static library that `bash host/archive rim` writes (target/staticlib/librim.a).

   Each call gives back a number: 0 if it was carried out, else why it was refused. A call is carried out in full or refused with nothing
   changed; numbers that it tells through pointers are 0 then. A number is given where its reason holds and none does that stands before it
   in the call's list. Any bytes and any numbers get an answer.

   What C must see to itself: a pointer points to as many bytes as its length says and is not null (where the length is 0 too), and memory
   that a call writes to overlaps no other memory given to that call. */
#ifndef LENTILRAFT_H
#define LENTILRAFT_H

#include <stddef.h>
#include <stdint.h>

#ifdef __cplusplus
extern "C" {
#endif

enum lentilraft_number {
    LENTILRAFT_DONE = 0,                 /* carried out */
    LENTILRAFT_UNSOUND_MEMORY = 1,       /* unsound memory */
    LENTILRAFT_NO_SUCH_ENTRY = 2,        /* no such node or entry */
    LENTILRAFT_IS_DIRECTORY = 3,         /* is a directory */
    LENTILRAFT_NOT_DIRECTORY = 4,        /* not a directory */
    LENTILRAFT_FILE_TOO_LARGE = 5,       /* file too large */
    LENTILRAFT_NO_CHUNK_ROOM = 6,        /* no chunk room */
    LENTILRAFT_NO_ROW_ROOM = 7,          /* node or entry rows used up, or next node is the greatest u64 */
    LENTILRAFT_PATH_NOT_PERMITTED = 8,   /* path not permitted */
    LENTILRAFT_BAD_NAME = 9,             /* bad name */
    LENTILRAFT_NAME_EXISTS = 10,         /* name exists */
    LENTILRAFT_DIRECTORY_NOT_EMPTY = 11, /* directory not empty */
    LENTILRAFT_BUSY = 12,                /* busy */
    LENTILRAFT_INVALID_ARGUMENT = 13,    /* invalid argument */
    LENTILRAFT_NO_INDEX_LEFT = 14,       /* directory's greatest index is the greatest u32 */
    LENTILRAFT_OUTPUT_TOO_SHORT = 15     /* output shorter than 512 bytes */
};

/* What a node is. Every volume has node 0, a directory that no entry names: paths begin there, or at any other node. */
enum lentilraft_type {
    LENTILRAFT_TYPE_DIRECTORY = 0,
    LENTILRAFT_TYPE_FILE = 1,         /* a regular file */
    LENTILRAFT_TYPE_SYMBOLIC_LINK = 2 /* holds bytes like a file, and is not followed */
};

/* What unlink may be told to expect. */
enum lentilraft_expected {
    LENTILRAFT_EXPECT_ANY = 0,
    LENTILRAFT_EXPECT_DIRECTORY = 1,
    LENTILRAFT_EXPECT_FILE = 2 /* or a symbolic link */
};

/* What search tells through `found`. */
enum lentilraft_found {
    LENTILRAFT_ABSENT = 0,
    LENTILRAFT_FOUND = 1,
    LENTILRAFT_STOPPED = 2
};

/* Makes a volume of all of a memory, whatever it held, with room for so many nodes, entries and chunks (1 to 4,096 each) and a chunk size of
   4,096, 8,192, 16,384, 32,768 or 65,536. The memory needs 65,728 + 40 nodes + 280 entries + 32 chunks bytes, and may have more.
   13: geometry, length or chunk size. */
uint32_t lentilraft_new_volume(uint8_t *volume, size_t length, uint64_t nodes, uint64_t entries, uint64_t chunks, uint64_t chunk_size);

/* Whether a memory, of any content, is a sound volume. 1: it is not. */
uint32_t lentilraft_check(const uint8_t *volume, size_t length);

/* Opens an allocator, on its words only: an unset chunk size becomes 16,384, and an old marker the new one.
   13: under 128 bytes. 1: words that no allocator left. */
uint32_t lentilraft_open_allocator(uint8_t *words, size_t length);

/* Sets the chunk size, one that new volume takes. 1: unsound memory. 13: no such size, or another than now after a chunk was given out. */
uint32_t lentilraft_set_chunk_size(uint8_t *volume, size_t length, uint64_t chunk_size);

/* Reads bytes of a file from an offset on, and tells how many: as many as the buffer has, or as the file has behind the offset. Bytes that were
   never written read as zero; the buffer stays as it was past the count.
   1: unsound memory. 2: no such node. 3: a directory. */
uint32_t lentilraft_read(const uint8_t *volume, size_t length, uint64_t node, uint64_t offset, uint8_t *buffer, size_t buffer_length, uint64_t *count);

/* Writes bytes into a file at an offset, and tells how many. A gap before them costs nothing and reads as zero until it is written. A write of
   no bytes changes nothing, at any offset.
   1: unsound memory. 2: no such node. 3: a directory. 5: the end lies above the file's limit. 6: no room for the chunks. */
uint32_t lentilraft_write(uint8_t *volume, size_t length, uint64_t node, uint64_t offset, const uint8_t *bytes, size_t bytes_length, uint64_t *count);

/* Cuts or extends a file. What lies above its old size reads as zero; what is cut off is gone. It takes no chunk, so that it needs no room.
   1: unsound memory. 2: no such node. 3: a directory. 5: above the file's limit. */
uint32_t lentilraft_resize_file(uint8_t *volume, size_t length, uint64_t node, uint64_t size);

/* Sets a limit of a file's size, at most 2^40 and not below its size; or clears it, so that 2^40 is the limit.
   1: unsound memory. 2: no such node. 3: a directory. 13: above 2^40. 5: below the file's size. */
uint32_t lentilraft_set_limit(uint8_t *volume, size_t length, uint64_t node, uint64_t limit);
uint32_t lentilraft_clear_limit(uint8_t *volume, size_t length, uint64_t node);

/* Makes a node of a type (enum lentilraft_type), names it in a directory, and tells its number. It has one link, no bytes and no limit. A name
   has 1 to 255 bytes and no `/`, and is neither `.` nor `..`; it needs no end mark.
   1: unsound memory. 2: no such parent, or one without links. 4: the parent is no directory. 9: bad name. 13: no such type. 10: the directory has
   that name. 7: node or entry rows used up, or the next node is the greatest u64. 14: the directory's greatest index is the greatest u32. */
uint32_t lentilraft_create(uint8_t *volume, size_t length, uint64_t parent, const uint8_t *name, size_t name_length, uint8_t type, uint64_t *node);

/* Names a file once more, in a directory. The file may be one whose last name was unlinked.
   1: unsound memory. 2: no such parent, or one without links. 4: the parent is no directory. 9: bad name. 2: no such target. 3: the target is a
   directory. 10: the directory has that name. 7: entry rows used up. 14: the directory's greatest index is the greatest u32. */
uint32_t lentilraft_link(uint8_t *volume, size_t length, uint64_t parent, const uint8_t *name, size_t name_length, uint64_t target);

/* Finds the node that a path leads to from a start, and tells it. Parts stand between `/`; empty parts and `.` are dropped, and `..` drops the part
   before it. A path with no parts left leads to the start itself. Any other path that ends with `/`, `/.` or `/..` must lead to a directory, or to a
   symbolic link, which is not followed.
   1: unsound memory. 13: the path has more than 4,096 bytes. 8: a leading `/`, or a `..` with no part before it. 2: no such start. Then, part by
   part, 9: more than 255 bytes; or 2: no entry of that name there. 4: a path with such an end leads to a regular file. */
uint32_t lentilraft_find_node(const uint8_t *volume, size_t length, uint64_t start, const uint8_t *path, size_t path_length, uint64_t *node);

/* Takes the name that a path leads to from a start out of its directory, and tells the node that it named. The path is read as in find. The node and
   its bytes stay, also without a name: link names it again, remove takes it away. Expected is one of enum lentilraft_expected; opens is how many have
   the node open.
   1: unsound memory. 13: no such thing to expect. Then find's 13, 8 (also for a path with no parts), 2, 9 and 4. 3: a directory, and a file was
   expected. 11: a directory that is not empty. 4: no directory, and one was expected. 12: it is open, and this is its last name. */
uint32_t lentilraft_unlink(uint8_t *volume, size_t length, uint64_t start, const uint8_t *path, size_t path_length, uint8_t expected, uint64_t opens, uint64_t *node);

/* Takes a node away that has no name left, and frees its chunks.
   1: unsound memory. 2: no such node. 12: it has a name, or is node 0. */
uint32_t lentilraft_remove(uint8_t *volume, size_t length, uint64_t node);

/* Finds the entry of a directory with the least index at or above one. Tells where in the volume its name starts, how many bytes the name has, the
   entry's index and its node. All entries in turn: from 0, then from the index told plus 1, until 2 or until that sum wraps. The name stands there
   until the volume is changed; a call that changes it must be given a copy of the name.
   1: unsound memory. 2: no such node. 4: no directory. 2: no such entry. */
uint32_t lentilraft_next_entry(const uint8_t *volume, size_t length, uint64_t directory, uint32_t from, uint64_t *name_start, uint64_t *name_length, uint32_t *index, uint64_t *node);

/* Searches a directory for a name. Looks, in index order, at the entries whose index is at or above `from`, and at no more than `most` of them.
   Tells what came of it (enum lentilraft_found), and how many were looked at.
   Found: the index and the node of the entry that has the name; it is the last one looked at. Absent: all those entries were looked at, and none has
   the name; index and node are 0. Stopped: `most` were looked at, none has the name, and entries are left; the index is that of the first of these,
   and node is 0. To go on, search from the index told, with a `most` above 0: if the directory is not changed in between, this ends as one search
   does, and the numbers looked at add up to that one's. UINT64_MAX as `most` is no limit.
   1: unsound memory. 2: no such node. 4: no directory. 9: bad name, as in create. */
uint32_t lentilraft_search(const uint8_t *volume, size_t length, uint64_t directory, const uint8_t *name, size_t name_length, uint32_t from, uint64_t most, uint32_t *found, uint32_t *index, uint64_t *node, uint64_t *looked);

/* Writes the report, lines `key=value`, to out, and tells how many bytes it has; out stays as it was past the count.
   1: unsound memory. 15: out is shorter than 512 bytes. */
uint32_t lentilraft_report(const uint8_t *volume, size_t length, uint8_t *out, size_t out_length, uint64_t *count);

#ifdef __cplusplus
}
#endif

#endif
