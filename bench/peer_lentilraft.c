/* Lentilraft with its check at each call, as C has it, and without it. */
#include <stdio.h>
#include <stdlib.h>
#include <string.h>

#include "lentilraft.h"
#include "peers.h"

enum { NODES = 8, ENTRIES = 8, TABLES = 192 + 40 * NODES + 280 * ENTRIES, CHUNK_ROWS = 32 };

static const uint64_t ROOT = 0;
static const char NAME[] = "trace";

/* The least chunk area of a volume, which a small range would not need. */
enum { LEAST_AREA = 65536 };

/* Of crates/unchecked: they ask for a sound volume, and keep it so. */
uint32_t unchecked_write(uint8_t *volume, size_t length, uint64_t node, uint64_t offset, const uint8_t *bytes, size_t bytes_length, uint64_t *count);
uint32_t unchecked_read(const uint8_t *volume, size_t length, uint64_t node, uint64_t offset, uint8_t *buffer, size_t buffer_length, uint64_t *count);

static uint8_t *volume;
static size_t volume_length, room;
static uint64_t file;

static void must(uint32_t number)
{
    char why[32];
    if (number == LENTILRAFT_DONE)
        return;
    snprintf(why, sizeof why, "number %u", (unsigned)number);
    give_up("Lentilraft", why);
}

static void must_count(uint32_t number, uint64_t count, size_t length)
{
    must(number);
    if (count != length)
        give_up("Lentilraft", "another count");
}

static void begin(const struct work *work)
{
    room = chunk_room(work);
    size_t area = room * CHUNK;
    volume_length = TABLES + room * CHUNK_ROWS + (area < LEAST_AREA ? LEAST_AREA : area);
    volume = take(volume_length);
    memset(volume, 0, volume_length);
    must(lentilraft_new_volume(volume, volume_length, NODES, ENTRIES, room, CHUNK));
    must(lentilraft_create(volume, volume_length, ROOT, (const uint8_t *)NAME, strlen(NAME), LENTILRAFT_TYPE_FILE, &file));
    must(lentilraft_resize_file(volume, volume_length, file, work->size));
}

static void checked_write(const struct place *place, const uint8_t *bytes, size_t length)
{
    uint64_t count;
    must_count(lentilraft_write(volume, volume_length, file, place->offset, bytes, length, &count), count, length);
}

static void checked_read(const struct place *place, uint8_t *buffer, size_t length)
{
    uint64_t count;
    must_count(lentilraft_read(volume, volume_length, file, place->offset, buffer, length, &count), count, length);
}

static void worker_write(const struct place *place, const uint8_t *bytes, size_t length)
{
    uint64_t count;
    must_count(unchecked_write(volume, volume_length, file, place->offset, bytes, length, &count), count, length);
}

static void worker_read(const struct place *place, uint8_t *buffer, size_t length)
{
    uint64_t count;
    must_count(unchecked_read(volume, volume_length, file, place->offset, buffer, length, &count), count, length);
}

static size_t chunks_in_use(void)
{
    char report[513] = "";
    uint64_t count;
    must(lentilraft_report(volume, volume_length, (uint8_t *)report, sizeof report - 1, &count));
    const char *line = strstr(report, "\nchunks=");
    if (line == NULL)
        give_up("Lentilraft", "a report without chunks");
    return strtoul(line + strlen("\nchunks="), NULL, 10);
}

/* Chunks that were never given out are memory that the caller need not have touched. */
static struct held held(void)
{
    return (struct held){volume_length - (room - chunks_in_use()) * CHUNK, volume_length};
}

static void end(void)
{
    must(lentilraft_check(volume, volume_length));
    free(volume);
}

const struct peer lentilraft_checked = {"Lentilraft, with check", false, begin, checked_write, NULL, checked_read, held, end};
const struct peer lentilraft_unchecked = {"Lentilraft, without check", false, begin, worker_write, NULL, worker_read, held, end};
