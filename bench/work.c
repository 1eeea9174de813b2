#include "work.h"

#include <stdlib.h>
#include <string.h>

#include "peers.h"

/* Any, but the same every time. */
enum { SEED = 40 };

/* Traverses of three chunks' bytes each: they start anywhere in a chunk and so touch four at most, which makes the most chunks of a volume. */
enum { TRAVERSES = MOST_CHUNKS / 4, TRAVERSE = 3 * CHUNK };

static const uint64_t SPARSE_SIZE = (uint64_t)1 << 40;

/* What is written starts anywhere in so many bytes; the next write's a step further, so that no two writes near each other are equal. */
enum { SOURCE = 65536, STEP = 61 };

/* ---- splitmix64, as the vectors have it (oracle/programs) */

static uint64_t state;

static uint64_t draw(void)
{
    state += 0x9e3779b97f4a7c15;
    uint64_t z = (state ^ state >> 30) * 0xbf58476d1ce4e5b9;
    z = (z ^ z >> 27) * 0x94d049bb133111eb;
    return z ^ z >> 31;
}

static uint64_t below(uint64_t end)
{
    return draw() % end;
}

/* ---- places */

size_t flat_length(const struct work *work)
{
    return work->windows * work->span;
}

struct place flat_place(const struct work *work, size_t flat)
{
    return (struct place){work->starts[flat / work->span] + flat % work->span, flat};
}

/* A place for so many bytes in one window, and so far from its ends. */
static struct place any_place(const struct work *work, size_t length, size_t margin)
{
    size_t window = below(work->windows), within = margin + below(work->span - 2 * margin - length + 1);
    return flat_place(work, window * work->span + within);
}

/* ---- work */

/* A window starts anywhere in its part of the file, if the part is larger. */
static void draw_windows(struct work *work)
{
    uint64_t part = work->size / work->windows;
    work->starts = take(work->windows * sizeof work->starts[0]);
    for (size_t i = 0; i < work->windows; i++)
        work->starts[i] = i * part + below(part - work->span + 1);
}

static void draw_calls(struct work *work)
{
    work->writes = take(work->calls * sizeof work->writes[0]);
    work->reads = take(work->calls * sizeof work->reads[0]);
    for (size_t i = 0; i < work->calls; i++) {
        work->writes[i] = any_place(work, WRITE, work->margin);
        work->reads[i] = any_place(work, READ, 0);
    }
}

static void draw_source(struct work *work)
{
    work->source = take(SOURCE + WRITE);
    for (size_t i = 0; i < SOURCE + WRITE; i++)
        work->source[i] = (uint8_t)draw();
}

static void write_model(struct work *work)
{
    work->model = take(flat_length(work));
    memset(work->model, 0, flat_length(work));
    for (size_t i = 0; i < work->calls; i++)
        memcpy(&work->model[work->writes[i].flat], written(work, i), WRITE);
}

static struct work drawn(struct work work)
{
    state = SEED;
    draw_windows(&work);
    draw_calls(&work);
    draw_source(&work);
    write_model(&work);
    return work;
}

struct work dense_work(size_t calls, size_t range)
{
    return drawn((struct work){.size = range, .windows = 1, .span = range, .calls = calls});
}

struct work sparse_work(size_t calls)
{
    return drawn((struct work){.size = SPARSE_SIZE, .windows = TRAVERSES, .span = READ + TRAVERSE + READ, .margin = READ, .calls = calls});
}

void drop_work(struct work *work)
{
    free(work->starts);
    free(work->writes);
    free(work->reads);
    free(work->source);
    free(work->model);
}

const uint8_t *written(const struct work *work, size_t number)
{
    return &work->source[number * STEP % SOURCE];
}

/* ---- chunks */

static int ascending(const void *left, const void *right)
{
    uint64_t a = *(const uint64_t *)left, b = *(const uint64_t *)right;
    return (a > b) - (a < b);
}

/* A write lies in one chunk, or in two. */
size_t chunks_touched(const struct work *work)
{
    size_t count = 2 * work->calls, touched = 0;
    uint64_t *chunks = take(count * sizeof chunks[0]);
    for (size_t i = 0; i < work->calls; i++) {
        chunks[2 * i] = work->writes[i].offset / CHUNK;
        chunks[2 * i + 1] = (work->writes[i].offset + WRITE - 1) / CHUNK;
    }
    qsort(chunks, count, sizeof chunks[0], ascending);
    for (size_t i = 0; i < count; i++)
        touched += i == 0 || chunks[i] != chunks[i - 1];
    free(chunks);
    return touched;
}

size_t chunk_room(const struct work *work)
{
    uint64_t chunks = (work->size + CHUNK - 1) / CHUNK;
    return chunks < MOST_CHUNKS ? (size_t)chunks : MOST_CHUNKS;
}
