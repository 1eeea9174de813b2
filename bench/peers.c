/* How long short writes and reads of one file take with Lentilraft and with what else one would pick: peers FOLDER [TURNS [CALLS [RANGE]]].
   All are given the same calls, and every byte read is compared. docs/PERFORMANCE.md says what came of it. */
#define _POSIX_C_SOURCE 199309L
#include "peers.h"

#include <malloc.h>
#include <stdio.h>
#include <stdlib.h>
#include <string.h>
#include <time.h>

/* So many reads are timed together, and then compared: their buffers stay in the caches, and the clock is not felt. */
enum { BATCH = 64 };

/* The first is what the others are compared with. */
static const struct peer *const ALL[] = {
    &lentilraft_checked, &lentilraft_unchecked, &sqlite_one_blob, &sqlite_rows, &sqlite_rows_in_file, &ext2_in_memory, &copies,
};

enum { PEERS = sizeof ALL / sizeof ALL[0] };

/* Microseconds a call, and what is held at the end. */
struct result {
    double write, read;
    struct held held;
};

const char *folder;

static uint8_t buffers[BATCH * READ];

_Noreturn void give_up(const char *who, const char *why)
{
    fprintf(stderr, "peers: %s: %s\n", who, why);
    exit(1);
}

void *take(size_t length)
{
    void *memory = malloc(length);
    if (memory == NULL)
        give_up("memory", "none left");
    return memory;
}

/* ---- one turn */

/* Of the processor: what other programs take meanwhile is not counted. */
static double microseconds(void)
{
    struct timespec t;
    clock_gettime(CLOCK_PROCESS_CPUTIME_ID, &t);
    return (double)t.tv_sec * 1e6 + (double)t.tv_nsec / 1e3;
}

static void compare(const struct peer *peer, const struct work *work, size_t flat, const uint8_t *bytes, size_t length)
{
    if (memcmp(&work->model[flat], bytes, length) != 0)
        give_up(peer->name, "other bytes are read than were written");
}

static double write_all(const struct peer *peer, const struct work *work)
{
    double start = microseconds();
    for (size_t i = 0; i < work->calls; i++)
        peer->write(&work->writes[i], written(work, i), WRITE);
    if (peer->settle)
        peer->settle();
    return microseconds() - start;
}

static double read_batch(const struct peer *peer, const struct work *work, const struct place *places, size_t count)
{
    double start = microseconds();
    for (size_t i = 0; i < count; i++)
        peer->read(&places[i], &buffers[i * READ], READ);
    double took = microseconds() - start;
    for (size_t i = 0; i < count; i++)
        compare(peer, work, places[i].flat, &buffers[i * READ], READ);
    return took;
}

static double read_all(const struct peer *peer, const struct work *work)
{
    double took = 0;
    for (size_t i = 0; i < work->calls; i += BATCH)
        took += read_batch(peer, work, &work->reads[i], work->calls - i < BATCH ? work->calls - i : BATCH);
    return took;
}

/* Every byte of every window once. */
static void read_whole(const struct peer *peer, const struct work *work)
{
    for (size_t flat = 0, length; flat < flat_length(work); flat += length) {
        struct place place = flat_place(work, flat);
        size_t left = work->span - flat % work->span;
        length = left < READ ? left : READ;
        peer->read(&place, buffers, length);
        compare(peer, work, flat, buffers, length);
    }
}

static double lesser(double a, double b)
{
    return a < b ? a : b;
}

/* The first reads are untimed, so that every peer has in its caches what it keeps there. */
static void take_turn(const struct peer *peer, const struct work *work, struct result *result)
{
    peer->begin(work);
    result->write = lesser(result->write, write_all(peer, work) / (double)work->calls);
    read_all(peer, work);
    result->read = lesser(result->read, read_all(peer, work) / (double)work->calls);
    result->held = peer->held();
    read_whole(peer, work);
    peer->end();
}

/* ---- all turns */

static bool takes(const struct peer *peer, const struct work *work)
{
    return work->windows == 1 || !peer->dense_only;
}

/* Who comes at a place of a turn. Each turn begins with another, and every second one goes backwards, so that nobody always follows the same. */
static unsigned at_place(unsigned turn, unsigned place)
{
    return (turn + (turn % 2 ? PEERS - place : place)) % PEERS;
}

static void measure(const struct work *work, unsigned turns, struct result results[PEERS])
{
    for (unsigned i = 0; i < PEERS; i++)
        results[i] = (struct result){.write = 1e9, .read = 1e9};
    for (unsigned turn = 0; turn < turns; turn++) {
        for (unsigned place = 0; place < PEERS; place++) {
            unsigned next = at_place(turn, place);
            if (takes(ALL[next], work))
                take_turn(ALL[next], work, &results[next]);
        }
    }
}

/* ---- the tables */

/* Two digits, or all before the point. */
static void show_number(double number)
{
    int digits = number < 0.0995 ? 3 : number < 0.995 ? 2 : number < 9.95 ? 1 : 0;
    printf(" %.*f |", digits, number);
}

static void show_bytes(uint64_t bytes)
{
    if (bytes == 0)
        printf(" – |");
    else
        printf(" %.1f |", (double)bytes / (1 << 20));
}

static void show_row(const char *name, const struct result *result, const struct result *checked)
{
    printf("| %s |", name);
    show_number(result->write);
    show_number(result->write / checked->write);
    show_number(result->read);
    show_number(result->read / checked->read);
    show_bytes(result->held.used);
    show_bytes(result->held.given);
    putchar('\n');
}

static void show_table(const struct work *work, const struct result results[PEERS])
{
    puts("| peer | µs a write | / Lentilraft with check | µs a read | / Lentilraft with check | MiB in use at the end | MiB given before |");
    puts("|---|---|---|---|---|---|---|");
    for (unsigned i = 0; i < PEERS; i++) {
        if (takes(ALL[i], work))
            show_row(ALL[i]->name, &results[i], &results[0]);
        else
            printf("| %s | – | – | – | – | – | – |\n", ALL[i]->name);
    }
}

static void show_work(const struct work *work)
{
    printf("\nA file of %llu bytes", (unsigned long long)work->size);
    if (work->windows > 1)
        printf(", written in %zu traverses of %zu bytes", work->windows, work->span - 2 * work->margin);
    printf("; chunks touched: %zu, room for %zu:\n\n", chunks_touched(work), chunk_room(work));
}

static void show(struct work work, unsigned turns)
{
    struct result results[PEERS];
    show_work(&work);
    measure(&work, turns, results);
    show_table(&work, results);
    drop_work(&work);
}

/* ---- what is asked for */

static unsigned long number_given(const char *word, unsigned long least, unsigned long most)
{
    char *rest;
    unsigned long number = strtoul(word, &rest, 10);
    if (*rest != '\0' || number < least || number > most) {
        fprintf(stderr, "peers: %s is no number from %lu to %lu\n", word, least, most);
        exit(2);
    }
    return number;
}

/* Memory once taken is kept. Else a peer that takes it call by call would be measured with the system's part in it, and no other would. */
static void keep_memory(void)
{
    mallopt(M_TRIM_THRESHOLD, -1);
    mallopt(M_MMAP_MAX, 0);
}

int main(int count, char **words)
{
    if (count < 2 || count > 5) {
        fputs("usage: peers FOLDER [TURNS [CALLS [RANGE]]]\n", stderr);
        return 2;
    }
    folder = words[1];
    unsigned turns = count > 2 ? (unsigned)number_given(words[2], 1, 1000) : 5;
    size_t calls = count > 3 ? number_given(words[3], 1, 1000000) : 20000;
    size_t range = count > 4 ? number_given(words[4], READ, MOST_CHUNKS * CHUNK) : 16 << 20;
    keep_memory();
    printf("SQLite %s, libext2fs %s\n", sqlite_version(), ext2_version());
    printf("%zu writes of %d bytes, then %zu reads of %d; chunk size %d; turns: %u\n", calls, WRITE, calls, READ, CHUNK, turns);
    show(dense_work(calls, range), turns);
    show(sparse_work(calls), turns);
    return 0;
}
