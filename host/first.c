/* A first volume, made in memory. A folder and files in it; bytes written behind a gap, and read; the folder listed; a file cut, named
   twice, and taken away name by name. Then one byte of the volume is broken, and every call refuses it. */
#include <inttypes.h>
#include <stdio.h>
#include <string.h>

#include "lentilraft.h"

enum { NODES = 16, ENTRIES = 16, CHUNKS = 16, CHUNK_SIZE = 16384 };

/* The least length, and with it a chunk area of 65,536 bytes. */
enum { LENGTH = 65728 + 40 * NODES + 280 * ENTRIES + 32 * CHUNKS };

/* In the header: how many entry rows are used. */
enum { ENTRIES_USED = 40 };

/* The most bytes that are read at once here. */
enum { MOST_READ = 8 };

static const uint64_t ROOT = 0;

static uint8_t volume[LENGTH];

static const uint8_t *bytes_of(const char *text)
{
    return (const uint8_t *)text;
}

static void show_number(const char *call, uint32_t number)
{
    printf("%s: %" PRIu32 "\n", call, number);
}

static void show_report(void)
{
    uint8_t text[512];
    uint64_t count;
    show_number("report", lentilraft_report(volume, LENGTH, text, sizeof text, &count));
    fwrite(text, 1, (size_t)count, stdout);
}

static uint64_t create(uint64_t parent, const char *name, uint8_t type)
{
    uint64_t node;
    uint32_t number = lentilraft_create(volume, LENGTH, parent, bytes_of(name), strlen(name), type, &node);
    printf("create %s: %" PRIu32 ", node %" PRIu64 "\n", name, number, node);
    return node;
}

static void find(const char *path)
{
    uint64_t node;
    uint32_t number = lentilraft_find_node(volume, LENGTH, ROOT, bytes_of(path), strlen(path), &node);
    printf("find %s: %" PRIu32 ", node %" PRIu64 "\n", path, number, node);
}

static void unlink_name(const char *path, uint8_t expected, uint64_t opens)
{
    uint64_t node;
    uint32_t number = lentilraft_unlink(volume, LENGTH, ROOT, bytes_of(path), strlen(path), expected, opens, &node);
    printf("unlink %s, open %" PRIu64 ": %" PRIu32 ", node %" PRIu64 "\n", path, opens, number, node);
}

static void write_text(uint64_t node, uint64_t offset, const char *text)
{
    uint64_t count;
    uint32_t number = lentilraft_write(volume, LENGTH, node, offset, bytes_of(text), strlen(text), &count);
    printf("write at %" PRIu64 ": %" PRIu32 ", %" PRIu64 " bytes\n", offset, number, count);
}

static void read_bytes(uint64_t node, uint64_t offset)
{
    uint8_t buffer[MOST_READ];
    uint64_t count, i;
    uint32_t number = lentilraft_read(volume, LENGTH, node, offset, buffer, sizeof buffer, &count);
    printf("read at %" PRIu64 ": %" PRIu32 ", %" PRIu64 " bytes", offset, number, count);
    for (i = 0; i < count; i++)
        printf(" %02x", buffer[i]);
    puts("");
}

static void resize(uint64_t node, uint64_t size)
{
    printf("resize to %" PRIu64 ": %" PRIu32 "\n", size, lentilraft_resize_file(volume, LENGTH, node, size));
}

/* Every entry of a directory, in index order. */
static void list(uint64_t directory)
{
    uint64_t start, length, node;
    uint32_t number, index, from = 0;
    do {
        number = lentilraft_next_entry(volume, LENGTH, directory, from, &start, &length, &index, &node);
        printf("next entry from %" PRIu32 ": %" PRIu32 ", index %" PRIu32 ", node %" PRIu64 ", name '", from, number, index, node);
        fwrite(volume + start, 1, (size_t)length, stdout);
        puts("'");
        from = index + 1;
    } while (number == LENTILRAFT_DONE && from != 0);
}

int main(void)
{
    uint64_t folder, file;

    show_number("new volume", lentilraft_new_volume(volume, LENGTH, NODES, ENTRIES, CHUNKS, CHUNK_SIZE));
    show_number("check", lentilraft_check(volume, LENGTH));
    show_report();

    puts("a folder, and files in it");
    folder = create(ROOT, "traces", LENTILRAFT_TYPE_DIRECTORY);
    file = create(folder, "hood-7", LENTILRAFT_TYPE_FILE);
    create(folder, "hood-7", LENTILRAFT_TYPE_FILE);
    create(folder, "hood-8", LENTILRAFT_TYPE_FILE);
    find("traces/./hood-7");
    list(folder);

    puts("written behind a gap");
    write_text(file, 40000, "0.52 m/s");
    read_bytes(file, 0);
    read_bytes(file, 39996);
    read_bytes(file, 40004);

    puts("cut, and extended again");
    resize(file, 40004);
    resize(file, 40008);
    read_bytes(file, 40000);

    puts("named twice, and taken away");
    show_number("link latest", lentilraft_link(volume, LENGTH, ROOT, bytes_of("latest"), strlen("latest"), file));
    find("latest");
    unlink_name("traces", LENTILRAFT_EXPECT_ANY, 0);
    unlink_name("traces/hood-7", LENTILRAFT_EXPECT_FILE, 1);
    list(folder);
    unlink_name("latest", LENTILRAFT_EXPECT_FILE, 1);
    show_number("remove", lentilraft_remove(volume, LENGTH, file));
    unlink_name("latest", LENTILRAFT_EXPECT_FILE, 0);
    find("latest");
    read_bytes(file, 40000);
    show_number("remove", lentilraft_remove(volume, LENGTH, file));
    read_bytes(file, 40000);
    show_number("set chunk size 4096", lentilraft_set_chunk_size(volume, LENGTH, 4096));
    show_number("set chunk size 16384", lentilraft_set_chunk_size(volume, LENGTH, CHUNK_SIZE));
    show_number("check", lentilraft_check(volume, LENGTH));
    show_report();

    puts("one byte broken");
    volume[ENTRIES_USED] = 1;
    show_number("check", lentilraft_check(volume, LENGTH));
    find("traces");
    show_report();
    return 0;
}
