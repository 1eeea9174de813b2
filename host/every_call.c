/* Every call of lentilraft.h, in the order in which a program is likely to need them. From the top of the repository, on x86-64 Linux:

       bash host/archive rim
       gcc -I host -o every_call host/every_call.c target/staticlib/librim.a
       ./every_call

   What it prints stands in host/every_call.expected.

   A volume is a memory that the program owns: here an array, elsewhere perhaps a file's bytes. The library keeps nothing between calls and
   allocates nothing, so each call is given the memory and its length. Files and directories are nodes, and a node has a number; node 0 is
   the directory that every volume begins with. */
#include <inttypes.h>
#include <stdio.h>
#include <string.h>

#include "lentilraft.h"

/* What the volume has room for. A chunk is the unit in which files take up memory: a file of three bytes has one. */
enum { NODES = 8, ENTRIES = 8, CHUNKS = 16, CHUNK_SIZE = 4096 };

/* The least length of such a volume (see lentilraft_new_volume). It leaves 65,536 bytes for chunks: here all 16 of them. */
enum { LENGTH = 65728 + 40 * NODES + 280 * ENTRIES + 32 * CHUNKS };

enum { ROOT = 0 };

static uint8_t volume[LENGTH];

/* What the numbers mean that calls give back, by number. */
static const char *const meanings[] = {
    "carried out",
    "unsound memory",
    "no such node or entry",
    "is a directory",
    "not a directory",
    "file too large",
    "no chunk room",
    "node or entry rows used up",
    "path not permitted",
    "bad name",
    "name exists",
    "directory not empty",
    "busy",
    "invalid argument",
    "directory's greatest index in use",
    "output shorter than 512 bytes",
};

/* Every call gives back a number: 0 if it was carried out, else why it was not. A refused call has changed nothing, so a program may go on. */
static int done(const char *call, const char *on, uint32_t number)
{
    printf("%s%s: %" PRIu32 ", %s\n", call, on, number, meanings[number]);
    return number == LENTILRAFT_DONE;
}

/* Names and paths are bytes with a length. They need no zero at the end, and may hold any bytes but `/` in a name. */
static const uint8_t *bytes_of(const char *text)
{
    return (const uint8_t *)text;
}

static void show_bytes(const uint8_t *bytes, uint64_t count)
{
    uint64_t i;
    printf("  %" PRIu64 " bytes:", count);
    for (i = 0; i < count; i++)
        printf(" %02x", bytes[i]);
    puts("");
}

/* The report fits into 512 bytes, and a shorter output is refused. It has no zero at the end: the count says how long it is. */
static void report(void)
{
    uint8_t text[512];
    uint64_t count;
    if (done("report", "", lentilraft_report(volume, LENGTH, text, sizeof text, &count)))
        fwrite(text, 1, (size_t)count, stdout);
}

/* A new volume is made of any memory, whatever stood there. One that comes from elsewhere is checked instead. Every other call checks it too,
   and refuses with 1 if it is not sound; so a check by itself is for programs that want to know before they go on. */
static void make_a_volume(void)
{
    done("new volume", "", lentilraft_new_volume(volume, LENGTH, NODES, ENTRIES, CHUNKS, CHUNK_SIZE));
    done("check", "", lentilraft_check(volume, LENGTH));
    report();
}

/* Until the first chunk is given out, another chunk size may be set, one of five: 4,096, 8,192, 16,384, 32,768 or 65,536. Small ones waste
   less at the ends of what is written, large ones need fewer rows. */
static void choose_a_chunk_size(void)
{
    done("set chunk size ", "32768", lentilraft_set_chunk_size(volume, LENGTH, 32768));
    done("set chunk size ", "12288", lentilraft_set_chunk_size(volume, LENGTH, 12288));
    done("set chunk size ", "4096", lentilraft_set_chunk_size(volume, LENGTH, CHUNK_SIZE));
}

/* Create makes a node and names it in a directory, and tells the node's number through the last argument: 0 if it is refused. */
static uint64_t create(uint64_t parent, const char *name, uint8_t type)
{
    uint64_t node;
    if (done("create ", name, lentilraft_create(volume, LENGTH, parent, bytes_of(name), strlen(name), type, &node)))
        printf("  node %" PRIu64 "\n", node);
    return node;
}

/* Find follows a path from any directory, here from the root. A path does not begin with `/`; one that ends with it means a directory, and leads
   to no file. */
static void find(const char *path)
{
    uint64_t node;
    if (done("find ", path, lentilraft_find_node(volume, LENGTH, ROOT, bytes_of(path), strlen(path), &node)))
        printf("  node %" PRIu64 "\n", node);
}

/* A measurement is written where it belongs. The gap before it takes up no memory, and reads as zero. */
static void write_behind_a_gap(uint64_t file)
{
    const char *text = "0.52 m/s";
    uint8_t buffer[12];
    uint64_t count;
    if (done("write ", "at 9000", lentilraft_write(volume, LENGTH, file, 9000, bytes_of(text), strlen(text), &count)))
        show_bytes(bytes_of(text), count);
    if (done("read ", "at 8996", lentilraft_read(volume, LENGTH, file, 8996, buffer, sizeof buffer, &count)))
        show_bytes(buffer, count);

    /* The file ends at 9008, so fewer bytes are there than the buffer takes: the count says how many. */
    if (done("read ", "at 9004", lentilraft_read(volume, LENGTH, file, 9004, buffer, sizeof buffer, &count)))
        show_bytes(buffer, count);
}

/* What is cut off is gone: where the file is extended again, it reads as zero. */
static void cut_and_extend(uint64_t file)
{
    uint8_t buffer[8];
    uint64_t count;
    done("resize ", "to 9004", lentilraft_resize_file(volume, LENGTH, file, 9004));
    done("resize ", "to 9008", lentilraft_resize_file(volume, LENGTH, file, 9008));
    if (done("read ", "at 9000", lentilraft_read(volume, LENGTH, file, 9000, buffer, sizeof buffer, &count)))
        show_bytes(buffer, count);
}

/* A limit keeps a file from growing above it. Without one it may grow to 2^40 bytes, if there are chunks for that. */
static void limit_a_file(uint64_t file)
{
    done("set limit ", "10000", lentilraft_set_limit(volume, LENGTH, file, 10000));
    done("resize ", "to 10001", lentilraft_resize_file(volume, LENGTH, file, 10001));
    done("clear limit", "", lentilraft_clear_limit(volume, LENGTH, file));
    done("resize ", "to 10001", lentilraft_resize_file(volume, LENGTH, file, 10001));
}

/* The entries of a directory, one by one, until the call is refused: with 2 behind the last one. The name is not copied: the call tells where
   in the volume it stands and how long it is. */
static void list(uint64_t directory)
{
    uint64_t start, length, node;
    uint32_t index, from = 0;
    while (lentilraft_next_entry(volume, LENGTH, directory, from, &start, &length, &index, &node) == LENTILRAFT_DONE) {
        printf("  entry %" PRIu32 ", node %" PRIu64 ", %.*s\n", index, node, (int)length, (const char *)volume + start);
        if (index == UINT32_MAX)
            return;
        from = index + 1;
    }
}

/* Search looks for a name in one directory, at no more entries than it is told, so that a large directory can be looked through a part at a time.
   Where it has stopped, it goes on from the index that it tells. With a `most` of 0 it would not get on. */
static void search(uint64_t directory, const char *name, uint64_t most)
{
    size_t length = strlen(name);
    uint64_t node, looked;
    uint32_t number, found, index, from = 0;
    do {
        number = lentilraft_search(volume, LENGTH, directory, bytes_of(name), length, from, most, &found, &index, &node, &looked);
        if (!done("search ", name, number))
            return;
        if (found == LENTILRAFT_FOUND)
            printf("  found, entry %" PRIu32 ", node %" PRIu64, index, node);
        else if (found == LENTILRAFT_STOPPED)
            printf("  stopped before entry %" PRIu32, index);
        else
            printf("  absent");
        printf(", %" PRIu64 " looked at\n", looked);
        from = index;
    } while (found == LENTILRAFT_STOPPED);
}

/* Unlink takes a name away, and tells which node it named. It is told what to expect there, and how many have the file open: the last name
   of an open file is not taken. */
static void unlink_file(const char *path, uint64_t opens)
{
    uint64_t node;
    uint32_t number = lentilraft_unlink(volume, LENGTH, ROOT, bytes_of(path), strlen(path), LENTILRAFT_EXPECT_FILE, opens, &node);
    if (done("unlink ", path, number))
        printf("  node %" PRIu64 "\n", node);
}

/* A file may have several names. When it has none, its bytes are still there, and can be named again; remove takes them away. */
static void name_twice_and_take_away(uint64_t file)
{
    done("link ", "latest", lentilraft_link(volume, LENGTH, ROOT, bytes_of("latest"), strlen("latest"), file));
    list(ROOT);
    unlink_file("traces/hood-7", 1);
    unlink_file("latest", 1);
    unlink_file("latest", 0);
    done("remove", "", lentilraft_remove(volume, LENGTH, file));
    done("remove", "", lentilraft_remove(volume, LENGTH, file));
}

/* The allocator's words can stand by themselves, outside of a volume: at least 128 bytes. Older programs left the marker ALO1 and no chunk
   size there; opening them sets the marker FSA1 and the chunk size 16,384. A volume needs no such opening. */
static void open_older_words(void)
{
    uint8_t words[128] = {'A', 'L', 'O', '1'};
    if (done("open allocator", "", lentilraft_open_allocator(words, sizeof words)))
        show_bytes(words, 16);
}

/* Bytes that no call has written, in the header's count of used entries: the volume is not sound any more, and nothing is done with it. */
static void break_a_byte(void)
{
    volume[40] ^= 1;
    done("check", "", lentilraft_check(volume, LENGTH));
    find("traces");
    volume[40] ^= 1;
    find("traces");
}

int main(void)
{
    uint64_t folder, file;
    make_a_volume();
    choose_a_chunk_size();
    folder = create(ROOT, "traces", LENTILRAFT_TYPE_DIRECTORY);
    file = create(folder, "hood-7", LENTILRAFT_TYPE_FILE);
    create(folder, "newest", LENTILRAFT_TYPE_SYMBOLIC_LINK);
    find("traces/hood-7");
    find("traces/hood-8");
    find("traces/hood-7/");
    find("traces/");
    list(folder);
    search(folder, "newest", UINT64_MAX);
    search(folder, "newest", 1);
    search(folder, "hood-8", 1);
    search(folder, "traces/hood-7", 1);
    write_behind_a_gap(file);
    cut_and_extend(file);
    limit_a_file(file);
    name_twice_and_take_away(file);
    open_older_words();
    report();
    break_a_byte();
    return 0;
}
