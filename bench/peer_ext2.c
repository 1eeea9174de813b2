/* ext2 by libext2fs, in an image in memory. After each write the image is whole: others could mount it. */
#define _DEFAULT_SOURCE /* ext2fs.h leans on it */
#include <et/com_err.h>
#include <ext2fs/ext2fs.h>
#include <stdlib.h>
#include <string.h>

#include "peers.h"

/* The largest that Linux mounts where a page has 4,096 bytes; and the exponent by which ext2 tells it. */
enum { BLOCK = 4096, LOG_BLOCK = 2 };

enum { INODES = 32 };

/* One whole group of blocks, which is room for every work here: of a group that is not whole the bitmap is flushed bit by bit. */
enum { BLOCKS = 8 * BLOCK, IMAGE = BLOCKS * BLOCK };

static uint8_t *image;
static ext2_filsys file_system;
static ext2_file_t file;

static void must(errcode_t code)
{
    if (code != 0)
        give_up("ext2", error_message(code));
}

/* ---- the image's blocks, for the library */

static struct struct_io_channel channel;

static errcode_t open_image(const char *name, int flags, io_channel *opened);

static errcode_t close_image(io_channel closed)
{
    (void)closed;
    return 0;
}

static errcode_t set_block_size(io_channel changed, int size)
{
    changed->block_size = size;
    return 0;
}

/* A count below 0 is one of bytes. */
static size_t bytes_of(io_channel asked, int count)
{
    return count < 0 ? (size_t)-(long)count : (size_t)count * (size_t)asked->block_size;
}

static bool within(io_channel asked, unsigned long long block, int count)
{
    size_t start = block * (size_t)asked->block_size;
    return start <= IMAGE && bytes_of(asked, count) <= IMAGE - start;
}

static errcode_t read_blocks(io_channel asked, unsigned long long block, int count, void *data)
{
    if (!within(asked, block, count))
        return EXT2_ET_SHORT_READ;
    memcpy(data, &image[block * (size_t)asked->block_size], bytes_of(asked, count));
    return 0;
}

static errcode_t write_blocks(io_channel asked, unsigned long long block, int count, const void *data)
{
    if (!within(asked, block, count))
        return EXT2_ET_SHORT_WRITE;
    memcpy(&image[block * (size_t)asked->block_size], data, bytes_of(asked, count));
    return 0;
}

static errcode_t read_few_blocks(io_channel asked, unsigned long block, int count, void *data)
{
    return read_blocks(asked, block, count, data);
}

static errcode_t write_few_blocks(io_channel asked, unsigned long block, int count, const void *data)
{
    return write_blocks(asked, block, count, data);
}

static errcode_t flush_image(io_channel flushed)
{
    (void)flushed;
    return 0;
}

static struct struct_io_manager manager = {
    .magic = EXT2_ET_MAGIC_IO_MANAGER,
    .name = "image in memory",
    .open = open_image,
    .close = close_image,
    .set_blksize = set_block_size,
    .read_blk = read_few_blocks,
    .write_blk = write_few_blocks,
    .read_blk64 = read_blocks,
    .write_blk64 = write_blocks,
    .flush = flush_image,
};

static errcode_t open_image(const char *name, int flags, io_channel *opened)
{
    (void)name;
    (void)flags;
    channel = (struct struct_io_channel){.magic = EXT2_ET_MAGIC_IO_CHANNEL, .manager = &manager, .name = "image", .block_size = 1024, .refcount = 1};
    *opened = &channel;
    return 0;
}

/* ---- the file system */

/* All but the root's are only marked. */
static void make_reserved_inodes(void)
{
    for (ext2_ino_t inode = EXT2_BAD_INO; inode < EXT2_FIRST_INODE(file_system->super); inode++)
        if (inode != EXT2_ROOT_INO)
            ext2fs_inode_alloc_stats2(file_system, inode, 1, 0);
    must(ext2fs_mkdir(file_system, EXT2_ROOT_INO, EXT2_ROOT_INO, NULL));
}

static void make_file_system(void)
{
    struct ext2_super_block asked = {.s_rev_level = EXT2_DYNAMIC_REV, .s_log_block_size = LOG_BLOCK, .s_inodes_count = INODES};
    ext2fs_set_feature_filetype(&asked);
    ext2fs_set_feature_large_file(&asked);
    ext2fs_blocks_count_set(&asked, BLOCKS);
    must(ext2fs_initialize("image", EXT2_FLAG_64BITS, &asked, &manager, &file_system));
    must(ext2fs_allocate_tables(file_system));
    make_reserved_inodes();
}

static void make_file(uint64_t size)
{
    struct ext2_inode inode = {.i_mode = LINUX_S_IFREG | 0644, .i_links_count = 1};
    ext2_ino_t number;
    must(ext2fs_new_inode(file_system, EXT2_ROOT_INO, inode.i_mode, NULL, &number));
    ext2fs_inode_alloc_stats2(file_system, number, 1, 0);
    must(ext2fs_write_new_inode(file_system, number, &inode));
    must(ext2fs_link(file_system, EXT2_ROOT_INO, "trace", number, EXT2_FT_REG_FILE));
    must(ext2fs_file_open(file_system, number, EXT2_FILE_WRITE, &file));
    must(ext2fs_file_set_size2(file, size));
}

/* ---- the peer */

static void begin(const struct work *work)
{
    image = take(IMAGE);
    memset(image, 0, IMAGE);
    initialize_ext2_error_table();
    make_file_system();
    make_file(work->size);
    must(ext2fs_flush(file_system));
}

static void seek(uint64_t offset)
{
    must(ext2fs_file_llseek(file, offset, EXT2_SEEK_SET, NULL));
}

/* A flush of the file leaves bitmaps and the superblock behind, which have changed if a block was taken. */
static void flush_write(void)
{
    must(ext2fs_file_flush(file));
    if (file_system->flags & EXT2_FLAG_DIRTY)
        must(ext2fs_flush(file_system));
}

static void write_file(const struct place *place, const uint8_t *bytes, size_t length)
{
    unsigned count;
    seek(place->offset);
    must(ext2fs_file_write(file, bytes, (unsigned)length, &count));
    if (count != length)
        give_up("ext2", "another count");
    flush_write();
}

static void read_file(const struct place *place, uint8_t *buffer, size_t length)
{
    unsigned count;
    seek(place->offset);
    must(ext2fs_file_read(file, buffer, (unsigned)length, &count));
    if (count != length)
        give_up("ext2", "another count");
}

static struct held held(void)
{
    struct ext2_super_block *super = file_system->super;
    return (struct held){(ext2fs_blocks_count(super) - ext2fs_free_blocks_count(super)) * BLOCK, IMAGE};
}

static void end(void)
{
    must(ext2fs_file_close(file));
    must(ext2fs_close(file_system));
    free(image);
}

const char *ext2_version(void)
{
    const char *version;
    ext2fs_get_library_version(&version, NULL);
    return version;
}

const struct peer ext2_in_memory = {"ext2, image in memory", false, begin, write_file, NULL, read_file, held, end};
