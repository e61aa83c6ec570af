/* An image: its super block, inodes, the blocks that they name, and what directories hold. */
#include <stdint.h>
#include <stdio.h>
#include <stdlib.h>
#include <string.h>

enum { BLOCK = 1024, DIRECT = 11, PER_INDEX = 256, SLOTS = 13, ENTRY = 16, NAME = 14 };
enum { UNUSED, DIRECTORY, PLAIN, DEVICE };
enum { ROOT = 1, MAGIC = 0x10203041 };
#define LONGEST ((uint64_t)BLOCK * (DIRECT + PER_INDEX + PER_INDEX * PER_INDEX))

struct image {
    uint8_t *data;
    size_t length;
    uint32_t magic, size, data_blocks, inodes, log, log_start, inode_start, bitmap_start;
};

struct inode {
    uint32_t number, kind, links, size, addresses[SLOTS];
};

struct entry {
    uint32_t number;
    char name[NAME + 1];        /* with zeros after it */
};

static inline uint32_t number_at(const uint8_t *at, int bytes)
{
    uint32_t value = 0;
    while (bytes-- > 0) value = value << 8 | at[bytes];
    return value;
}

/* The file's bytes; ends the program where it can't be read. */
static inline struct image open_image(const char *path)
{
    struct image image = {0};
    FILE *file = fopen(path, "rb");
    size_t room = 1 << 28;
    if (file == NULL || (image.data = malloc(room)) == NULL) exit(2);
    image.length = fread(image.data, 1, room, file);
    fclose(file);
    if (image.length >= 2 * BLOCK) {
        uint32_t *numbers = &image.magic;
        for (int index = 0; index < 8; index++) numbers[index] = number_at(image.data + BLOCK + 4 * index, 4);
    }
    return image;
}

static inline uint32_t data_start(const struct image *image)
{
    return image->bitmap_start + image->size / (8 * BLOCK) + 1;
}

static inline struct inode inode_of(const struct image *image, uint32_t number)
{
    const uint8_t *at = image->data + 2 * BLOCK + 64 * (size_t)number;
    struct inode inode = {number, number_at(at, 2), number_at(at + 6, 2), number_at(at + 8, 4), {0}};
    for (int slot = 0; slot < SLOTS; slot++) inode.addresses[slot] = number_at(at + 12 + 4 * slot, 4);
    return inode;
}

static inline uint32_t blocks_of(const struct inode *inode)
{
    return inode->size / BLOCK + (inode->size % BLOCK != 0);
}

/* A number of an index block; 0 of one that the image doesn't have. */
static inline uint32_t indexed(const struct image *image, uint32_t block, uint32_t at)
{
    if (block == 0 || block >= image->length / BLOCK) return 0;
    return number_at(image->data + (size_t)BLOCK * block + 4 * at, 4);
}

/* The block that holds the bytes of an inode from BLOCK * at on. */
static inline uint32_t block_at(const struct image *image, const struct inode *inode, uint32_t at)
{
    if (at < DIRECT) return inode->addresses[at];
    at -= DIRECT;
    if (at < PER_INDEX) return indexed(image, inode->addresses[DIRECT], at);
    at -= PER_INDEX;
    return indexed(image, indexed(image, inode->addresses[DIRECT + 1], at / PER_INDEX), at % PER_INDEX);
}

static inline uint32_t entries_of(const struct inode *directory)
{
    return directory->size / ENTRY;
}

static inline struct entry entry_at(const struct image *image, const struct inode *directory, uint32_t at)
{
    uint32_t block = block_at(image, directory, at * ENTRY / BLOCK);
    const uint8_t *bytes = image->data + (size_t)BLOCK * block + at * ENTRY % BLOCK;
    struct entry entry = {number_at(bytes, 2), {0}};
    memcpy(entry.name, bytes + 2, NAME);
    return entry;
}
