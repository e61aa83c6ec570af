/* reader IMAGE: lists all directories, as `xv6 ls -R IMAGE /` does. reader IMAGE PATH: writes a file's bytes. */
#include "image.h"

/* Whether an entry leads to a directory below, which it puts into `below`. */
static int leads_down(const struct image *image, const struct entry *entry, struct inode *below)
{
    *below = inode_of(image, entry->number);
    return below->kind == DIRECTORY && strcmp(entry->name, ".") != 0 && strcmp(entry->name, "..") != 0;
}

/* The lines of a directory, and of those below it. */
static void list(const struct image *image, const char *path, const struct inode *directory)
{
    struct inode named;
    printf("%s:\n", path);
    for (uint32_t at = 0; at < entries_of(directory); at++) {
        struct entry entry = entry_at(image, directory, at);
        if (entry.number == 0) continue;
        named = inode_of(image, entry.number);
        printf("%-14s %u %5u %6u\n", entry.name, named.kind, named.number, named.size);
    }
    for (uint32_t at = 0; at < entries_of(directory); at++) {
        struct entry entry = entry_at(image, directory, at);
        char below[4096];
        if (entry.number == 0 || !leads_down(image, &entry, &named)) continue;
        snprintf(below, sizeof below, "%s/%s", strcmp(path, "/") == 0 ? "" : path, entry.name);
        printf("\n");
        list(image, below, &named);
    }
}

/* The inode of a name in a directory; its number is 0 where there is none. */
static struct inode look_up(const struct image *image, const struct inode *directory, const char *name, size_t length)
{
    struct inode none = {0};
    for (uint32_t at = 0; directory->kind == DIRECTORY && at < entries_of(directory); at++) {
        struct entry entry = entry_at(image, directory, at);
        int is_same = strlen(entry.name) == length && memcmp(entry.name, name, length) == 0;
        if (entry.number != 0 && is_same) return inode_of(image, entry.number);
    }
    return none;
}

/* The inode of a path from the root. */
static struct inode find(const struct image *image, const char *path)
{
    struct inode inode = inode_of(image, ROOT);
    while (inode.number != 0 && *path != 0) {
        size_t length = strcspn(path, "/");
        if (length > 0) inode = look_up(image, &inode, path, length);
        path += length + (path[length] == '/');
    }
    return inode;
}

static void write_out(const struct image *image, const struct inode *inode)
{
    for (uint32_t at = 0; at < blocks_of(inode); at++) {
        uint32_t left = inode->size - BLOCK * at;
        const uint8_t *bytes = image->data + (size_t)BLOCK * block_at(image, inode, at);
        fwrite(bytes, 1, left < BLOCK ? left : BLOCK, stdout);
    }
}

int main(int argc, char *argv[])
{
    struct image image;
    struct inode found;
    if (argc < 2) return 2;
    image = open_image(argv[1]);
    found = argc == 2 ? inode_of(&image, ROOT) : find(&image, argv[2]);
    if (argc == 2) {
        list(&image, "/", &found);
        return 0;
    }
    if (found.number == 0 || found.kind != PLAIN) {
        fprintf(stderr, "%s: there is no such file\n", argv[2]);
        return 1;
    }
    write_out(&image, &found);
    return 0;
}
