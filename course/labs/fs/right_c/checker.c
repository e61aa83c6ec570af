/* checker IMAGE: prints ok, or the first rule that the image breaks, as `xv6 check` does. */
#include "image.h"

typedef int rule(const struct image *image);

/* What is done with each number that an inode has for its blocks: whether its size asks for it is known. */
typedef int visit(const struct image *image, uint32_t number, int is_asked, uint8_t *named);

static int is_used(const struct image *image, uint32_t number)
{
    return number > 0 && number < image->inodes && inode_of(image, number).kind != UNUSED;
}

static int has_length(const struct image *image)
{
    return image->length >= 2 * BLOCK && image->length == (uint64_t)BLOCK * image->size;
}

static int has_magic(const struct image *image)
{
    return image->magic == MAGIC;
}

static int has_numbers(const struct image *image)
{
    return 32 <= image->size && image->size <= 131072 && 16 <= image->inodes && image->inodes <= 8192
        && image->log == 0 && image->log_start == 2 && image->inode_start == 2
        && image->bitmap_start == 2 + image->inodes / 16 + 1
        && image->data_blocks >= 1 && image->data_blocks + data_start(image) == image->size;
}

static int has_kinds(const struct image *image)
{
    for (uint32_t number = 1; number < image->inodes; number++)
        if (inode_of(image, number).kind > DEVICE) return 0;
    return inode_of(image, ROOT).kind == DIRECTORY;
}

static int fits_kind(const struct inode *inode)
{
    if (inode->kind == DIRECTORY && (inode->size < 2 * ENTRY || inode->size % ENTRY != 0)) return 0;
    return inode->size <= LONGEST && (inode->kind != DEVICE || inode->size == 0);
}

static int has_sizes(const struct image *image)
{
    for (uint32_t number = 1; number < image->inodes; number++) {
        struct inode inode = inode_of(image, number);
        if (inode.kind != UNUSED && !fits_kind(&inode)) return 0;
    }
    return 1;
}

/* ---- blocks */

/* Goes over the numbers of an index block, the first of which is for the block `first`. */
static int over_index(const struct image *image, uint32_t block, uint32_t first, uint32_t count, visit *act,
    uint8_t *named)
{
    for (uint32_t at = 0; at < PER_INDEX; at++)
        if (!act(image, indexed(image, block, at), first + at < count, named)) return 0;
    return 1;
}

static int over_leaves(const struct image *image, uint32_t block, uint32_t count, visit *act, uint8_t *named)
{
    for (uint32_t at = 0; at < PER_INDEX; at++) {
        uint32_t leaf = indexed(image, block, at), first = DIRECT + PER_INDEX + PER_INDEX * at;
        if (!act(image, leaf, first < count, named)) return 0;
        if (first < count && !over_index(image, leaf, first, count, act, named)) return 0;
    }
    return 1;
}

static int over_inode(const struct image *image, const struct inode *inode, visit *act, uint8_t *named)
{
    uint32_t count = blocks_of(inode), single = inode->addresses[DIRECT], twice = inode->addresses[DIRECT + 1];
    for (uint32_t at = 0; at < DIRECT; at++)
        if (!act(image, inode->addresses[at], at < count, named)) return 0;
    if (!act(image, single, count > DIRECT, named)) return 0;
    if (count > DIRECT && !over_index(image, single, DIRECT, count, act, named)) return 0;
    if (!act(image, twice, count > DIRECT + PER_INDEX, named)) return 0;
    return count <= DIRECT + PER_INDEX || over_leaves(image, twice, count, act, named);
}

static int over_all(const struct image *image, visit *act, uint8_t *named)
{
    for (uint32_t number = 1; number < image->inodes; number++) {
        struct inode inode = inode_of(image, number);
        if (inode.kind != UNUSED && !over_inode(image, &inode, act, named)) return 0;
    }
    return 1;
}

static int is_right_number(const struct image *image, uint32_t number, int is_asked, uint8_t *named)
{
    (void)named;
    return is_asked ? data_start(image) <= number && number < image->size : number == 0;
}

static int has_addresses(const struct image *image)
{
    return over_all(image, is_right_number, NULL);
}

/* Notes a block; 0 where it was noted before. */
static int note(const struct image *image, uint32_t number, int is_asked, uint8_t *named)
{
    (void)image;
    if (!is_asked) return 1;
    if (named[number]) return 0;
    named[number] = 1;
    return 1;
}

static int names_once(const struct image *image)
{
    uint8_t *named = calloc(image->size, 1);
    int holds = over_all(image, note, named);
    free(named);
    return holds;
}

static int is_marked(const struct image *image, uint32_t block)
{
    return image->data[BLOCK * image->bitmap_start + block / 8] >> block % 8 & 1;
}

static int has_bitmap(const struct image *image)
{
    uint8_t *named = calloc(image->size, 1);
    int holds = 1;
    over_all(image, note, named);
    for (uint32_t block = 0; block < image->size; block++)
        if (is_marked(image, block) != (block < data_start(image) || named[block])) holds = 0;
    free(named);
    return holds;
}

/* ---- names */

static int is_dots(const char *name)
{
    return strcmp(name, ".") == 0 || strcmp(name, "..") == 0;
}

static int is_name(const char *name)
{
    size_t length = strlen(name);
    for (size_t at = length; at < NAME; at++)
        if (name[at] != 0) return 0;
    return length > 0 && strchr(name, '/') == NULL && !is_dots(name);
}

static int is_free(const struct entry *entry)
{
    static const char zeros[NAME];
    return entry->number == 0 && memcmp(entry->name, zeros, NAME) == 0;
}

/* Whether no earlier entry after the first two has the same name. */
static int is_first(const struct image *image, const struct inode *directory, uint32_t at, const char *name)
{
    for (uint32_t before = 2; before < at; before++) {
        struct entry entry = entry_at(image, directory, before);
        if (!is_free(&entry) && strcmp(entry.name, name) == 0) return 0;
    }
    return 1;
}

/* The names of all inodes: how many each has, the last directory with one, and how many directories each has in it. */
struct names {
    uint32_t count[8192], parent[8192], below[8192];
};

static int count_names(const struct image *image, const struct inode *directory, struct names *names)
{
    for (uint32_t at = 2; at < entries_of(directory); at++) {
        struct entry entry = entry_at(image, directory, at);
        if (is_free(&entry)) continue;
        if (!is_used(image, entry.number) || !is_name(entry.name)) return 0;
        if (!is_first(image, directory, at, entry.name)) return 0;
        names->count[entry.number]++;
        names->parent[entry.number] = directory->number;
        names->below[directory->number] += inode_of(image, entry.number).kind == DIRECTORY;
    }
    return 1;
}

static int count_all_names(const struct image *image, struct names *names)
{
    memset(names, 0, sizeof *names);
    for (uint32_t number = 1; number < image->inodes; number++) {
        struct inode inode = inode_of(image, number);
        if (inode.kind == DIRECTORY && !count_names(image, &inode, names)) return 0;
    }
    return 1;
}

static int has_dots(const struct image *image, const struct inode *directory, uint32_t parent)
{
    struct entry own = entry_at(image, directory, 0), above = entry_at(image, directory, 1);
    return own.number == directory->number && memcmp(own.name, ".\0\0\0\0\0\0\0\0\0\0\0\0", NAME) == 0
        && above.number == parent && memcmp(above.name, "..\0\0\0\0\0\0\0\0\0\0\0", NAME) == 0;
}

static int has_entries(const struct image *image)
{
    static struct names names;
    if (!count_all_names(image, &names) || names.count[ROOT] != 0) return 0;
    names.parent[ROOT] = ROOT;
    for (uint32_t number = 1; number < image->inodes; number++) {
        struct inode inode = inode_of(image, number);
        if (inode.kind != DIRECTORY) continue;
        if (number != ROOT && names.count[number] != 1) return 0;
        if (!has_dots(image, &inode, names.parent[number])) return 0;
    }
    return 1;
}

static int has_links(const struct image *image)
{
    static struct names names;
    count_all_names(image, &names);
    for (uint32_t number = 1; number < image->inodes; number++) {
        struct inode inode = inode_of(image, number);
        uint32_t wanted = inode.kind == DIRECTORY ? 1 + names.below[number] : names.count[number];
        if (inode.kind != UNUSED && (inode.links != wanted || inode.links < 1 || inode.links > 32767)) return 0;
    }
    return 1;
}

/* Marks what is reached from a directory. */
static void reach(const struct image *image, uint32_t number, uint8_t *seen)
{
    struct inode inode = inode_of(image, number);
    if (seen[number]) return;
    seen[number] = 1;
    for (uint32_t at = 0; inode.kind == DIRECTORY && at < entries_of(&inode); at++) {
        struct entry entry = entry_at(image, &inode, at);
        if (entry.number != 0) reach(image, entry.number, seen);
    }
}

static int is_reached(const struct image *image)
{
    static uint8_t seen[8192];
    reach(image, ROOT, seen);
    for (uint32_t number = 1; number < image->inodes; number++)
        if (is_used(image, number) && !seen[number]) return 0;
    return 1;
}

/* In the order in which they are looked at: a rule needs those before it. */
static const struct {
    rule *holds;
    const char *fault;
} RULES[] = {
    {has_length, "1 Length"}, {has_magic, "2 Magic"}, {has_numbers, "3 Numbers"}, {has_kinds, "4 NodeType"},
    {has_sizes, "8 Size"}, {has_addresses, "5 Address"}, {names_once, "6 SharedBlock"}, {has_bitmap, "7 Bitmap"},
    {has_entries, "9 Entry"}, {has_links, "10 Links"}, {is_reached, "11 Unreached"},
};

int main(int argc, char *argv[])
{
    struct image image;
    if (argc < 2) return 2;
    image = open_image(argv[1]);
    for (size_t at = 0; at < sizeof RULES / sizeof *RULES; at++) {
        if (RULES[at].holds(&image)) continue;
        printf("fault %s\n", RULES[at].fault);
        return 1;
    }
    printf("ok\n");
    return 0;
}
