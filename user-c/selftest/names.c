/* mknod, mkdir, unlink, link and chdir. */
#include "check.h"

/* The calls that make a name, where none can be made. */
static void refuse_name(const char *path)
{
    WANT(mknod(path, 7, 0) == -1);
    WANT(mkdir(path) == -1);
    WANT(link("f", path) == -1);
}

void test_names_are_refused(void)
{
    fill("f", "x");
    WANT(mkdir("d") == 0);
    refuse_name("f");                           /* it is there */
    refuse_name("d");
    refuse_name("none/x");                      /* no directory */
    refuse_name("f/x");
    refuse_name("/");                           /* no last name */
    refuse_name("");
    refuse_name("///");
    refuse_name(".");
    refuse_name("..");
    refuse_name("d/.");
    refuse_name(NOWHERE);
    WANT(links_of("f") == 1 && links_of("d") == 1 && size_of("d") == 32);
    WANT(unlink("f") == 0 && unlink("d") == 0);
}

void test_mknod_cuts_numbers(void)
{
    char byte;
    WANT(call(SYS_mknod, (long)"a", 65536 + 10, 0) == 0);       /* major 10 */
    WANT(open("a", O_RDONLY) == -1);
    WANT(mknod("d", 256 + 1, 0) == 0);
    WANT(open("d", O_RDONLY) == -1);
    WANT(call(SYS_mknod, (long)"b", 65536 + 2, 65536) == 0);    /* major 2 */
    int file = open("b", O_RDWR);
    WANT(file >= 0 && read(file, &byte, 1) == -1);
    WANT(call(SYS_mknod, (long)"c", 65536 + 1, 0) == 0);        /* the console */
    file = open("c", O_RDWR);
    WANT(file >= 0 && read(file, &byte, 0) == 0);
    WANT(unlink("a") == 0 && unlink("b") == 0 && unlink("c") == 0 && unlink("d") == 0);
}

/* Slashes after the last name, and names that are cut. */
void test_names_end(void)
{
    WANT(mkdir("d//") == 0 && mkdir("d/abcdefghijklmno/") == 0);
    WANT(number_of("d/abcdefghijklmn") > 0 && mkdir("d/abcdefghijklmnopq") == -1);
    fill("f/", "x");
    WANT(link("f", "d/g/") == 0 && size_of("d/g") == 1);
    WANT(unlink("f//") == 0 && unlink("d/g") == 0);
    WANT(unlink("d/abcdefghijklmnxyz") == 0 && unlink("d/") == 0);
}

/* ---- mkdir */

void test_mkdir_makes(void)
{
    struct dirent entry;
    int above = links_of(".");
    WANT(mkdir("d") == 0);
    WANT(links_of(".") == above + 1 && links_of("d") == 1 && size_of("d") == 32);
    int file = open("d", O_RDONLY);
    WANT(read(file, &entry, 16) == 16 && entry.inum == number_of("d") && strcmp(entry.name, ".") == 0);
    WANT(read(file, &entry, 16) == 16 && entry.inum == number_of("."));
    WANT(memcmp(entry.name, "..\0\0\0\0\0\0\0\0\0\0\0\0", DIRSIZ) == 0);
    WANT(read(file, &entry, 16) == 0);
    WANT(mkdir("d/e") == 0 && links_of("d") == 2 && number_of("d/e/..") == number_of("d"));
    WANT(unlink("d/e") == 0 && links_of("d") == 1);
    WANT(unlink("d") == 0 && links_of(".") == above);
}

void test_mkdir_takes_block(void)
{
    fill("f", "");
    leave_blocks(0);
    WANT(mkdir("d") == -1);
    WANT(size_of("d") == -1);
    WANT(open("g", O_CREATE | O_RDWR) >= 0);    /* a file takes none */
    WANT(link("f", "h") == 0 && mknod("v", 7, 0) == 0);
    WANT(unlink("g") == 0 && unlink("h") == 0 && unlink("v") == 0);
    give_blocks_back();
    leave_blocks(1);
    WANT(mkdir("d") == 0);
    WANT(mkdir("e") == -1);
    WANT(unlink("d") == 0);
    WANT(mkdir("e") == 0 && unlink("e") == 0);  /* its block has come back */
    give_blocks_back();
    WANT(unlink("f") == 0);
}

/* ---- unlink */

void test_unlink_refuses(void)
{
    WANT(mkdir("d") == 0 && mkdir("d/e") == 0);
    fill("f", "x");
    WANT(unlink("none") == -1 && unlink("none/x") == -1 && unlink("f/x") == -1);
    WANT(unlink("/") == -1 && unlink("") == -1 && unlink(NOWHERE) == -1);
    WANT(unlink(".") == -1 && unlink("..") == -1 && unlink("d/e/.") == -1 && unlink("d/e/..") == -1);
    WANT(unlink("d") == -1);
    WANT(number_of("d/e") > 0 && links_of("d") == 2);
    WANT(unlink("d/e/") == 0 && unlink("d") == 0 && unlink("f") == 0);
    WANT(unlink("f") == -1);
}

/* A file goes with its last name and its last descriptor. */
void test_unlink_of_open_file(void)
{
    int blocks = blocks_free(), inodes = inodes_free();
    fill("f", "abc");
    int file = open("f", O_RDWR);
    WANT(unlink("f") == 0 && size_of("f") == -1);
    WANT(read(file, big, 3) == 3 && memcmp(big, "abc", 3) == 0);
    WANT(write(file, "d", 1) == 1);
    WANT(blocks_free() == blocks - 1 && inodes_free() == inodes - 1);
    WANT(close(file) == 0);
    WANT(blocks_free() == blocks && inodes_free() == inodes);
}

void test_unlink_of_device(void)
{
    int inodes = inodes_free();
    WANT(mknod("v", 7, 0) == 0 && inodes_free() == inodes - 1);
    WANT(unlink("v") == 0 && inodes_free() == inodes);
}

/* The first free entry is used again. */
void test_entries_are_used_again(void)
{
    struct dirent entry;
    WANT(mkdir("d") == 0);
    fill("d/a", "");
    fill("d/b", "");
    fill("d/c", "");
    WANT(unlink("d/b") == 0 && unlink("d/a") == 0);
    WANT(size_of("d") == 5 * 16);               /* a directory never gets shorter */
    fill("d/x", "");
    WANT(size_of("d") == 5 * 16);
    int file = open("d", O_RDONLY);
    WANT(read(file, big, 32) == 32);
    WANT(read(file, &entry, 16) == 16 && strcmp(entry.name, "x") == 0 && entry.inum == number_of("d/x"));
    WANT(read(file, big, 16) == 16 && is_painted(big, 16, 0));
    WANT(unlink("d/c") == 0 && unlink("d/x") == 0 && unlink("d") == 0);
}

/* ---- link */

void test_link_gives_name(void)
{
    fill("f", "abc");
    WANT(mkdir("d") == 0);
    WANT(link("f", "d/g") == 0);
    WANT(links_of("f") == 2 && number_of("d/g") == number_of("f"));
    WANT(unlink("f") == 0);
    WANT(is_text("d/g", "abc") && links_of("d/g") == 1);
    WANT(unlink("d/g") == 0 && unlink("d") == 0);
    WANT(mknod("v", 7, 0) == 0 && link("v", "w") == 0 && links_of("w") == 2);
    WANT(unlink("v") == 0 && unlink("w") == 0);
}

void test_link_refuses(void)
{
    fill("f", "x");
    WANT(mkdir("d") == 0);
    WANT(link("none", "g") == -1);
    WANT(link("d", "e") == -1 && link(".", "e") == -1);
    WANT(link("f", "f") == -1);
    WANT(link(NOWHERE, "g") == -1 && link("f", NOWHERE) == -1);
    WANT(size_of("e") == -1 && size_of("g") == -1 && links_of("f") == 1 && links_of("d") == 1);
    WANT(unlink("f") == 0 && unlink("d") == 0);
}

/* ---- chdir */

void test_chdir_goes(void)
{
    int here = number_of(".");
    WANT(mkdir("d") == 0 && chdir("d") == 0);
    WANT(number_of(".") != here && number_of("..") == here);
    fill("f", "x");
    WANT(chdir("/") == 0 && number_of(".") == ROOTINO);
    WANT(chdir("") == 0 && chdir("..") == 0 && number_of(".") == ROOTINO);
    WANT(chdir("selftest.d/d") == 0 && chdir("..") == 0 && number_of(".") == here);
    WANT(unlink("d/f") == 0 && unlink("d") == 0);
}

void test_chdir_refuses(void)
{
    int here = number_of(".");
    fill("f", "x");
    WANT(mknod("v", 7, 0) == 0);
    WANT(chdir("f") == -1 && chdir("v") == -1 && chdir("none") == -1 && chdir(NOWHERE) == -1);
    WANT(number_of(".") == here);
    WANT(unlink("f") == 0 && unlink("v") == 0);
}

/* A directory whose name is gone: nothing is found or made in it, and it goes as it is left. */
void test_chdir_leaves_removed(void)
{
    int inodes = inodes_free(), blocks = blocks_free(), here = number_of(".");
    WANT(mkdir("d") == 0 && chdir("d") == 0);
    int file = open(".", O_RDONLY);
    WANT(unlink("../d") == 0);
    WANT(open(".", O_RDONLY) == -1 && open("..", O_RDONLY) == -1 && chdir("..") == -1);
    WANT(open("x", O_CREATE | O_RDWR) == -1 && mkdir("x") == -1 && mknod("x", 7, 0) == -1);
    WANT(link("/selftest", "x") == -1);
    WANT(open("", O_RDONLY) >= 0);              /* the directory itself */
    WANT(read(file, big, 64) == 32);
    WANT(chdir("/selftest.d") == 0 && number_of(".") == here);
    WANT(inodes_free() == inodes - 1);          /* it is open */
    WANT(close(file) == 0 && close(file + 1) == 0);
    WANT(inodes_free() == inodes && blocks_free() == blocks);
}
