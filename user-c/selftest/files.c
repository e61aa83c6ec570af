/* open, read, write, close, dup and fstat. */
#include "check.h"

/* ---- open */

void test_open_takes_lowest_descriptor(void)
{
    WANT(open("/", O_RDONLY) == 3);
    WANT(open("/", O_RDONLY) == 4);
    WANT(close(1) == 0);
    WANT(open("/", O_RDONLY) == 1);
    WANT(close(3) == 0);
    WANT(open("/", O_RDONLY) == 3);
}

void test_open_refuses_path(void)
{
    fill("f", "x");
    WANT(open("none", O_RDONLY) == -1);
    WANT(open("none/f", O_RDONLY) == -1);
    WANT(open("none/f", O_CREATE | O_RDWR) == -1);
    WANT(open("f/x", O_RDONLY) == -1);
    WANT(open("f/x", O_CREATE | O_RDWR) == -1);
    WANT(open("none", O_RDWR | O_TRUNC) == -1);
    WANT(open(NOWHERE, O_RDONLY) == -1);
    WANT(open(guard_page(), O_RDONLY) == -1);
    WANT(unlink("f") == 0);
}

/* A path with its end, and one whose end is where nothing can be read. */
void test_open_reads_path(void)
{
    char *end = page_end();
    end[-1] = 0;
    end[-2] = '/';
    WANT(open(end - 2, O_RDONLY) == 3);
    WANT(open(end - 1, O_RDONLY) == 4);         /* "": the working directory */
    end[-1] = '/';
    WANT(open(end - 2, O_RDONLY) == -1);
    WANT(open("/", O_RDONLY) == 5);
}

void test_open_limits_path(void)
{
    static char path[MAXPATH + 1];
    memset(path, '/', MAXPATH - 1);
    WANT(open(path, O_RDONLY) >= 0);            /* 127 bytes */
    path[MAXPATH - 1] = '/';
    WANT(open(path, O_RDONLY) == -1);
    WANT(mkdir(path) == -1 && chdir(path) == -1);
    WANT(open(path, O_CREATE | O_RDWR) == -1);
}

void test_open_walks_path(void)
{
    WANT(mkdir("d") == 0 && mkdir("d/e") == 0);
    fill("d/e/f", "x");
    WANT(size_of("d//e///f") == 1);
    WANT(size_of("./d/../d/e/./f") == 1);
    WANT(number_of("d/e/..") == number_of("d"));
    WANT(number_of("/..") == ROOTINO && number_of("/../.") == ROOTINO);
    WANT(size_of("d/e/f/") == 1);
    WANT(size_of("/d/e/f") == -1);
    WANT(unlink("d/e/f") == 0 && unlink("d/e") == 0 && unlink("d") == 0);
}

void test_open_cuts_names(void)
{
    fill("abcdefghijklmno", "x");
    int number = number_of("abcdefghijklmn");   /* 14 bytes */
    WANT(number > 0);
    WANT(number_of("abcdefghijklmnopq") == number);
    WANT(number_of("abcdefghijklm") == -1);
    fill("abcdefghijklm", "y");
    WANT(number_of("abcdefghijklm") != number);
    WANT(unlink("abcdefghijklmnop") == 0 && unlink("abcdefghijklm") == 0);
}

void test_open_modes(void)
{
    char byte;
    fill("f", "x");
    int file = open("f", O_RDONLY);
    WANT(read(file, &byte, 1) == 1 && write(file, "y", 1) == -1);
    file = open("f", O_WRONLY);
    WANT(read(file, &byte, 1) == -1 && write(file, "y", 1) == 1);
    file = open("f", O_RDWR);
    WANT(read(file, &byte, 1) == 1 && write(file, "z", 1) == 1);
    file = open("f", O_RDWR | O_WRONLY);        /* bit 0 alone decides on reads */
    WANT(read(file, &byte, 1) == -1 && write(file, "w", 1) == 1);
    WANT(is_text("f", "wz"));
    WANT(unlink("f") == 0);
}

void test_open_creates(void)
{
    int file = open("f", O_CREATE | O_RDWR), number = number_of("f");
    WANT(file >= 0 && size_of("f") == 0 && links_of("f") == 1);
    WANT(write(file, "abc", 3) == 3);
    file = open("f", O_CREATE | O_RDONLY);      /* it is there: it stays as it is */
    WANT(file >= 0 && size_of("f") == 3 && number_of("f") == number);
    WANT(write(file, "x", 1) == -1);
    WANT(unlink("f") == 0);
    WANT(open("f", O_CREATE) >= 0);             /* to read */
    WANT(unlink("f") == 0);
}

void test_open_empties(void)
{
    fill("f", "abc");
    WANT(open("f", O_RDONLY | O_TRUNC) >= 0);
    WANT(size_of("f") == 0);
    fill("f", "abc");
    WANT(open("f", O_WRONLY | O_TRUNC) >= 0);
    WANT(size_of("f") == 0);
    fill("f", "abc");
    WANT(open("f", O_CREATE | O_RDWR) >= 0);
    WANT(open("f", O_WRONLY) >= 0);
    WANT(size_of("f") == 3);
    WANT(unlink("f") == 0);
}

void test_open_directory(void)
{
    WANT(open("/", O_WRONLY) == -1);
    WANT(open("/", O_RDWR) == -1);
    WANT(open("/", O_TRUNC) == -1);
    WANT(open("/", O_CREATE) == -1);
    WANT(open("/", 0x1000) == -1);              /* any flag */
    WANT(call(SYS_open, (long)"/", 1L << 40, 0) == 3);  /* the low 32 bits have none */
}

void test_open_ignores_other_flags(void)
{
    char byte;
    fill("f", "abc");
    int file = open("f", 0x1000 | 0x100 | 4);
    WANT(file >= 0 && size_of("f") == 3);
    WANT(read(file, &byte, 1) == 1 && write(file, "x", 1) == -1);
    WANT(open("g", 0x1000 | 0x100 | 4) == -1);
    WANT(unlink("f") == 0);
}

void test_open_device(void)
{
    char byte;
    WANT(mknod("nine", 9, 3) == 0 && mknod("ten", 10, 0) == 0 && mknod("last", -1, 0) == 0);
    WANT(open("ten", O_RDONLY) == -1);
    WANT(open("last", O_RDONLY) == -1);
    int file = open("nine", O_CREATE | O_RDWR | O_TRUNC);
    WANT(file == 3);
    WANT(read(file, &byte, 1) == -1 && write(file, "x", 1) == -1);      /* no major but 1 can */
    WANT(read(file, &byte, 0) == -1 && write(file, "x", 0) == -1);
    WANT(mknod("null", 0, 0) == 0);
    file = open("null", O_RDWR);
    WANT(file == 4 && read(file, &byte, 1) == -1 && write(file, "x", 1) == -1);
    WANT(unlink("nine") == 0 && unlink("ten") == 0 && unlink("last") == 0 && unlink("null") == 0);
}

/* A refused open makes and empties nothing. */
static void refuse_open(void)
{
    WANT(open("f", O_RDONLY) == -1);
    WANT(open("f", O_RDWR | O_TRUNC) == -1);
    WANT(open("new", O_CREATE | O_RDWR) == -1);
}

void test_open_without_descriptor(void)
{
    fill("f", "abc");
    int last = 0;
    while (last < NOFILE - 1)
        WANT((last = dup(0)) >= 0);
    refuse_open();
    WANT(close(9) == 0);
    WANT(open("f", O_RDONLY) == 9);
    WANT(close(9) == 0);
    WANT(size_of("f") == 3 && size_of("new") == -1);
    WANT(unlink("f") == 0);
}

/* 100 open files, of all processes together; process 1 has one. */
void test_open_without_open_file(void)
{
    fill("f", "abc");
    WANT(leave_open_files(0) == NFILE - 1);
    refuse_open();
    give_open_files_back();
    WANT(size_of("f") == 3 && size_of("new") == -1);
    WANT(leave_open_files(1) == NFILE - 1);
    WANT(open("f", O_RDONLY) >= 0);
    WANT(open("f", O_RDONLY) == -1);
    give_open_files_back();
    WANT(unlink("f") == 0);
}

void test_open_without_inode(void)
{
    WANT(mkdir("d") == 0);
    leave_inodes(1);
    WANT(mkdir("d/e") == 0);
    WANT(open("d/f", O_CREATE | O_RDWR) == -1);
    WANT(mknod("d/g", 7, 0) == -1);
    WANT(mkdir("d/h") == -1);
    WANT(unlink("d/e") == 0);
    WANT(size_of("d/f") == -1 && size_of("d/g") == -1 && size_of("d/h") == -1);
    int file = open("d/f", O_CREATE | O_RDWR);
    WANT(file >= 0 && unlink("d/f") == 0);
    WANT(open("d/g", O_CREATE | O_RDWR) == -1); /* the open file has its inode */
    WANT(close(file) == 0);
    WANT(mknod("d/g", 7, 0) == 0);
    WANT(unlink("d/g") == 0);
    give_inodes_back();
    WANT(size_of("d") == 3 * 16);               /* a refusal takes no entry */
    WANT(unlink("d") == 0);
}

/* A directory whose last block is full takes a block for a name more: 64 entries are a block. */
static void fill_directory(void)
{
    static char name[] = "d/00";
    WANT(mkdir("d") == 0);
    fill("f", "");
    for (int entry = 2; entry < 64; entry++) {
        name[2] = '0' + entry / 10;
        name[3] = '0' + entry % 10;
        WANT(link("f", name) == 0);
    }
    WANT(size_of("d") == BSIZE);
}

static void empty_directory(void)
{
    static char name[] = "d/00";
    for (int entry = 2; entry < 64; entry++) {
        name[2] = '0' + entry / 10;
        name[3] = '0' + entry % 10;
        WANT(unlink(name) == 0);
    }
    WANT(unlink("f") == 0 && unlink("d") == 0);
}

void test_names_take_block(void)
{
    fill_directory();
    leave_blocks(0);
    WANT(open("d/new", O_CREATE | O_RDWR) == -1);
    WANT(mknod("d/new", 7, 0) == -1);
    WANT(link("f", "d/new") == -1);
    WANT(links_of("f") == 63 && size_of("d") == BSIZE && size_of("d/new") == -1);
    WANT(unlink("d/30") == 0);                  /* its entry needs none */
    WANT(open("d/30", O_CREATE | O_RDWR) >= 0);
    give_blocks_back();
    leave_blocks(1);
    WANT(mkdir("d/new") == -1);                 /* its own, and one for its name */
    WANT(open("d/new", O_CREATE | O_RDWR) >= 0);
    WANT(size_of("d") == BSIZE + 16);
    WANT(unlink("d/new") == 0);
    WANT(mkdir("d/new") == -1);
    give_blocks_back();
    WANT(size_of("d/new") == -1 && links_of("d") == 1);
    empty_directory();
}

void test_new_inode_is_lowest(void)
{
    fill("a", "");
    fill("b", "");
    fill("c", "");
    int first = number_of("a"), second = number_of("b");
    WANT(unlink("b") == 0 && unlink("a") == 0);
    fill("x", "");
    fill("y", "");
    WANT(number_of("x") == first && number_of("y") == second);
    WANT(unlink("c") == 0 && unlink("x") == 0 && unlink("y") == 0);
}

/* ---- read and write */

void test_read_stops_at_end(void)
{
    fill("f", "abcde");
    int file = open("f", O_RDONLY);
    WANT(read(file, big, 3) == 3 && memcmp(big, "abc", 3) == 0);
    WANT(read(file, big, 3) == 2 && memcmp(big, "de", 2) == 0);
    WANT(read(file, big, 3) == 0);
    fill("f", "abcdefg");                       /* the offset stays */
    WANT(read(file, big, 9) == 2 && memcmp(big, "fg", 2) == 0);
    WANT(unlink("f") == 0);
}

void test_write_goes_over(void)
{
    fill("f", "abcdef");
    int file = open("f", O_RDWR);
    WANT(read(file, big, 2) == 2);
    WANT(write(file, "XY", 2) == 2);
    WANT(read(file, big, 1) == 1 && big[0] == 'e');
    WANT(is_text("f", "abXYef"));
    WANT(write(file, "123", 3) == 3);
    WANT(is_text("f", "abXYe123"));
    WANT(unlink("f") == 0);
}

/* An offset past the end, since the file was emptied. */
void test_write_past_end(void)
{
    fill("f", "abcdef");
    int file = open("f", O_RDWR);
    WANT(read(file, big, 4) == 4);
    fill("f", "abc");
    WANT(write(file, "x", 1) == -1);
    WANT(read(file, big, 1) == 0);
    WANT(is_text("f", "abc"));
    fill("f", "abcd");
    WANT(write(file, "x", 1) == 1);
    WANT(is_text("f", "abcdx"));
    WANT(unlink("f") == 0);
}

/* A file with a block of numbers, a block of such blocks, and two of these: every block has its number in it. */
void test_files_are_long(void)
{
    int count = NDIRECT + 2 * NINDIRECT + 3, number = 0, free = blocks_free();
    if (free < count + index_blocks(count) + 2)
        return;
    int file = open("f", O_CREATE | O_RDWR);
    paint(big, BSIZE, 0);
    for (int block = 0; block < count; block++) {
        memmove(big + 4, &block, 4);
        WANT(write(file, big, BSIZE) == BSIZE);
    }
    WANT(size_of("f") == count * BSIZE);
    file = open("f", O_RDONLY);
    for (int block = 0; block < count; block++) {
        WANT(read(file, big, BSIZE) == BSIZE);
        memmove(&number, big + 4, 4);
        WANT(number == block && big[0] == 0 && big[BSIZE - 1] == 0);
    }
    WANT(read(file, big, 1) == 0);
    WANT(blocks_free() == free - count - index_blocks(count));
    WANT(unlink("f") == 0 && close(file) == 0 && close(file - 1) == 0);
    WANT(blocks_free() == free);
}

/* In pieces that no block's end is an end of. */
void test_write_crosses_blocks(void)
{
    int file = open("f", O_CREATE | O_RDWR), count = 0, came;
    for (int at = 0; at < 3000; at++)
        big[at] = at % 253;
    for (int piece = 1; count + piece <= 3000; count += piece, piece += 97)
        WANT(write(file, big + count, piece) == piece);
    paint(big, sizeof big, 0);
    file = open("f", O_RDONLY);
    for (int got = 0; (came = read(file, big + got, 701)) > 0; )
        got += came;
    for (int at = 0; at < count; at++)
        WANT((uchar)big[at] == at % 253);
    WANT(size_of("f") == count);
    WANT(unlink("f") == 0);
}

void test_read_refuses_descriptor(void)
{
    char byte;
    int numbers[] = { -1, 3, NOFILE, NOFILE + 1, 1 << 30, -2147483647 - 1 };
    for (int at = 0; at < 6; at++) {
        WANT(read(numbers[at], &byte, 1) == -1);
        WANT(write(numbers[at], "x", 1) == -1);
        WANT(read(numbers[at], &byte, 0) == -1);
        WANT(write(numbers[at], "x", 0) == -1);
    }
    fill("f", "abc");
    int file = open("f", O_RDWR);
    WANT(call(SYS_read, file + (1L << 40), (long)&byte, 1) == 1);
    WANT(call(SYS_write, file + (1L << 40), (long)"x", 1) == 1);
    WANT(is_text("f", "axc"));
    WANT(unlink("f") == 0);
}

void test_read_refuses_count(void)
{
    fill("f", "abc");
    int file = open("f", O_RDWR);
    WANT(read(file, big, -1) == -1 && write(file, big, -1) == -1);
    WANT(read(file, NOWHERE, 0) == 0 && write(file, NOWHERE, 0) == 0);
    WANT(read(file, NOWHERE, -1) == -1 && write(file, NOWHERE, -1) == -1);
    WANT(call(SYS_read, file, (long)big, 1 + (1L << 40)) == 1);
    WANT(call(SYS_write, file, (long)"xy", 2 + (1L << 40)) == 2);
    WANT(is_text("f", "axy"));
    WANT(unlink("f") == 0);
}

/* All of the buffer has to be there, also where fewer bytes come; a refusal moves no byte and no offset. */
void test_read_refuses_buffer(void)
{
    fill("f", "abc");
    int file = open("f", O_RDONLY);
    WANT(read(file, NOWHERE, 1) == -1);
    WANT(read(file, page_end() - 10, 11) == -1);
    WANT(read(file, guard_page() - 2, 3) == -1);
    WANT(read(file, guard_page(), 1) == -1);
    WANT(read(file, (char *)test_read_refuses_buffer, 1) == -1);
    WANT(read(file, (char *)-1L, 1) == -1);
    WANT(read(file, (char *)-2L, 4) == -1);
    WANT(read(file, page_end() - 3, 3) == 3);
    WANT(memcmp(page_end() - 3, "abc", 3) == 0);
    WANT(read(file, page_end() - 10, 11) == -1);        /* at the file's end, too */
    WANT(unlink("f") == 0);
}

void test_write_refuses_buffer(void)
{
    int file = open("f", O_CREATE | O_RDWR);
    WANT(write(file, NOWHERE, 1) == -1);
    WANT(write(file, page_end() - 10, 11) == -1);
    WANT(write(file, guard_page() - 2, 3) == -1);
    WANT(write(file, guard_page(), 1) == -1);
    WANT(write(file, (char *)-1L, 1) == -1);
    WANT(size_of("f") == 0);
    memmove(page_end() - 3, "xyz", 3);
    WANT(write(file, page_end() - 3, 3) == 3);
    WANT(is_text("f", "xyz"));
    WANT(write(file, (char *)test_write_refuses_buffer, 4) == 4);       /* instructions can be read */
    WANT(unlink("f") == 0);
}

/* A buffer in two pages. */
void test_read_crosses_pages(void)
{
    char *heap = sbrk(2 * PAGE);
    fill("f", "abcdefgh");
    paint(heap, 2 * PAGE, 0x55);
    int file = open("f", O_RDWR);
    WANT(read(file, heap + PAGE - 3, 8) == 8);
    WANT(memcmp(heap + PAGE - 3, "abcdefgh", 8) == 0);
    WANT(heap[PAGE - 4] == 0x55 && heap[PAGE + 5] == 0x55);
    WANT(write(file, heap + PAGE - 4, 3) == 3);
    WANT(is_text("f", "abcdefghUab"));
    WANT(unlink("f") == 0);
}

/* A write puts as many bytes as there are blocks for; less than all of them returns -1. */
void test_write_fills_disk(void)
{
    fill("f", "");
    int file = open("f", O_RDWR);
    leave_blocks(2);
    paint(big, sizeof big, 'x');
    WANT(write(file, big, 2 * BSIZE) == 2 * BSIZE);
    WANT(write(file, big, 1) == -1);
    WANT(size_of("f") == 2 * BSIZE);
    file = open("f", O_RDWR | O_TRUNC);
    WANT(write(file, big, 2 * BSIZE + 1) == -1);
    WANT(size_of("f") == 2 * BSIZE);
    WANT(read(file, big, 1) == 0);              /* the offset is after them */
    file = open("f", O_RDWR);
    WANT(read(file, big, sizeof big) == 2 * BSIZE && big[0] == 'x' && big[2 * BSIZE - 1] == 'x');
    file = open("f", O_RDWR | O_TRUNC);
    WANT(write(file, big, BSIZE + 7) == BSIZE + 7);
    WANT(write(file, big, BSIZE) == -1);        /* up to the block's end */
    WANT(size_of("f") == 2 * BSIZE);
    give_blocks_back();
    WANT(unlink("f") == 0);
}

/* The twelfth block of data takes another one for its number. */
void test_write_takes_index_block(void)
{
    int file = open("f", O_CREATE | O_RDWR);
    paint(big, sizeof big, 'x');
    for (int block = 0; block < NDIRECT; block++)
        WANT(write(file, big, BSIZE) == BSIZE);
    leave_blocks(1);
    WANT(write(file, big, 1) == -1);
    WANT(size_of("f") == NDIRECT * BSIZE);
    WANT(mkdir("d") == 0 && mkdir("e") == -1);  /* the one is still there */
    WANT(unlink("d") == 0);
    give_blocks_back();
    leave_blocks(2);
    WANT(write(file, big, 1) == 1);
    WANT(mkdir("d") == -1);
    WANT(size_of("f") == NDIRECT * BSIZE + 1);
    WANT(open("f", O_RDWR | O_TRUNC) >= 0);
    WANT(mkdir("d") == 0 && unlink("d") == 0);
    give_blocks_back();
    WANT(unlink("f") == 0);
}

/* ---- dup and close */

void test_dup_answers_lowest(void)
{
    WANT(close(0) == 0);
    WANT(dup(1) == 0);
    WANT(dup(1) == 3 && dup(1) == 4);
    WANT(close(3) == 0);
    WANT(dup(4) == 3);
}

void test_dup_shares_place(void)
{
    fill("f", "abc");
    int file = open("f", O_RDONLY), other = dup(file), own = open("f", O_RDONLY);
    WANT(read(file, big, 1) == 1 && read(other, big, 1) == 1 && big[0] == 'b');
    WANT(read(own, big, 1) == 1 && big[0] == 'a');
    WANT(close(file) == 0);
    WANT(read(other, big, 1) == 1 && big[0] == 'c');
    WANT(unlink("f") == 0);
}

void test_dup_refuses(void)
{
    WANT(dup(-1) == -1 && dup(3) == -1 && dup(NOFILE) == -1);
    for (int last = 0; last < NOFILE - 1; )
        WANT((last = dup(0)) >= 0);
    WANT(dup(0) == -1);
    WANT(close(7) == 0);
    WANT(call(SYS_dup, 1L << 40, 0, 0) == 7);
}

void test_close_refuses(void)
{
    WANT(close(-1) == -1 && close(3) == -1 && close(NOFILE) == -1);
    WANT(dup(0) == 3);
    WANT(call(SYS_close, 3 + (1L << 40), 0, 0) == 0);
    WANT(close(3) == -1);
    WANT(dup(0) == 3);
}

/* An open file is given up with its last descriptor, a pipe's end too. */
void test_close_gives_up_last(void)
{
    int ends[2];
    char byte;
    make_gate(ends);
    int other = dup(ends[1]);
    WANT(close(ends[1]) == 0);
    WANT(write(other, "x", 1) == 1);
    WANT(read(ends[0], &byte, 1) == 1);
    WANT(close(other) == 0);
    WANT(read(ends[0], &byte, 1) == 0);
}

/* ---- fstat */

void test_fstat_writes(void)
{
    struct { struct stat told; char more[8]; } of;
    memset(&of, 0x55, sizeof of);
    fill("f", "abc");
    WANT(fstat(open("f", O_RDONLY), &of.told) == 0);
    WANT(of.told.dev == 1 && of.told.type == T_FILE && of.told.nlink == 1 && of.told.size == 3);
    WANT(((int *)&of)[3] == 0 && of.more[0] == 0x55);
    WANT(unlink("f") == 0 && mkdir("d") == 0);
    WANT(fstat(open("d", O_RDONLY), &of.told) == 0);
    WANT(of.told.type == T_DIR && of.told.nlink == 1 && of.told.size == 32);
    WANT(unlink("d") == 0 && mknod("v", 7, 7) == 0);
    WANT(fstat(open("v", O_RDONLY), &of.told) == 0);
    WANT(of.told.type == T_DEVICE && of.told.nlink == 1 && of.told.size == 0);
    WANT(unlink("v") == 0);
    WANT(fstat(open("/", O_RDONLY), &of.told) == 0 && of.told.ino == ROOTINO);
}

/* The file has no links once its name is gone. */
void test_fstat_without_name(void)
{
    struct stat told;
    fill("f", "abc");
    int file = open("f", O_RDONLY);
    WANT(unlink("f") == 0);
    WANT(fstat(file, &told) == 0 && told.nlink == 0 && told.size == 3);
}

void test_fstat_refuses(void)
{
    struct stat told;
    int ends[2], file = open("/", O_RDONLY);
    make_gate(ends);
    WANT(fstat(ends[0], &told) == -1 && fstat(ends[1], &told) == -1);
    WANT(fstat(-1, &told) == -1 && fstat(9, &told) == -1 && fstat(NOFILE, &told) == -1);
    WANT(fstat(file, (struct stat *)NOWHERE) == -1);
    WANT(fstat(file, (struct stat *)test_fstat_refuses) == -1);
    WANT(fstat(file, (struct stat *)(page_end() - 23)) == -1);
    WANT(fstat(file, (struct stat *)(page_end() - 24)) == 0);
    WANT(call(SYS_fstat, file + (1L << 40), (long)&told, 0) == 0);
}
