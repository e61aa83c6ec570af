/* What fstat writes: 24 bytes. */
#ifndef KERNEL_STAT_H
#define KERNEL_STAT_H

#define T_DIR    1
#define T_FILE   2
#define T_DEVICE 3

struct stat {
    int dev;                    /* the disk: always 1 */
    unsigned int ino;
    short type;
    short nlink;
    unsigned long size;         /* in bytes */
};

#endif
