/* Files as programs see them. A directory is a file of entries; one with the number 0 is free. */
#ifndef KERNEL_FS_H
#define KERNEL_FS_H

#define ROOTINO   1                             /* the root directory's number */
#define BSIZE     1024                          /* bytes of a block */
#define NDIRECT   11                            /* blocks that an inode names itself, */
#define NINDIRECT (BSIZE / sizeof(unsigned int))        /* and that an index block names */
#define MAXFILE   (NDIRECT + NINDIRECT + NINDIRECT * NINDIRECT) /* blocks of the longest file */
#define DIRSIZ    14                            /* bytes of a name */

struct dirent {
    unsigned short inum;
    char name[DIRSIZ];          /* shorter ones have zeros after them */
};

#endif
