/* The kernel's limits. */
#ifndef KERNEL_PARAM_H
#define KERNEL_PARAM_H

#define NPROC   64              /* processes */
#define NCPU    1               /* harts */
#define NOFILE  16              /* descriptors of a process */
#define NFILE   100             /* open files, of all processes together */
#define NDEV    10              /* major numbers of devices that can be opened: those below */
#define ROOTDEV 1               /* what fstat writes as dev */
#define MAXARG  32              /* words that exec takes, and the 0 after the last is one of them */
#define MAXPATH 128             /* bytes of a path, with the 0 after it */

#endif
