/* The console of the first process, which begins without descriptors. */
#ifndef CONSOLE_H
#define CONSOLE_H

#include "calls.h"

/* Opens it as descriptors 0, 1 and 2. */
static inline void open_console(void)
{
    if (open("console", READ_WRITE) < 0) {      /* there is none yet on an image that was just made */
        mknod("console", 1, 0);
        open("console", READ_WRITE);
    }
    dup(0);
    dup(0);
}

#endif
