/* pour COUNT: writes that many bytes, in lines of 64. */
#include "kernel/types.h"
#include "user/user.h"

int main(int argc, char *argv[])
{
    static char line[64];
    memset(line, 'x', sizeof line - 1);
    line[sizeof line - 1] = '\n';
    int left = argc > 1 ? atoi(argv[1]) : 0;
    while (left > 0) {
        int count = left < (int)sizeof line ? left : (int)sizeof line;
        if (write(1, line, count) != count)
            return 1;
        left -= count;
    }
    return 0;
}
