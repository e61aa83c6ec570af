/* The parent waits for the first writer before it makes the second. */
#include "../c/calls.h"

int main(void)
{
    int ends[2];
    char letters[2];
    pipe(ends);
    for (int child = 0; child < 2; child++) {
        if (fork() == 0) {
            write(ends[1], child == 0 ? "a" : "b", 1);
            exit(0);
        }
        wait(0);
    }
    read(ends[0], letters, 2);
    return letters[0] == 'a' ? 1 : 2;
}
