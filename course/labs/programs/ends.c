/* ends STATUS: ends with the status. */
#include "kernel/types.h"
#include "user/user.h"

int main(int argc, char *argv[])
{
    return argc > 1 ? atoi(argv[1]) : 0;
}
