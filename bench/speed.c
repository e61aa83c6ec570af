/* speed.c IMAGE STEPS: how many milliseconds a boot takes, and how many nanoseconds a step: the least of five each. */
#include "xv6.h"

#include <stdio.h>
#include <stdlib.h>
#include <time.h>

static uint8_t image[128 << 20];

static double now(void)
{
    struct timespec at;
    clock_gettime(CLOCK_PROCESS_CPUTIME_ID, &at);
    return (double)at.tv_sec + (double)at.tv_nsec * 1e-9;
}

int main(int argc, char **argv)
{
    FILE *file = argc == 3 ? fopen(argv[1], "rb") : NULL;
    size_t length = file == NULL ? 0 : fread(image, 1, sizeof image, file);
    uint32_t steps = argc == 3 ? (uint32_t)atol(argv[2]) : 0;
    double boot = 1e9, step = 1e9;
    int turn;
    for (turn = 0; turn < 5; turn++) {
        struct xv6_machine machine = {NULL};
        double started = now(), taken;
        if (xv6_boot(image, length, 256, &machine) != 0) return 1;
        taken = now() - started;
        if (taken < boot) boot = taken;
        started = now();
        if (xv6_steps(&machine, steps) != 0) return 1;
        taken = (now() - started) / steps;
        if (taken < step) step = taken;
        xv6_close(&machine);
    }
    printf("%.2f %.2f\n", boot * 1e3, step * 1e9);
    return 0;
}
