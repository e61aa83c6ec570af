/* copies.c IMAGE FRAMES: how many bytes the frames and the disk of a machine have, and how many microseconds each of these takes: a copy
   of it that is closed at once, memcpy of as many bytes into new memory that is freed, and into memory that is there. The least of
   several turns. */
#include "xv6.h"

#include <stdio.h>
#include <stdlib.h>
#include <string.h>
#include <time.h>

enum { TURNS = 200 };

static uint8_t image[128 << 20];

static double now(void)
{
    struct timespec at;
    clock_gettime(CLOCK_PROCESS_CPUTIME_ID, &at);
    return (double)at.tv_sec * 1e6 + (double)at.tv_nsec * 1e-3;
}

/* The least time so far. */
static void note(double *least, double started)
{
    double taken = now() - started;
    if (taken < *least) *least = taken;
}

int main(int argc, char **argv)
{
    FILE *file = argc == 3 ? fopen(argv[1], "rb") : NULL;
    size_t length = file == NULL ? 0 : fread(image, 1, sizeof image, file);
    uint32_t frames = argc == 3 ? (uint32_t)atol(argv[2]) : 0;
    size_t bytes = length + 4096 * (size_t)frames;
    struct xv6_machine machine = {NULL};
    uint8_t *one = malloc(bytes), *other = malloc(bytes);
    double copy = 1e9, anew = 1e9, there = 1e9;
    int turn;
    if (one == NULL || other == NULL || xv6_boot(image, length, frames, &machine) != 0) return 1;
    memset(one, 1, bytes);
    memset(other, 1, bytes);
    for (turn = 0; turn < TURNS; turn++) {
        struct xv6_machine copied = {NULL};
        uint8_t *fresh;
        double started = now();
        if (xv6_copy(&machine, &copied) != 0) return 1;
        xv6_close(&copied);
        note(&copy, started);
        started = now();
        fresh = malloc(bytes);
        if (fresh == NULL) return 1;
        memcpy(fresh, one, bytes);
        __asm__ volatile("" : : "r"(fresh) : "memory");
        free(fresh);
        note(&anew, started);
        started = now();
        memcpy(other, one, bytes);
        __asm__ volatile("" : : "r"(other) : "memory");
        note(&there, started);
    }
    printf("%zu %.1f %.1f %.1f\n", bytes, copy, anew, there);
    return 0;
}
