#define _POSIX_C_SOURCE 200809L
#include "progress.h"

#include <stdio.h>
#include <time.h>
#include <unistd.h>

static double began, told;

static double now(void)
{
    struct timespec t;
    return clock_gettime(CLOCK_MONOTONIC, &t) == 0 ? (double)t.tv_sec + 1e-9 * (double)t.tv_nsec : 0;
}

void progress(const char *units, unsigned long count, unsigned long long bytes)
{
    static int wanted = -1;
    if (wanted < 0) {
        wanted = isatty(2) && !isatty(1);
        began = now();
    }
    if (!wanted || count % 256 != 0)
        return;
    double time = now();
    if (time - began < 1 || time - told < 0.5)
        return;
    told = time;
    fprintf(stderr, "\r%lu %s, %.1f MB", count, units, (double)bytes / 1e6);
}

void progress_done(void)
{
    if (told > 0)
        fputs("\r\033[K", stderr);
    told = 0;
}
