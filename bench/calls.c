/* Calls the library so many times on one request, and tells the time of a call and how memory grows.
 *
 *     calls COUNT REQUEST
 *
 * Memory is the largest resident set after the first thousandth of the calls, and after all. */
#include "hencredenza.h"

#include <stdio.h>
#include <stdlib.h>
#include <sys/resource.h>
#include <time.h>

static char request[1 << 20], line[1 << 20];

static long peak(void)
{
    struct rusage usage;
    getrusage(RUSAGE_SELF, &usage);
    return usage.ru_maxrss;
}

static double now(void)
{
    struct timespec time;
    clock_gettime(CLOCK_MONOTONIC, &time);
    return time.tv_sec + time.tv_nsec / 1e9;
}

int main(int count, char **words)
{
    long calls = count == 3 ? atol(words[1]) : 0;
    FILE *file = calls > 0 ? fopen(words[2], "rb") : NULL;
    if (file == NULL)
        return 2;
    size_t length = fread(request, 1, sizeof request, file);
    fclose(file);
    long early = 0;
    double begin = now();
    for (long i = 0; i < calls; i++) {
        size_t written;
        if (hencredenza_run("answer", 6, request, length, line, sizeof line, &written) != HENCREDENZA_DONE)
            return 1;
        if (i == calls / 1000)
            early = peak();
    }
    printf("%ld calls, %.2f microseconds each; peak %ld KiB after %ld calls, %ld KiB after all\n", calls,
           (now() - begin) / calls * 1e6, early, calls / 1000 + 1, peak());
    return 0;
}
