/* The judge's cost on patterns with many derivations, as a ratio to a single repetition, in one run: best of several. */
#include <stdio.h>
#include <time.h>

#include "gpc.h"

enum { EDGES = 60, RUNS = 15, CALLS = 40 };

static uint8_t image[4096];
static size_t image_bytes;
static uint16_t path[2 * EDGES + 2], work[GPC_WORK_WORDS];
static uint8_t report[GPC_REPORT_BYTES];

static void put(uint16_t v)
{
    image[image_bytes++] = (uint8_t)(v & 255);
    image[image_bytes++] = (uint8_t)(v >> 8);
}

/* A line of directed edges; its record without variables is the whole line. */
static void make_line(void)
{
    uint16_t at = 16, sizes[4] = {2 * (EDGES + 1), 6 * EDGES, 0, 0};
    for (int i = 0; i < 4; i++) {
        put(at);
        put(sizes[i]);
        at = (uint16_t)(at + sizes[i]);
    }
    for (uint16_t i = 0; i <= EDGES; i++)
        put(i);
    for (uint16_t i = 0; i < EDGES; i++) {
        put(i);
        put((uint16_t)(i + 1));
        put(1);
    }
    path[0] = EDGES;
    for (uint16_t i = 0; i <= EDGES; i++) {
        path[2 * i + 1] = i;
        if (i < EDGES)
            path[2 * i + 2] = i;
    }
}

static double seconds(const uint16_t *query, size_t words)
{
    double best = 1e9;
    for (int r = 0; r < RUNS; r++) {
        struct timespec a, b;
        clock_gettime(CLOCK_MONOTONIC, &a);
        for (int i = 0; i < CALLS; i++)
            gpc_judge_record(image, image_bytes, query, words, path, 2 * EDGES + 2, work, GPC_WORK_WORDS, report, sizeof report);
        clock_gettime(CLOCK_MONOTONIC, &b);
        double t = ((double)(b.tv_sec - a.tv_sec) + 1e-9 * (double)(b.tv_nsec - a.tv_nsec)) / CALLS;
        if (t < best)
            best = t;
    }
    return best;
}

int main(void)
{
    static const uint16_t single[] = {1, GPC_TRAIL, 0, 10, 2, 0, 0, 0, 0, 8, 0, 0, 1, 65535};
    static const uint16_t either[] = {1, GPC_TRAIL, 0, 20, 2, 0, 0, 0, 0, 2, 0, 0, 0, 0, 5, 0, 1, 0, 0, 8, 2, 0, 1, 65535};
    static const uint16_t three[] = {1, GPC_TRAIL, 0, 40, 2, 0, 0, 0, 0, 8, 0, 0, 1, 65535, 2, 0, 0, 0, 0, 8, 2, 0, 1, 65535, 2, 0, 0, 0, 0,
                                     8, 4, 0, 1, 65535, 6, 1, 3, 0, 0, 6, 6, 5, 0, 0};
    make_line();
    double base = seconds(single, sizeof single / 2);
    printf("yes %d  a single repetition: %.1f us, ratio 1.0\n", report[16], 1e6 * base);
    double t = seconds(either, sizeof either / 2);
    printf("yes %d  a union of two equal parts, repeated: %.1f us, ratio %.1f\n", report[16], 1e6 * t, t / base);
    t = seconds(three, sizeof three / 2);
    printf("yes %d  three repetitions in a row: %.1f us, ratio %.1f\n", report[16], 1e6 * t, t / base);
    return 0;
}
