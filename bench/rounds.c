/* Two sides timed on the same work, in rounds that take turns. */
#define _POSIX_C_SOURCE 200809L
#include "rounds.h"

#include <math.h>
#include <stdio.h>
#include <stdlib.h>
#include <time.h>

/* Many and short: one that another program cuts into is one of many, and the median does not see it. */
#define ROUNDS 101

const char *const side_name[SIDES] = {"the library", "the baseline"};
volatile uint64_t kept;
double round_ns = 2e5;

static double now(void)
{
    struct timespec t;
    clock_gettime(CLOCK_MONOTONIC, &t);
    return 1e9 * (double)t.tv_sec + (double)t.tv_nsec;
}

/* Nanoseconds for one pass, over a round of `times` passes. */
static double round_of(passes *work, int side, unsigned times)
{
    double began = now();
    work(side, times);
    return (now() - began) / times;
}

static int by_size(const void *a, const void *b)
{
    double x = *(const double *)a, y = *(const double *)b;
    return (x > y) - (x < y);
}

/* How many passes a round of this side takes; the first pass of all is not counted, since it fills the caches. */
static unsigned passes_of(passes *work, int side)
{
    double one;
    work(side, 1);
    one = round_of(work, side, 1);
    return one < round_ns ? (unsigned)(round_ns / one) + 1 : 1;
}

/* A machine whose clock changes meanwhile changes it for both sides of most rounds. */
timing time_sides(passes *work, unsigned items)
{
    timing t = {{1e18, 1e18}, 0};
    double ratio[ROUNDS];
    unsigned times[SIDES];
    for (int side = 0; side < SIDES; side++)
        times[side] = passes_of(work, side);
    for (int r = 0; r < ROUNDS; r++) {
        double ns[SIDES];
        for (int s = 0; s < SIDES; s++) {
            int side = (r + s) % SIDES;
            ns[side] = round_of(work, side, times[side]) / items;
            t.ns[side] = ns[side] < t.ns[side] ? ns[side] : t.ns[side];
        }
        ratio[r] = ns[0] / ns[1];
    }
    qsort(ratio, ROUNDS, sizeof ratio[0], by_size);
    t.ratio = ratio[ROUNDS / 2];
    return t;
}

void add_ratio(ratios *r, double ratio)
{
    r->logs += log(ratio);
    r->worst = ratio > r->worst ? ratio : r->worst;
    r->sets++;
}

double mean_ratio(const ratios *r)
{
    return exp(r->logs / r->sets);
}

void print_head(const char *what)
{
    printf("\n%-34s %10s %10s %7s\n", what, "proved, ns", "in C, ns", "ratio");
}

void print_line(const char *name, passes *work, unsigned items)
{
    timing t = time_sides(work, items);
    printf("%-34s %10.1f %10.1f %7.2f\n", name, t.ns[PROVED], t.ns[FAST], t.ratio);
    fflush(stdout);
}
