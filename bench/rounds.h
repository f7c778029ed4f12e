/* Two sides timed on the same work, in rounds that take turns. */
#ifndef ROUNDS_H
#define ROUNDS_H

#include <stdint.h>

enum { PROVED, FAST, SIDES };
extern const char *const side_name[SIDES];

/* Goes over the work so many times, by one side. What the calls return is added to `kept`, so that none is left out. */
typedef void passes(int side, unsigned times);
extern volatile uint64_t kept;

/* How long a round takes at least. */
extern double round_ns;

/* The best round of each side, in nanoseconds for one of the `items` of a pass, and the ratio of the first to the second, the
 * median over the rounds. */
typedef struct {
    double ns[SIDES], ratio;
} timing;

timing time_sides(passes *work, unsigned items);

/* The ratios of several sets: their geometric mean, and the worst of them. */
typedef struct {
    double logs, worst;
    unsigned sets;
} ratios;

void add_ratio(ratios *r, double ratio);
double mean_ratio(const ratios *r);

/* A table of the library and the baseline, line by line. */
void print_head(const char *what);
void print_line(const char *name, passes *work, unsigned items);

#endif
