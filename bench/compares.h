/* Two frames compared (02, T-06), timed. */
#ifndef COMPARES_H
#define COMPARES_H

/* Holds both sides to the reference, and prints the table of every kind of pair. */
void print_comparisons(void);

/* Makes so many calls on a pair of one kind, nothing printed, for counting what they execute. */
void call_comparisons(unsigned kind, int side, int times);

#endif
