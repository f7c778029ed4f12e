/* The entries of T-11, timed. */
#ifndef STREAMS_H
#define STREAMS_H

/* Holds both sides to the reference, and prints the table of every kind of call. */
void print_streams(void);

/* Makes so many calls of one kind, nothing printed, for counting what they execute. */
void call_streams(unsigned kind, int side, int times);

#endif
