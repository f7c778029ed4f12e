/* The entries of T-02, timed. */
#ifndef TRIGGERS_H
#define TRIGGERS_H

/* Holds both sides to the reference, and prints the table of every kind of call. */
void print_triggers(void);

/* Makes so many calls of one kind, nothing printed, for counting what they execute. */
void call_triggers(unsigned kind, int side, int times);

#endif
