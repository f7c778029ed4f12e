/* The check alone, timed by itself. */
#ifndef CHECK_H
#define CHECK_H

/* Holds both sides to the reference, at every width, and prints their tables. */
void print_check_alone(void);

#endif
