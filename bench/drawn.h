/* The baseline held to the reference on frames that are drawn. */
#ifndef DRAWN_H
#define DRAWN_H

/* Prints how many calls were right, or the first that was not, and then ends the program. */
void hold_drawn(void);

#endif
