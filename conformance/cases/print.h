/* One case a line: a letter, then arguments, one space before each (conformance/README.md). */
#ifndef PRINT_H
#define PRINT_H

#include "cases.h"

void print_letter(char letter);
void print_number(uint64_t number);
void print_string(const uint8_t *bytes, size_t length);
void print_end(void);

/* Each prints one case; k counts the cases of its letter from 0. bits.c: */
void print_bit(chance *c, unsigned long k);
void print_field(chance *c, unsigned long k);
void print_lacks(chance *c, unsigned long k);
void print_difference(chance *c, unsigned long k);
void print_put(chance *c, unsigned long k);
void print_check(chance *c, unsigned long k);
void print_block(chance *c, unsigned long k);

/* whole.c: */
void print_frame(char letter, const frame *f, size_t room);
void print_pair(const frame *x, const frame *y, size_t room);
void print_words(const words_case *w);
void print_value(chance *c, unsigned long k);
void print_wide(chance *c, unsigned long k);
void print_swept(chance *c, unsigned long k);
void print_row(chance *c, unsigned long k);
void print_walk(chance *c, unsigned long k);
void print_read(chance *c, unsigned long k);
void print_cut(chance *c, unsigned long k);
void print_write(chance *c, unsigned long k);
void print_list(chance *c, unsigned long k);
void print_text(chance *c, unsigned long k);

#endif
