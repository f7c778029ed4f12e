/* The parts of a case line. */
#include "print.h"

#include <stdio.h>

void print_letter(char letter)
{
    putchar(letter);
}

void print_number(uint64_t number)
{
    printf(" %llu", (unsigned long long)number);
}

void print_string(const uint8_t *bytes, size_t length)
{
    fputs(length == 0 ? " -" : " ", stdout);
    for (size_t k = 0; k < length; k++)
        printf("%02X", bytes[k]);
}

void print_end(void)
{
    putchar('\n');
}
