/* cases SEED LETTER=COUNT ..: writes COUNT cases of each letter, in the order asked for. The cases of a
 * letter follow from the seed and the letter alone. */
#include "print.h"

#include <stdio.h>
#include <stdlib.h>

static const struct {
    char letter;
    void (*print)(chance *c, unsigned long k);
} kind[] = {
    {'b', print_bit}, {'f', print_field}, {'l', print_lacks}, {'d', print_difference},
    {'p', print_put}, {'c', print_check}, {'k', print_block},
    {'v', print_value}, {'m', print_wide}, {'x', print_swept}, {'r', print_row}, {'w', print_walk},
    {'R', print_read}, {'W', print_write}, {'L', print_list}, {'T', print_text}, {'s', print_cut},
};

static int usage(void)
{
    fprintf(stderr, "usage: cases SEED LETTER=COUNT ..\n");
    return 2;
}

int main(int argc, char **argv)
{
    char *end;
    unsigned long long seed;
    if (argc < 2)
        return usage();
    seed = strtoull(argv[1], &end, 10);
    if (*argv[1] == 0 || *end != 0)
        return usage();
    for (int i = 2; i < argc; i++) {
        size_t k = 0;
        unsigned long count;
        chance c;
        while (k < sizeof kind / sizeof kind[0] && kind[k].letter != argv[i][0])
            k++;
        if (k == sizeof kind / sizeof kind[0] || argv[i][1] != '=' || argv[i][2] == 0)
            return usage();
        count = strtoul(argv[i] + 2, &end, 10);
        if (*end != 0)
            return usage();
        c = chance_from(seed, (unsigned char)argv[i][0]);
        for (unsigned long n = 0; n < count; n++)
            kind[k].print(&c, n);
    }
    return fflush(stdout) == 0 ? 0 : 2;
}
