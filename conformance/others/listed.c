/* listed SEED COUNT: writes every resource that brachymel_list lists of COUNT frames drawn from the seed, a line for each,
 * again and again: the bandwidth code, then the line of the listing. conformance/outside runs it.
 */
#include "brachymel.h"
#include "cases/cases.h"

#include <stdio.h>
#include <stdlib.h>
#include <string.h>

int main(int argc, char **argv)
{
    static frame f;
    static char text[BRACHYMEL_LISTING_SIZE + 1];
    chance c;
    if (argc != 3) {
        fprintf(stderr, "usage: listed SEED COUNT\n");
        return 2;
    }
    c = chance_from(strtoull(argv[1], NULL, 10), 'O');
    for (unsigned long n = strtoul(argv[2], NULL, 10); n > 0; n--) {
        brachymel_answer a;
        draw_good_frame(&c, &f);
        a = brachymel_list(f.bandwidth, f.cc[0], f.length[0], f.cc[1], f.length[1], (uint8_t *)text, BRACHYMEL_LISTING_SIZE);
        text[a.number == 0 ? a.place : 0] = 0;
        for (char *line = strtok(text, "\n"); line != NULL; line = strtok(NULL, "\n"))
            if (strncmp(line, "ru=", 3) == 0)
                printf("bw=%u %s\n", (unsigned)f.bandwidth, line);
    }
    return fflush(stdout) == 0 ? 0 : 2;
}
