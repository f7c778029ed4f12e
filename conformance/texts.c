/* texts SEED COUNT COMMAND..: runs the program COMMAND on COUNT texts drawn from the seed, good and spoilt, and
 * compares what it writes with the reference. The last line is 'N passed, M failed'.
 * texts --compare SEED COUNT COMMAND..: the same with texts of two captures, for the program ehtcompare (02, T-06). */
#define _POSIX_C_SOURCE 200809L
#include "cases/print.h"
#include "reference/reference.h"

#include <stdio.h>
#include <stdlib.h>
#include <string.h>
#include <sys/wait.h>
#include <unistd.h>

static FILE *input, *output;

static void give_up(const char *why)
{
    printf("texts: %s\n0 passed, 1 failed\n", why);
    exit(2);
}

/* Runs the command with the text as standard input; returns how much of its output was kept. */
static size_t run_program(char **command, const uint8_t *text, size_t length, uint8_t *out, size_t room)
{
    int status;
    pid_t child;
    rewind(input);
    if (ftruncate(fileno(input), 0) != 0 || ftruncate(fileno(output), 0) != 0
        || fwrite(text, 1, length, input) != length || fflush(input) != 0)
        give_up("cannot write a file");
    rewind(input);
    fflush(stdout);
    child = fork();
    if (child < 0)
        give_up("cannot fork");
    if (child == 0) {
        dup2(fileno(input), 0);
        dup2(fileno(output), 1);
        lseek(0, 0, SEEK_SET);
        lseek(1, 0, SEEK_SET);
        execvp(command[0], command);
        _exit(127);
    }
    if (waitpid(child, &status, 0) != child || !WIFEXITED(status) || WEXITSTATUS(status) != 0)
        return (size_t)-1;
    rewind(output);
    return fread(out, 1, room, output);
}

#define FIXED 20 /* at most */

/* A program, the texts that a rule of 22 names, and how the others are drawn. */
typedef struct {
    char letter; /* of its case */
    size_t (*should)(const uint8_t *text, size_t length, char *out);
    size_t (*drawn)(chance *c, uint8_t text[MOST_TEXT]);
    const char *fixed[FIXED];
} program;

static const program listing = {
    'T', reference_program, draw_text,
    {"", "\n", "bw=", "bw=0\ncc1=\ncc2=\n", "bw=5\ncc1=\ncc2=\n", "bw=5\ncc1=\ncc2=\n\n", "bw=0\r\ncc1=\r\ncc2=\r\n",
     "bw=0\ncc1=\ncc2=", "cc1=\nbw=0\ncc2=\n"}};

#define GOOD "bw=0\ncc1=5FEA610050861B9AE1860400\ncc2=\n" /* examples/20-mhz.txt */

/* Every wrong line, 1 to 7; what a first capture without its last line feed runs into; captures that are refused. */
static const program comparison = {
    'D', reference_compare_program, draw_text_of_two,
    {"", "bw=0\n", "bw=0\ncc1=\n", "bw=0\ncc1=\ncc2=\n", GOOD, GOOD "bw=0\n", GOOD "bw=0\ncc1=\n", GOOD GOOD, GOOD GOOD "\n",
     GOOD GOOD GOOD, "bw=0\ncc1=\ncc2=" GOOD, GOOD "\n" GOOD, "\n" GOOD GOOD, GOOD "bw=0\ncc2=\ncc1=\n",
     "bw=7\ncc1=\ncc2=\nbw=9\ncc1=\ncc2=\n", GOOD "bw=9\ncc1=\ncc2=\n", "bw=0\r\ncc1=\r\ncc2=\r\n" GOOD}};

/* A text of just so many bytes, nearly all of them channel 2's, of the first capture or of the last. */
static size_t long_text(const program *p, size_t length, int first, uint8_t *text)
{
    static const char before[] = "bw=4\ncc1=\ncc2=", after[] = "\nbw=0\ncc1=\ncc2=\n";
    size_t head = 0;
    memset(text, 'A', length);
    if (p == &comparison && !first)
        head = (size_t)sprintf((char *)text, "bw=0\ncc1=\ncc2=\n");
    memcpy(text + head, before, sizeof before - 1);
    if (p == &comparison && first)
        memcpy(text + length - (sizeof after - 1), after, sizeof after - 1);
    text[length - 1] = '\n';
    return length;
}

/* Of two captures also the lengths about 8,192 bytes, which is no limit of theirs. */
static size_t some_text(const program *p, chance *c, unsigned long k, uint8_t text[MOST_TEXT])
{
    static const size_t lengths[] = {8191, 8192, 8193, 8194, 12000, 16383, 16384, 16385, 16386, 19000};
    unsigned long fixed = 0;
    while (p->fixed[fixed] != NULL)
        fixed++;
    if (k < fixed)
        return (size_t)sprintf((char *)text, "%s", p->fixed[k]);
    k -= fixed;
    if (p == &comparison && k < 2 * sizeof lengths / sizeof lengths[0])
        return long_text(p, lengths[k / 2], k % 2 == 0, text);
    return p->drawn(c, text);
}

int main(int argc, char **argv)
{
    static uint8_t text[MOST_TEXT], is[MOST_COMPARISON + 1];
    static char should[MOST_COMPARISON];
    const program *p = &listing;
    unsigned long passed = 0, failed = 0, accepted = 0, count;
    chance c;
    if (argc > 1 && strcmp(argv[1], "--compare") == 0) {
        p = &comparison;
        argv++;
        argc--;
    }
    if (argc < 4) {
        fprintf(stderr, "usage: texts [--compare] SEED COUNT COMMAND..\n");
        return 2;
    }
    c = chance_from(strtoull(argv[1], NULL, 10), 'P');
    count = strtoul(argv[2], NULL, 10);
    input = tmpfile();
    output = tmpfile();
    if (input == NULL || output == NULL)
        give_up("no temporary file");
    printf("texts: seed %s\n", argv[1]);
    for (unsigned long k = 0; k < count; k++) {
        size_t n = some_text(p, &c, k, text);
        size_t should_length = p->should(text, n, should);
        size_t is_length = run_program(argv + 3, text, n, is, sizeof is);
        if (is_length == should_length && memcmp(is, should, is_length) == 0) {
            passed++;
            accepted += should_length < 7 || memcmp(should, "answer=", 7) != 0 || memcmp(should, "answer=0\n", 9) == 0;
        } else if (++failed <= 5) {
            printf("texts: WRONG: ");
            print_letter(p->letter);
            print_string(text, n);
            print_end();
        }
    }
    printf("texts: %lu %s, %lu refusals\n", accepted, p == &listing ? "listings" : "comparisons", passed - accepted);
    printf("%lu passed, %lu failed\n", passed, failed);
    return failed == 0 ? 0 : 1;
}
