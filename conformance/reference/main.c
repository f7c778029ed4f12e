/* reference: reads case lines on standard input and writes one line for each.
 * reference --program: reads a text and writes what the program ehtsig should.
 * reference --compare: reads a text of two captures and writes what the program ehtcompare should.
 * reference --self-test: holds the reference to 01's bench checks and to 004's example.
 * conformance/README.md has the form of a case. */
#include "reference.h"

#include <stdio.h>
#include <stdlib.h>
#include <string.h>

#define LONGEST_LINE 200000
#define MOST_ARGUMENTS 32

/* A case that is not of the agreed form is a fault of whoever wrote it: nothing is guessed. */
static void wrong_case(unsigned long line, const char *why)
{
    fprintf(stderr, "reference: case %lu: %s\n", line, why);
    exit(2);
}

static unsigned long line_number;
static char *argument[MOST_ARGUMENTS];
static int arguments;

static void split(char *text)
{
    arguments = 0;
    for (;;) {
        char *space = strchr(text, ' ');
        if (arguments == MOST_ARGUMENTS)
            wrong_case(line_number, "too many arguments");
        argument[arguments++] = text;
        if (space == NULL)
            return;
        *space = 0;
        text = space + 1;
    }
}

static void want(int count)
{
    if (arguments != count)
        wrong_case(line_number, "not as many arguments as its letter needs");
}

static uint64_t number(int i)
{
    uint64_t value = 0;
    const char *c = argument[i];
    if (*c == 0 || strlen(c) > 19)
        wrong_case(line_number, "a number is empty or too long");
    for (; *c != 0; c++) {
        if (*c < '0' || *c > '9')
            wrong_case(line_number, "a number that is not decimal");
        value = value * 10 + (uint64_t)(*c - '0');
    }
    return value;
}

static unsigned hex_digit(char c)
{
    if (c >= '0' && c <= '9')
        return (unsigned)(c - '0');
    if (c >= 'A' && c <= 'F')
        return (unsigned)(c - 'A') + 10;
    wrong_case(line_number, "a byte string that is not of capital hex digits");
    return 0;
}

/* A string is kept in memory of exactly its length, so that a tool that watches memory sees any
 * step past its end. */
typedef struct {
    uint8_t *bytes;
    size_t length;
} string;

static string string_of(int i)
{
    string s;
    const char *c = argument[i];
    if (strcmp(c, "-") == 0)
        c = "";
    else if (*c == 0)
        wrong_case(line_number, "an empty byte string is written -");
    if (strlen(c) % 2 != 0)
        wrong_case(line_number, "an odd number of hex digits");
    s.length = strlen(c) / 2;
    s.bytes = malloc(s.length + (s.length == 0));
    if (s.bytes == NULL)
        wrong_case(line_number, "no memory");
    for (size_t k = 0; k < s.length; k++)
        s.bytes[k] = (uint8_t)(hex_digit(c[2 * k]) << 4 | hex_digit(c[2 * k + 1]));
    return s;
}

static void print_bytes(const uint8_t *bytes, size_t length)
{
    if (length == 0)
        fputs("-", stdout);
    for (size_t k = 0; k < length; k++)
        printf("%02X", bytes[k]);
}

static unsigned width(int i)
{
    uint64_t n = number(i);
    if (n > 25)
        wrong_case(line_number, "a field wider than 25");
    return (unsigned)n;
}

static void case_bit(void)
{
    want(3);
    string s = string_of(1);
    printf("%u", bit_of(s.bytes, s.length, number(2)));
    free(s.bytes);
}

static void case_field(void)
{
    want(4);
    string s = string_of(1);
    printf("%lu", (unsigned long)field_of(s.bytes, s.length, number(2), width(3)));
    free(s.bytes);
}

static void case_lacks(void)
{
    want(4);
    string s = string_of(1);
    printf("%llu", (unsigned long long)bits_lacking(s.bytes, s.length, number(2), number(3)));
    free(s.bytes);
}

static void case_difference(void)
{
    want(5);
    string s = string_of(1), t = string_of(2);
    printf("%llu", (unsigned long long)first_difference(s.bytes, s.length, t.bytes, t.length,
                                                        number(3), number(4)));
    free(s.bytes);
    free(t.bytes);
}

static void case_put(void)
{
    want(5);
    string s = string_of(1);
    put_field(s.bytes, s.length, number(2), width(3), (uint32_t)number(4));
    print_bytes(s.bytes, s.length);
    free(s.bytes);
}

static void case_check(void)
{
    want(4);
    string s = string_of(1);
    printf("%u", check_of(s.bytes, s.length, number(2), number(3)));
    free(s.bytes);
}

static void case_block(void)
{
    want(4);
    string s = string_of(1);
    printf("%d", block_is_right(s.bytes, s.length, number(2), number(3)));
    free(s.bytes);
}

static uint8_t *room_for(size_t bytes)
{
    uint8_t *room = malloc(bytes + (bytes == 0));
    if (room == NULL)
        wrong_case(line_number, "no memory");
    memset(room, 0xA5, bytes);
    return room;
}

static uint32_t number_32(int i)
{
    uint64_t n = number(i);
    if (n > 0xFFFFFFFF)
        wrong_case(line_number, "a number of more than 32 bits");
    return (uint32_t)n;
}

static uint32_t bandwidth(int i)
{
    return number_32(i);
}

static void print_answer(answer a)
{
    printf("%lu %lu %llu", (unsigned long)a.number, (unsigned long)a.channel, (unsigned long long)a.place);
}

static void case_row(void)
{
    static layout l;
    unsigned row[MOST_POSITIONS], positions = (unsigned)arguments - 1;
    if (positions != 1 && positions != 2 && positions != 4 && positions != 8 && positions != 16)
        wrong_case(line_number, "a row of 1, 2, 4, 8 or 16 values");
    for (unsigned p = 0; p < positions; p++)
        row[p] = (unsigned)number((int)p + 1);
    lay_out(row, positions, &l);
    print_answer(l.outcome);
    if (l.outcome.number != 0)
        return;
    for (unsigned k = 0; k < l.records; k++) {
        const record *x = &l.record[k];
        char text[200];
        tones_text(x, positions, text);
        printf(" | %s %u %u %u %u %u %s", name_of_size[x->size], x->index, x->segment, x->position,
               x->fields[0], x->fields[1], text);
    }
    printf(" ;");
    for (unsigned c = 0; c < 2; c++)
        for (unsigned j = 0; j < l.fields[c]; j++)
            printf(" %u", l.owner[c][j] + 1);
}

/* One channel, field by field: "Overflow, 17 bits", its subfields and its User fields, up to the padding. */
static void case_walk(void)
{
    want(3);
    string s = string_of(2);
    uint32_t bw = bandwidth(1);
    unsigned fields = 0, end, values[8] = {0};
    uint64_t lacking;
    if (bw > 4)
        wrong_case(line_number, "a channel of a bandwidth code above 4");
    for (unsigned k = 0; k < subfields_of(bw); k++) {
        values[k] = field_of(s.bytes, s.length, subfield_at(bw, k), 9);
        fields += fields_of(values[k]);
    }
    end = end_of_channel(bw, fields);
    lacking = bits_lacking(s.bytes, s.length, 0, common_bits(bw));
    if (lacking == 0)
        lacking = bits_lacking(s.bytes, s.length, 0, end);
    printf("%lu %u %u %llu", (unsigned long)field_of(s.bytes, s.length, 0, 17), fields, end,
           (unsigned long long)lacking);
    for (unsigned k = 0; k < 8; k++)
        printf(" %u", values[k]);
    printf(" ;");
    for (unsigned j = 0; j < fields; j++)
        printf(" %lu", (unsigned long)field_of(s.bytes, s.length, user_field_at(bw, j), 22));
    free(s.bytes);
}

static void case_read(void)
{
    want(5);
    string s = string_of(2), t = string_of(3);
    size_t room = (size_t)number(4);
    uint32_t *words = (uint32_t *)room_for(4 * room);
    print_answer(reference_read(bandwidth(1), s.bytes, s.length, t.bytes, t.length, words, room));
    for (size_t k = 0; k < room && k < 160; k++)
        printf(" %08lX", (unsigned long)words[k]);
    free(words);
    free(s.bytes);
    free(t.bytes);
}

static void case_write(void)
{
    want(5);
    string w = string_of(2);
    size_t room_1 = (size_t)number(3), room_2 = (size_t)number(4);
    uint8_t *cc1 = room_for(room_1), *cc2 = room_for(room_2);
    print_answer(reference_write_bytes(bandwidth(1), w.bytes, w.length, cc1, room_1, cc2, room_2));
    putchar(' ');
    print_bytes(cc1, room_1);
    putchar(' ');
    print_bytes(cc2, room_2);
    free(cc1);
    free(cc2);
    free(w.bytes);
}

static void case_list(void)
{
    want(5);
    string s = string_of(2), t = string_of(3);
    size_t room = (size_t)number(4);
    uint8_t *text = room_for(room);
    answer a = reference_list(bandwidth(1), s.bytes, s.length, t.bytes, t.length, text, room);
    print_answer(a);
    putchar(' ');
    print_bytes(text, a.number == 0 ? (size_t)a.place : 0);
    free(text);
    free(s.bytes);
    free(t.bytes);
}

static void case_compare(void)
{
    want(8);
    string s = string_of(2), t = string_of(3), other_s = string_of(5), other_t = string_of(6);
    size_t room = (size_t)number(7);
    uint8_t *text = room_for(room);
    print_answer(reference_compare(bandwidth(1), s.bytes, s.length, t.bytes, t.length, bandwidth(4), other_s.bytes,
                                   other_s.length, other_t.bytes, other_t.length, text, room));
    putchar(' ');
    print_bytes(text, room);
    free(text);
    free(s.bytes);
    free(t.bytes);
    free(other_s.bytes);
    free(other_t.bytes);
}

/* All that a program writes of a text. */
typedef size_t program(const uint8_t *text, size_t length, char *out);

static void case_text(program *p)
{
    static char out[MOST_COMPARISON];
    want(2);
    string t = string_of(1);
    print_bytes((const uint8_t *)out, p(t.bytes, t.length, out));
    free(t.bytes);
}

/* A call of T-02: bytes in, and the room they go to as it is afterwards. */
static void case_trigger(answer call(uint32_t, const uint8_t *, size_t, uint8_t *, size_t))
{
    want(4);
    string s = string_of(2);
    size_t room = (size_t)number(3);
    uint8_t *out = room_for(room);
    print_answer(call(bandwidth(1), s.bytes, s.length, out, room));
    putchar(' ');
    print_bytes(out, room);
    free(out);
    free(s.bytes);
}

static void case_streams_row(void)
{
    want(4);
    size_t room = (size_t)number(3);
    uint8_t *row = room_for(room);
    print_answer(reference_streams_row(number_32(1), number_32(2), row, room));
    putchar(' ');
    print_bytes(row, room);
    free(row);
}

static void case_streams_number(void)
{
    want(2);
    string row = string_of(1);
    print_answer(reference_streams_number(row.bytes, row.length));
    free(row.bytes);
}

static void case_streams(void)
{
    want(5);
    string s = string_of(2), t = string_of(3);
    size_t room = (size_t)number(4);
    uint8_t *streams = room_for(room);
    print_answer(reference_streams(bandwidth(1), s.bytes, s.length, t.bytes, t.length, streams, room));
    putchar(' ');
    print_bytes(streams, room);
    free(streams);
    free(s.bytes);
    free(t.bytes);
}

static void run_case(char *line)
{
    split(line);
    if (strlen(argument[0]) != 1)
        wrong_case(line_number, "a case starts with one letter");
    switch (argument[0][0]) {
    case 'b': case_bit(); break;
    case 'f': case_field(); break;
    case 'l': case_lacks(); break;
    case 'd': case_difference(); break;
    case 'p': case_put(); break;
    case 'c': case_check(); break;
    case 'k': case_block(); break;
    case 'r': case_row(); break;
    case 'w': case_walk(); break;
    case 'R': case_read(); break;
    case 'W': case_write(); break;
    case 'L': case_list(); break;
    case 'C': case_compare(); break;
    case 'T': case_text(reference_program); break;
    case 'D': case_text(reference_compare_program); break;
    case 't': case_trigger(reference_trigger_read); break;
    case 'u': case_trigger(reference_trigger_write); break;
    case 'o': case_trigger(reference_trigger_overlaps); break;
    case 'n': case_streams_row(); break;
    case 'i': case_streams_number(); break;
    case 'N': case_streams(); break;
    default: wrong_case(line_number, "a letter that names no case");
    }
    putchar('\n');
}

static int as_program(program *p)
{
    static uint8_t text[2 * MOST_CAPTURE + 1]; /* a longer text is as wrong as one of this length */
    static char out[MOST_COMPARISON];
    size_t n = fread(text, 1, sizeof text, stdin);
    n = p(text, n, out);
    return fwrite(out, 1, n, stdout) == n && fflush(stdout) == 0 ? 0 : 2;
}

int main(int argc, char **argv)
{
    static char line[LONGEST_LINE];
    if (argc == 2 && strcmp(argv[1], "--self-test") == 0)
        return self_test();
    if (argc == 2 && strcmp(argv[1], "--program") == 0)
        return as_program(reference_program);
    if (argc == 2 && strcmp(argv[1], "--compare") == 0)
        return as_program(reference_compare_program);
    if (argc != 1) {
        fprintf(stderr, "usage: reference <cases, reference --program <text, reference --compare <two captures, or "
                        "reference --self-test\n");
        return 2;
    }
    while (fgets(line, sizeof line, stdin) != NULL) {
        char *end = strchr(line, '\n');
        line_number++;
        if (end == NULL)
            wrong_case(line_number, "a line too long, or without its line feed");
        *end = 0;
        run_case(line);
    }
    return ferror(stdin) || fflush(stdout) != 0 ? 2 : 0;
}
