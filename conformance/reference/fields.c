/* The layout of a channel as one list of its named fields. */
#include "reference.h"

/* The list so far, and where the next field starts. */
typedef struct {
    unsigned count, end;
    named_field *field;
} list;

static void add(list *l, unsigned width)
{
    l->field[l->count].at = l->end;
    l->field[l->count].width = width;
    l->count++;
    l->end += width;
}

/* "check 4, tail 6". */
static void add_check_and_tail(list *l)
{
    add(l, 4);
    add(l, 6);
}

/* "Overflow, 17 bits: Spatial Reuse 4, GI+LTF 2, LTF symbols 3, LDPC extra 1, Pre-FEC 2, PE Disambiguity
 * 1, Disregard 4." */
static void add_overflow(list *l)
{
    static const unsigned width[7] = {4, 2, 3, 1, 2, 1, 4};
    for (unsigned k = 0; k < 7; k++)
        add(l, width[k]);
}

/* "RU Allocation subfields, 9 bits each .. Then check 4, tail 6." */
static void add_subfields(list *l, unsigned subfields)
{
    for (unsigned k = 0; k < subfields; k++)
        add(l, 9);
    add_check_and_tail(l);
}

/* "User blocks of two fields of 22 bits, check 4, tail 6; the last block may have one. No fields, no block." */
static void add_users(list *l, unsigned users)
{
    for (unsigned j = 0; j < users; j++) {
        add(l, 22);
        if (j % 2 == 1 || j == users - 1)
            add_check_and_tail(l);
    }
}

/* "Layout of a channel", line by line, for one with so many User fields. Returns how many fields there are. */
unsigned named_fields(unsigned bandwidth, unsigned users, named_field field[MOST_NAMED])
{
    list l = {0, 0, field};
    add_overflow(&l);
    add_subfields(&l, first_subfields(bandwidth));
    if (further_subfields(bandwidth) != 0)
        add_subfields(&l, further_subfields(bandwidth));
    add_users(&l, users);
    return l.count;
}

/* "the first bit of the field that didn't fit, meaning the smallest named in document 01's layout, a User
 * field being one" (02, T-03): the first on the list that lacks bits. Where none does, the end of the list. */
uint64_t first_that_lacks(unsigned bandwidth, unsigned users, const uint8_t *bytes, size_t length)
{
    named_field field[MOST_NAMED];
    unsigned count = named_fields(bandwidth, users, field);
    for (unsigned k = 0; k < count; k++)
        if (bits_lacking(bytes, length, field[k].at, field[k].width) != 0)
            return field[k].at;
    return field[count - 1].at + field[count - 1].width;
}
