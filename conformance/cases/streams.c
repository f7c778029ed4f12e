/* Frames whose shared User fields name rows of streams (02, T-11). A User field's spatial configuration, or its NSS, stands from its
 * bit 16 on. */
#include "cases.h"

#include "../reference/reference.h"

static int is_laid_out(const frame *f, layout *l)
{
    unsigned row[16];
    row_of_frame(f, row);
    lay_out(row, positions_of(f->bandwidth), l);
    return l->outcome.number == 0;
}

static unsigned users_of(const layout *l, unsigned ch, unsigned j)
{
    const record *owning = &l->record[l->owner[ch][j]];
    return owning->fields[0] + owning->fields[1];
}

static void put_from_16(frame *f, unsigned ch, unsigned j, uint32_t bits)
{
    put_field(f->cc[ch], MOST_LENT, user_field_at(f->bandwidth, j) + 16, 6, bits);
}

/* Just past the last row of so many users, or anywhere past it. */
static uint32_t draw_past(chance *c, unsigned users)
{
    uint32_t count = count_of_rows(users);
    return one_in(c, 2) ? count : count + (uint32_t)below(c, 64 - count);
}

/* In half of the frames the fields of a resource name one row, as a sender would have it. */
void put_rows_of_streams(chance *c, frame *f)
{
    static layout l;
    uint32_t drawn[MOST_RECORDS];
    int as_one = one_in(c, 2);
    if (!is_laid_out(f, &l))
        return;
    for (unsigned r = 0; r < l.records; r++)
        drawn[r] = (uint32_t)draw(c);
    for (unsigned ch = 0; ch < 2; ch++)
        for (unsigned j = 0; j < l.fields[ch]; j++) {
            unsigned users = users_of(&l, ch, j);
            uint32_t any = as_one ? drawn[l.owner[ch][j]] : (uint32_t)draw(c);
            if (users >= 2)
                put_from_16(f, ch, j, any % count_of_rows(users));
        }
    mend_checks(f);
}

void put_configuration(frame *f, unsigned places, unsigned only, uint32_t configuration)
{
    static layout l;
    unsigned n = 0;
    if (!is_laid_out(f, &l))
        return;
    for (unsigned ch = 0; ch < 2; ch++)
        for (unsigned j = 0; j < l.fields[ch]; j++)
            if (l.record[l.owner[ch][j]].places == places && (only == ALL_FIELDS || n++ == only))
                put_from_16(f, ch, j, configuration);
    mend_checks(f);
}

void put_past_the_last(chance *c, frame *f)
{
    static layout l;
    unsigned ch = (unsigned)below(c, channels_of(f->bandwidth)), j;
    if (!is_laid_out(f, &l) || l.fields[ch] == 0)
        return;
    j = (unsigned)below(c, l.fields[ch]);
    if (users_of(&l, ch, j) >= 2)
        put_from_16(f, ch, j, draw_past(c, users_of(&l, ch, j)));
    mend_checks(f);
}

void put_nobodys(chance *c, frame *f)
{
    static layout l;
    if (!is_laid_out(f, &l))
        return;
    for (unsigned ch = 0; ch < 2; ch++)
        for (unsigned j = 0; j < l.fields[ch]; j++) {
            if (!one_in(c, 3))
                continue;
            put_field(f->cc[ch], MOST_LENT, user_field_at(f->bandwidth, j), 11, 2046);
            if (users_of(&l, ch, j) >= 2 && !one_in(c, 4))
                put_from_16(f, ch, j, draw_past(c, users_of(&l, ch, j)));
        }
    mend_checks(f);
}

void draw_streams_frame(chance *c, frame *f)
{
    draw_good_frame(c, f);
    put_rows_of_streams(c, f);
    if (one_in(c, 4))
        put_nobodys(c, f);
    if (one_in(c, 6))
        put_past_the_last(c, f);
}
