/* linux SEED COUNT: holds the words that brachymel_read writes of COUNT accepted frames, drawn from the seed, to the structure
 * and the masks that Linux's include/net/ieee80211_radiotap.h names. Under each mask has to lie what the frame carries, and
 * outside of all of them nothing, but for two bits of a User word that Linux does not name. The last line is 'N passed, M
 * failed'. conformance/outside runs it.
 */
#include "brachymel.h"
#include "cases/cases.h"
#include "reference/reference.h"

#include <stdio.h>
#include <stdlib.h>

#define __le32 uint32_t
#define __packed __attribute__((packed))
#include "eht.h" /* Linux's, without the rest of its header: conformance/outside cuts it out */

typedef struct ieee80211_radiotap_eht eht;

static unsigned long passed, failed;
static uint32_t word, named; /* the word at hand, and what of it was named */

static void hold(const char *what, uint32_t should, uint32_t is)
{
    if (should == is) {
        passed++;
        return;
    }
    failed++;
    if (failed <= 20)
        printf("linux: WRONG: %s is %lX, the frame has %lX\n", what, (unsigned long)is, (unsigned long)should);
}

static void hold_masked(const char *name, uint32_t mask, uint32_t should)
{
    named |= mask;
    hold(name, should, (word & mask) / (mask & -mask));
}
#define HOLD(name, should) hold_masked(#name, IEEE80211_RADIOTAP_EHT_##name, should)

static void begin(const uint8_t *words, size_t at)
{
    word = field_of(words, BRACHYMEL_WORDS_SIZE, 8 * (uint64_t)at, 32);
    named = 0;
}

static void hold_rest(uint32_t should)
{
    hold("what Linux does not name", should, word & ~named);
}

static uint32_t sent(const frame *f, unsigned ch, uint64_t at, unsigned width)
{
    return field_of(f->cc[ch], f->length[ch], at, width);
}

/* The known word: an OFDMA frame's fields, the second check and tail where there are any. */
static void hold_known(unsigned bandwidth)
{
    uint32_t second = further_subfields(bandwidth) != 0;
    HOLD(KNOWN_SPATIAL_REUSE, 1);
    HOLD(KNOWN_GI, 1);
    HOLD(KNOWN_EHT_LTF, 1);
    HOLD(KNOWN_LDPC_EXTRA_SYM_OM, 1);
    HOLD(KNOWN_PRE_PADD_FACOR_OM, 1);
    HOLD(KNOWN_PE_DISAMBIGUITY_OM, 1);
    HOLD(KNOWN_DISREGARD_O, 1);
    HOLD(KNOWN_DISREGARD_S, 0);
    HOLD(KNOWN_CRC1, 1);
    HOLD(KNOWN_TAIL1, 1);
    HOLD(KNOWN_CRC2_O, second);
    HOLD(KNOWN_TAIL2_O, second);
    HOLD(KNOWN_NSS_S, 0);
    HOLD(KNOWN_BEAMFORMED_S, 0);
    HOLD(KNOWN_NR_NON_OFDMA_USERS_M, 0);
    HOLD(KNOWN_ENCODING_BLOCK_CRC_M, 0);
    HOLD(KNOWN_ENCODING_BLOCK_TAIL_M, 0);
    HOLD(KNOWN_RU_MRU_SIZE_OM, 0);
    HOLD(KNOWN_RU_MRU_INDEX_OM, 0);
    HOLD(KNOWN_RU_ALLOC_TB_FMT, 0);
    HOLD(KNOWN_PRIMARY_80, 0);
}

/* The overflow, and the first check and tail, of channel 1. GI: 0.8, 1.6 or 3.2 us; LTF: 2 is 2x, 3 is 4x. */
static void hold_data0(const frame *f)
{
    static const uint32_t gi[4] = {0, 1, 0, 2}, ltf[4] = {2, 2, 3, 3};
    unsigned check = first_check_at(f->bandwidth);
    HOLD(DATA0_SPATIAL_REUSE, sent(f, 0, 0, 4));
    HOLD(DATA0_GI, gi[sent(f, 0, 4, 2)]);
    HOLD(DATA0_LTF, ltf[sent(f, 0, 4, 2)]);
    HOLD(DATA0_EHT_LTF, sent(f, 0, 6, 3));
    HOLD(DATA0_LDPC_EXTRA_SYM_OM, sent(f, 0, 9, 1));
    HOLD(DATA0_PRE_PADD_FACOR_OM, sent(f, 0, 10, 2));
    HOLD(DATA0_PE_DISAMBIGUITY_OM, sent(f, 0, 12, 1));
    HOLD(DATA0_DISREGARD_S, sent(f, 0, 13, 2)); /* the lower half of the next, in sounding frames alone */
    HOLD(DATA0_DISREGARD_O, sent(f, 0, 13, 4));
    HOLD(DATA0_CRC1_O, sent(f, 0, check, 4));
    HOLD(DATA0_TAIL1_O, sent(f, 0, check + 4, 6));
}

/* An RU Allocation subfield by Linux's name: the channel, the first subfields or the further ones, its number among these. */
static void hold_allocation(const frame *f, const char *name, uint32_t mask, uint32_t known, unsigned channel, unsigned group,
                            unsigned number)
{
    unsigned first = first_subfields(f->bandwidth), there = group == 1 ? first : further_subfields(f->bandwidth);
    unsigned k = (group == 1 ? 0 : first) + number - 1;
    int carried = channel <= channels_of(f->bandwidth) && number <= there;
    hold_masked(name, mask, carried ? sent(f, channel - 1, subfield_at(f->bandwidth, k), 9) : 0);
    hold_masked(name, known, (uint32_t)carried);
}
#define ALLOCATION(data, channel, group, number)                                                             \
    hold_allocation(f, "RU_ALLOC_CC_" #channel "_" #group "_" #number,                                       \
                    IEEE80211_RADIOTAP_EHT_DATA##data##_RU_ALLOC_CC_##channel##_##group##_##number,         \
                    IEEE80211_RADIOTAP_EHT_DATA##data##_RU_ALLOC_CC_##channel##_##group##_##number##_KNOWN, \
                    channel, group, number)

static void hold_data(const frame *f, unsigned k)
{
    unsigned check = second_check_at(f->bandwidth);
    int second = further_subfields(f->bandwidth) != 0;
    switch (k) {
    case 0:
        hold_data0(f);
        break;
    case 1:
        HOLD(DATA1_RU_SIZE, 0);
        HOLD(DATA1_RU_INDEX, 0);
        ALLOCATION(1, 1, 1, 1);
        HOLD(DATA1_PRIMARY_80, 0);
        break;
    case 2:
        ALLOCATION(2, 2, 1, 1);
        ALLOCATION(2, 1, 1, 2);
        ALLOCATION(2, 2, 1, 2);
        break;
    case 3:
        ALLOCATION(3, 1, 2, 1);
        ALLOCATION(3, 2, 2, 1);
        ALLOCATION(3, 1, 2, 2);
        break;
    case 4:
        ALLOCATION(4, 2, 2, 2);
        ALLOCATION(4, 1, 2, 3);
        ALLOCATION(4, 2, 2, 3);
        break;
    case 5:
        ALLOCATION(5, 1, 2, 4);
        ALLOCATION(5, 2, 2, 4);
        ALLOCATION(5, 1, 2, 5);
        break;
    case 6:
        ALLOCATION(6, 2, 2, 5);
        ALLOCATION(6, 1, 2, 6);
        ALLOCATION(6, 2, 2, 6);
        break;
    case 7:
        HOLD(DATA7_CRC2_O, second ? sent(f, 0, check, 4) : 0);
        HOLD(DATA7_TAIL_2_O, second ? sent(f, 0, check + 4, 6) : 0);
        HOLD(DATA7_NSS_S, 0);
        HOLD(DATA7_BEAMFORMED_S, 0);
        HOLD(DATA7_NUM_OF_NON_OFDMA_USERS, 0);
        HOLD(DATA7_USER_ENCODING_BLOCK_CRC, 0);
        HOLD(DATA7_USER_ENCODING_BLOCK_TAIL, 0);
        break;
    default:
        HOLD(DATA8_RU_ALLOC_TB_FMT_PS_160, 0);
        HOLD(DATA8_RU_ALLOC_TB_FMT_B0, 0);
        HOLD(DATA8_RU_ALLOC_TB_FMT_B7_B1, 0);
    }
}

/* A User field: "alone on its resource: STA-ID 11, MCS 4, reserved 1, NSS 4, beamformed 1, coding 1", else "STA-ID 11, MCS 4,
 * coding 1, spatial configuration 6". The reserved bit and that it is known have no name in Linux. */
static void hold_user(const frame *f, unsigned ch, unsigned at, int alone)
{
    HOLD(USER_INFO_STA_ID_KNOWN, 1);
    HOLD(USER_INFO_MCS_KNOWN, 1);
    HOLD(USER_INFO_CODING_KNOWN, 1);
    HOLD(USER_INFO_NSS_KNOWN_O, (uint32_t)alone);
    HOLD(USER_INFO_BEAMFORMING_KNOWN_O, (uint32_t)alone);
    HOLD(USER_INFO_SPATIAL_CONFIG_KNOWN_M, (uint32_t)!alone);
    HOLD(USER_INFO_DATA_FOR_USER, 0);
    HOLD(USER_INFO_STA_ID, sent(f, ch, at, 11));
    HOLD(USER_INFO_MCS, sent(f, ch, at + 11, 4));
    HOLD(USER_INFO_CODING, sent(f, ch, alone ? at + 21 : at + 15, 1));
    if (alone) {
        HOLD(USER_INFO_NSS_O, sent(f, ch, at + 16, 4));
        HOLD(USER_INFO_BEAMFORMING_O, sent(f, ch, at + 20, 1));
    } else
        HOLD(USER_INFO_SPATIAL_CONFIG_M, sent(f, ch, at + 16, 6));
    HOLD(USER_INFO_RESEVED_c0000000, 0);
    hold_rest(alone ? 0x8 | sent(f, ch, at + 15, 1) << 28 : 0);
}

/* Every word of an accepted frame: how many are of User fields. */
static unsigned long hold_frame(const frame *f, const reading *r)
{
    static uint8_t words[BRACHYMEL_WORDS_SIZE];
    brachymel_answer a = brachymel_read(f->bandwidth, f->cc[0], f->length[0], f->cc[1], f->length[1], words, sizeof words);
    size_t at = offsetof(eht, user_info);
    const layout *l = &r->layout;
    hold("the answer", 0, a.number);
    hold("the count of words", (uint32_t)(at / 4) + l->fields[0] + l->fields[1], (uint32_t)a.place);
    begin(words, offsetof(eht, known));
    hold_known(f->bandwidth);
    hold_rest(0);
    for (unsigned k = 0; k < sizeof ((eht *)0)->data / 4; k++) {
        begin(words, offsetof(eht, data) + 4 * k);
        hold_data(f, k);
        hold_rest(0);
    }
    for (unsigned ch = 0; ch < 2; ch++)
        for (unsigned j = 0; j < l->fields[ch]; j++, at += 4) {
            const record *owning = &l->record[l->owner[ch][j]];
            begin(words, at);
            hold_user(f, ch, user_field_at(f->bandwidth, j), owning->fields[0] + owning->fields[1] == 1);
        }
    return l->fields[0] + l->fields[1];
}

int main(int argc, char **argv)
{
    static frame f;
    static reading r;
    unsigned long count, users = 0, frames[5] = {0};
    chance c;
    if (argc != 3) {
        fprintf(stderr, "usage: linux SEED COUNT\n");
        return 2;
    }
    c = chance_from(strtoull(argv[1], NULL, 10), 'O');
    count = strtoul(argv[2], NULL, 10);
    for (unsigned long n = 0; n < count;) {
        draw_good_frame(&c, &f);
        if (read_frame(f.bandwidth, f.cc[0], f.length[0], f.cc[1], f.length[1], &r).number != 0)
            continue;
        users += hold_frame(&f, &r);
        frames[f.bandwidth]++;
        n++;
    }
    printf("linux: frames of 20, 40, 80, 160, 320 MHz: %lu, %lu, %lu, %lu, %lu; User words: %lu\n", frames[0], frames[1],
           frames[2], frames[3], frames[4], users);
    printf("%lu passed, %lu failed\n", passed, failed);
    return failed == 0 ? 0 : 1;
}
