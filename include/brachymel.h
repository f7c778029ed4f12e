/* brachymel.h: the EHT-SIG field of a downlink OFDMA EHT MU PPDU (Wi-Fi 7, IEEE 802.11be), read into the
 * radiotap EHT words, written from them, listed as text, and compared with another; the spatial streams of its User
 * fields; and the EHT variant User Info of Trigger frames, read, written, and searched for overlaps.
 *
 * Link with libbrachymel.a, which is built for x86-64 Linux. C99; usable from C++.
 *
 * - A frame is two content channels, as sent in ONE 80 MHz segment: decoded bits, packed lowest bit first
 *   in each byte, so that a channel's first bit is the lowest bit of its byte 0.
 * - The bandwidth code is 0, 1, 2, 3, 4 for 20, 40, 80, 160, 320 MHz. At 20 MHz there is no channel 2: lend
 *   it empty.
 * - Words are 32-bit numbers as little-endian bytes: known, nine data words, one word per User field, those of
 *   channel 1 first. The buffers need no alignment.
 * - Nothing has to be checked before a call: any bytes, any code and any length get an answer. An answer other
 *   than 0 is a refusal, and a refused call writes nothing. Bytes past what an accepted call writes keep what
 *   they held.
 * - A length is that of the memory lent, in bytes. An empty buffer may be lent as NULL, 0. Buffers that one
 *   call writes must not overlap each other, nor those that it reads. Those that it only reads may: a frame may be
 *   compared with itself in the same memory.
 * - The functions keep no state and allocate nothing: any number of threads may call them at once, each with
 *   buffers of its own.
 */
#ifndef BRACHYMEL_H
#define BRACHYMEL_H

#include <stddef.h>
#include <stdint.h>

#ifdef __cplusplus
extern "C" {
#endif

/* What comes back. Number 0 is an acceptance, any other the refusal of that number: the first that applies, in
 * the order of the numbers, or in the order that a function names. Channel is 1 or 2, or 0 where none is named. Bits
 * count from 0 in their channel, and 20 MHz positions are grouped in segments of 80 MHz, which count from 0. Of a
 * channel that is cut short, the field that did not fit is the one that the first missing bit belongs to. Fields are
 * the seven of the overflow (Spatial Reuse 4 bits, GI+LTF 2, LTF symbols 3, LDPC extra 1, Pre-FEC 2, PE Disambiguity
 * 1, Disregard 4), each RU Allocation subfield (9), each check (4), each tail (6) and each User field (22). */
typedef struct {
    uint32_t number;
    uint32_t channel;
    uint64_t place;
} brachymel_answer;

enum {
    BRACHYMEL_ACCEPTED = 0,          /* 0, what was given: words (read), bytes per channel (write), pairs (trigger_overlaps), a number (streams_number), else bytes */
    BRACHYMEL_BANDWIDTH = 1,         /* bandwidth code above 4, or of a Trigger's entries above 2: 0, 0 */
    BRACHYMEL_CHANNEL_LENGTH = 2,    /* a channel over 512 bytes, or channel 2 not empty at 20 MHz: that channel, 0 */
    BRACHYMEL_COMMON_SHORT = 3,      /* common field cut short: channel, first bit of the field that did not fit */
    BRACHYMEL_COMMON_CHECK = 4,      /* common check or tail wrong: channel, first check bit */
    BRACHYMEL_OVERFLOW = 5,          /* channel 1's LTF symbols 5 to 7: 1, 6; else the channels' overflows differ: 2, lowest differing bit */
    BRACHYMEL_VALUE = 6,             /* RU Allocation value not carried, 31 to 47, 49, 51 to 63 or above 303: channel, its first bit */
    BRACHYMEL_NO_PLAN = 7,           /* the row has no layout: 0, lowest segment that lies in no part with one (whole width, half, .., segment) */
    BRACHYMEL_TOO_MANY_FIELDS = 8,   /* a resource has over eight User fields: 0, lowest segment of such a resource */
    BRACHYMEL_USER_SHORT = 9,        /* User blocks cut short: channel, first bit of the field that did not fit */
    BRACHYMEL_USER_CHECK = 10,       /* User check or tail wrong: channel, first check bit */
    BRACHYMEL_STATION_TWICE = 11,    /* a STA-ID from 1 to 2006 seen before: channel, first bit of the later field */
    BRACHYMEL_WORDS_ROOM = 12,       /* read: fewer words lent than needed: 0, words needed */
    BRACHYMEL_WORDS = 13,            /* write: no accepted channels read to exactly these words: 0, 0 */
    BRACHYMEL_CHANNEL_ROOM = 14,     /* write: a channel buffer is too short: channel, bytes needed */
    BRACHYMEL_ENTRY_LENGTH = 15,     /* trigger_read: not five bytes; trigger_overlaps: not whole entries: 0, 0 */
    BRACHYMEL_ENTRY_BITS = 16,       /* PS160 or B0 of the RU Allocation is set: 0, 0 (of a list 0, the entry from 1) */
    BRACHYMEL_ENTRY_VALUE = 17,      /* value not named or too wide: 0, 0 (of a list 0, the entry); trigger_write: no five bytes read to this record: 0, 0 */
    BRACHYMEL_NO_ROW = 21,           /* streams_row: users not 2 to 8; streams_row, streams: a number past the last row; streams_number: a row not listed: 0, 0 */
    BRACHYMEL_TEXT = 22,             /* a program's input text is not its lines: 0, first wrong line (0: too long); no call here gives it */
    BRACHYMEL_LISTING_ROOM = 23,     /* list, compare, trigger_read, trigger_write, streams_row, streams: the buffer is too short: 0, bytes needed */
    BRACHYMEL_SPECIAL = 24,          /* AID12 is 2007, which has a layout of its own: 0, 0 (of a list 0, the entry from 1) */
    BRACHYMEL_TOO_MANY_ENTRIES = 25, /* trigger_overlaps: over 32 entries: 0, 0 */
    BRACHYMEL_PAIRS_ROOM = 26        /* trigger_overlaps: room for fewer pairs than there are: 0, 0 */
};

/* Sizes, in bytes, that always suffice. No smaller one does of words, channel and listing: 320 MHz with all values 0
 * needs each, the listing where every STA-ID has four digits, at most 44 of them 2046. A call with too little room is
 * refused with what it needs. */
enum {
    BRACHYMEL_CHANNEL_LIMIT = 512,   /* a longer channel is refused */
    BRACHYMEL_WORDS_SIZE = 616,      /* 154 words: 10, and 144 User fields */
    BRACHYMEL_CHANNEL_SIZE = 257,    /* a channel that is written */
    BRACHYMEL_LISTING_SIZE = 10131,  /* a listing: proved to be the longest */
    BRACHYMEL_COMPARE_SIZE = 29466   /* a comparison: proved to suffice; the longest known has 27,148 */
};

/* The STA-ID (bits 8 to 18) of a User word whose resource nobody has. Such a field is read and written as any other, though
 * its other bits mean nothing, and is one of the eight that a resource may have; a listing does not count it as a station. */
enum { BRACHYMEL_UNASSIGNED = 2046 };

/* Reads two channels into words. Refusals 1 to 12. Only whole words of the buffer count. */
brachymel_answer brachymel_read(uint32_t bandwidth, const uint8_t *cc1, size_t cc1_len, const uint8_t *cc2, size_t cc2_len,
                                uint8_t *words, size_t words_len);

/* Writes the channels that read to these words: both with the same number of bytes, just enough for the
 * longer, padding zero. Refusals 1, 13, 14, in this order; a length that is not divisible by four is 13. At 20
 * MHz channel 2 is neither measured nor touched. */
brachymel_answer brachymel_write(uint32_t bandwidth, const uint8_t *words, size_t words_len,
                                 uint8_t *cc1, size_t cc1_len, uint8_t *cc2, size_t cc2_len);

/* Reads two channels and lists their resources and stations as text: lines that each end with a line feed, and
 * no terminating zero. ru= is one of 26, 52, 106, 242, 484, 996, 2x996, 106+26, 484+242, 996+484, 3x996, 2x996+484 and
 * 3x996+484; index= counts in 80 MHz, of a 2x996 and a 996+484 in its 160 MHz, of the wider ones in 320 MHz; segment= is that of
 * the resource's lowest 20 MHz. stations= counts the User fields that are not BRACHYMEL_UNASSIGNED; the line of one that is has
 * none for its number, and its resource. Refusals 1 to 11, then 23. */
brachymel_answer brachymel_list(uint32_t bandwidth, const uint8_t *cc1, size_t cc1_len, const uint8_t *cc2, size_t cc2_len,
                                uint8_t *text, size_t text_len);

/* Compares two frames and writes their differences as text: lines that each begin with frame=1 or frame=2, say what that
 * frame has, and end with a line feed; no terminating zero. Accepted, with the text's bytes as place: 0, no line, where
 * both frames are accepted, have the same bandwidth and read to the same words, and only there. Padding does not count.
 * A refused frame does not refuse the call: it has a line of the text with its answer, channel and place, which are those
 * of reading, 1 to 11; where one or both are refused, nothing is compared. Otherwise, in this order, frame 1's line before
 * frame 2's: a differing bandwidth, and then nothing more; overflow fields, as the raw bits; RU Allocation values, their
 * positions from 0; resources that only one has, as the listing's lines, those of frame 1 first, the same resource being
 * one of the same size, index and segment; User fields whose bits or resource differ, or that only one has, matched by
 * their place among the User words, from 1, bits= being the 22 bits as a number, first sent bit lowest, in hex digits.
 * Refusal 23. */
brachymel_answer brachymel_compare(uint32_t bandwidth1, const uint8_t *cc1, size_t cc1_len, const uint8_t *cc2, size_t cc2_len,
                                   uint32_t bandwidth2, const uint8_t *other1, size_t other1_len, const uint8_t *other2, size_t other2_len,
                                   uint8_t *text, size_t text_len);

/* Trigger frames: the EHT variant User Info of 20, 40 and 80 MHz. An entry is five bytes, 40 bits, lowest bit first:
 * AID12 12 bits, RU Allocation 8 (its lowest bit is B0), coding 1, MCS 4, reserved 1, SS allocation 6, target receive
 * power 7, PS160 1. B7-B1 of the RU Allocation name a resource: of 26, 52, 106, 242, 484 or 996 subcarriers, 106+26 or
 * 484+242. B0 and PS160 are 0 at these bandwidths. Not read here: the Common Info, the Special User Info (AID12 2007),
 * the HE variant, what depends on the Trigger's type, 52+26, and 160 and 320 MHz: the bandwidth code is 0, 1 or 2.
 *
 * A record is eight 32-bit numbers as little-endian bytes, in the order of the enumeration below. All but size and
 * index are the field as sent, whatever it means: an AID12 of 0, 2045, 2046 or 4095 is read as any other. Size is how
 * many subcarriers the resource has: 26, 52, 106, 242, 484, 996, 132 for a 106+26, 726 for a 484+242. Index counts those
 * of its size from 1, as the standard numbers them in 80 MHz: no 26 has index 19, and no 106+26 has index 6 or 7. */
enum {
    BRACHYMEL_AID12 = 0,
    BRACHYMEL_RU_SIZE = 1,
    BRACHYMEL_RU_INDEX = 2,
    BRACHYMEL_CODING = 3,
    BRACHYMEL_MCS = 4,
    BRACHYMEL_RESERVED = 5,
    BRACHYMEL_SS = 6,
    BRACHYMEL_POWER = 7
};

enum {
    BRACHYMEL_ENTRY_SIZE = 5,        /* bytes of an entry */
    BRACHYMEL_RECORD_SIZE = 32,      /* bytes of a record */
    BRACHYMEL_ENTRIES_LIMIT = 32,    /* a list of more entries is refused */
    BRACHYMEL_PAIRS_SIZE = 992       /* bytes of pairs that always suffice: 496 pairs, each two of 32 entries */
};

/* Reads an entry into a record of 32 bytes. Refusals 1, 15, 24, 16, 17, 23, in this order. */
brachymel_answer brachymel_trigger_read(uint32_t bandwidth, const uint8_t *entry, size_t entry_len,
                                        uint8_t *record, size_t record_len);

/* Writes the five bytes that read to exactly this record. Refusals 1; 24 where the record has at least four bytes and
 * its first number is 2007; 17 where its length is not 32, a number does not fit its field, or there is no such resource
 * or it is too wide; 23; in this order. */
brachymel_answer brachymel_trigger_write(uint32_t bandwidth, const uint8_t *record, size_t record_len,
                                         uint8_t *entry, size_t entry_len);

/* Finds which entries of a list, lent one after the other, share a subcarrier under this bandwidth. Each such pair is
 * written once, as two bytes: the earlier entry and the later one, counted from 1; pairs in rising order. Entries of
 * one and the same resource are a group, and no overlap. Refusals 1; 15; 25; the number of the first refused entry (24,
 * 16 or 17) with the entry as place; 26, which does not say how many pairs there are; in this order. Entries after a
 * refused one are not looked at. No entries are accepted, with no pairs. */
brachymel_answer brachymel_trigger_overlaps(uint32_t bandwidth, const uint8_t *entries, size_t entries_len,
                                            uint8_t *pairs, size_t pairs_len);

/* Spatial streams. Two to eight User fields that share a resource, its users, have a row: for each, in their order (channel 1's,
 * then channel 2's), how many streams its station has, 1 to 4, a byte each. A row never rises and sums to at most 16. The rows of
 * so many users are counted from 0, ordered by the last entry first, then by the one before it, and so on: of 2 to 8 users there
 * are 10, 20, 35, 49, 54, 50 and 41. The spatial configuration of a User field (bits 24 to 29 of its word) is such a number. */
enum {
    BRACHYMEL_ROW_SIZE = 8,          /* bytes of a row that always suffice */
    BRACHYMEL_STREAMS_SIZE = 144     /* bytes of a frame's streams that always suffice: 144 User fields */
};

/* Gives the row of this number for so many users, a byte for each of them. Refusals 21, 23, in this order. */
brachymel_answer brachymel_streams_row(uint32_t users, uint32_t number, uint8_t *row, size_t row_len);

/* Gives, as place, the number of a row for as many users as it has bytes. Nothing is written. Refusal 21. */
brachymel_answer brachymel_streams_number(const uint8_t *row, size_t row_len);

/* Reads two channels and gives the streams of each User field, a byte each, in the order of the User words. On a shared
 * resource: the entry of the row that the field's own spatial configuration names, for as many users as the resource has User
 * fields over both channels, at the field's place among these, channel 1's first; that they all name the same row is not asked.
 * Alone on its resource: NSS + 1, or 0, not known, for an NSS above 7. A field that is BRACHYMEL_UNASSIGNED has 0, whatever its
 * other bits are, and is one of its resource's fields. Refusals 1 to 11; 21 where the configuration of a shared field that is not
 * BRACHYMEL_UNASSIGNED is past the last row; 23; in this order. */
brachymel_answer brachymel_streams(uint32_t bandwidth, const uint8_t *cc1, size_t cc1_len, const uint8_t *cc2, size_t cc2_len,
                                   uint8_t *streams, size_t streams_len);

#ifdef __cplusplus
}
#endif

#endif
