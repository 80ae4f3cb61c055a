/* The tuned baseline for sentences (request (xi)): phrases are copied and compared as a whole, up
   to the first place and behind it, and digits are written and read eight at a time. */

#include <stddef.h>
#include <string.h>

#include "refusal.h"

/* Which second place goes without saying, or none. */
enum unsaid { ZERO, FIRST, NONE };

/* Up to the first place, and behind it up to the second or the end. The rest of a row is 0: as
   many bytes are copied for each number. */
enum { HEAD = 80, BEHIND = 48 };

struct phrase {
    char head[HEAD], behind[BEHIND];
    uint8_t head_length, behind_length, unsaid;
};

#define ROW(head, behind, unsaid) { head, behind, sizeof head - 1, sizeof behind - 1, unsaid }

static const struct phrase phrases[] = {
    ROW("", "", NONE),
    ROW("Refused 1, short: the file ends before the number at byte ", " is whole", ZERO),
    ROW("Refused 2, version: the version at byte ", " is not known here", ZERO),
    ROW("Refused 3, count: the count at byte ", " is outside its limits", ZERO),
    ROW("Refused 4, value: the number at byte ", " is outside its limits", ZERO),
    ROW("Refused 5, link order: the link at byte ", " is not above the one before", ZERO),
    ROW("Refused 6, tail: the file goes on at byte ", ", where it should end", ZERO),
    ROW("Refused 7, unable: the node at byte ", " cannot run its task", ZERO),
    ROW("Refused 8, same node: both copies of task ", " are on one node or supply", FIRST),
    ROW("Refused 9, early: the backup of task ", " starts before a loss is noticed", FIRST),
    ROW("Refused 10, late: the backup of task ", " ends after the deadline", FIRST),
    ROW("Refused 11, primary unfed: the result of task ", " is late for the primary of task ",
        NONE),
    ROW("Refused 12, backup unfed: a result of task ", " is late for the backup of task ", NONE),
    ROW("Refused 13, common loss: one loss can stop both copies of task ", "", FIRST),
    ROW("Refused 14, overlap: one node is held at the same time by copies of tasks ", " and ",
        NONE),
    ROW("Refused 15, no primary: no node has a place for the primary of task ", "", FIRST),
    ROW("Refused 16, no backup: no node has a place for the backup of task ", "", FIRST),
    ROW("Refused 17, short buffer: the output needs room for ", " bytes", ZERO),
    ROW("Refused 18, no such node: the loss of ", " takes no node of the job", ZERO),
    ROW("Refused 19, too soon: the primary of task ", " starts before it is ready", FIRST),
    ROW("Refused 20, full: the job has no room for task ", " or its links", ZERO),
    ROW("Refused 21, stale: the place for task ", " now breaks a rule; ask again", FIRST),
    ROW("Refused 22, not a sentence: no refusal has it; its length or number: ", "", ZERO)
};

enum { LAST = sizeof phrases / sizeof phrases[0] - 1 };

static const char SECOND[] = ", second ";
enum { SECOND_LENGTH = sizeof SECOND - 1 };

static uint64_t unsaid_second(const struct phrase *phrase, uint64_t first)
{
    return phrase->unsaid == FIRST ? first : 0;
}

/* Digits. */

enum { CHUNK = 100000000 };

/* The compiler makes one store of it, and one load of the next. */
static inline void put_eight(uint8_t *at, uint64_t bytes)
{
    for (int i = 0; i < 8; i++)
        at[i] = (uint8_t)(bytes >> 8 * i);
}

static inline uint64_t eight_at(const uint8_t *at)
{
    return (uint64_t)at[0] | (uint64_t)at[1] << 8 | (uint64_t)at[2] << 16 | (uint64_t)at[3] << 24
        | (uint64_t)at[4] << 32 | (uint64_t)at[5] << 40 | (uint64_t)at[6] << 48
        | (uint64_t)at[7] << 56;
}

/* A number below CHUNK as eight digits, the first in the lowest byte: two halves of four, then four
   parts of two, then eight of one. */
static inline uint64_t digits_of(uint32_t number)
{
    uint64_t halves = number / 10000 | (uint64_t)(number % 10000) << 32;
    uint64_t hundreds = halves * 10486 >> 20 & 0x0000007f0000007f;
    uint64_t parts = hundreds | (halves - 100 * hundreds) << 16;
    uint64_t tens = parts * 103 >> 10 & 0x000f000f000f000f;
    return tens | (parts - 10 * tens) << 8;
}

/* Without zeros in front. Up to eight bytes behind it are written too. */
static inline uint8_t *put_head(uint8_t *at, uint32_t number)
{
    uint64_t digits;
    int zeros = 0;
    if (number < 10) {
        *at = (uint8_t)('0' + number);
        return at + 1;
    }
    digits = digits_of(number);
    while (!(digits >> 8 * zeros & 0xff))
        zeros++;
    put_eight(at, (digits | 0x3030303030303030) >> 8 * zeros);
    return at + 8 - zeros;
}

static inline uint8_t *put_chunk(uint8_t *at, uint32_t number)
{
    put_eight(at, digits_of(number) | 0x3030303030303030);
    return at + 8;
}

static inline uint8_t *put_number(uint8_t *at, uint64_t number)
{
    uint64_t high;
    if (number < CHUNK)
        return put_head(at, (uint32_t)number);
    high = number / CHUNK;
    if (high < CHUNK)
        at = put_head(at, (uint32_t)high);
    else
        at = put_chunk(put_head(at, (uint32_t)(high / CHUNK)), (uint32_t)(high % CHUNK));
    return put_chunk(at, (uint32_t)(number % CHUNK));
}

static inline int are_digits(uint64_t bytes)
{
    uint64_t carried = (bytes + 0x0606060606060606) & 0xf0f0f0f0f0f0f0f0;
    return ((bytes & 0xf0f0f0f0f0f0f0f0) | carried >> 4) == 0x3333333333333333;
}

static inline uint64_t value_of(uint64_t digits)
{
    digits = (digits & 0x0f0f0f0f0f0f0f0f) * (10 << 8 | 1) >> 8;
    digits = (digits & 0x00ff00ff00ff00ff) * (100 << 16 | 1) >> 16;
    return (digits & 0x0000ffff0000ffff) * (10000ull << 32 | 1) >> 32;
}

/* Behind the number, or NULL. Behind a 0 and behind twenty digits another digit is no matter: there
   some other byte is wanted. */
static inline const uint8_t *read_number(const uint8_t *at, const uint8_t *end, uint64_t *number)
{
    const uint8_t *most = end - at > 20 ? at + 20 : end;
    uint64_t read = 0;
    if (at == end || (unsigned)*at - '0' > 9)
        return NULL;
    if (*at == '0')
        most = at + 1;
    for (; most - at >= 12 && are_digits(eight_at(at)); at += 8)
        read = CHUNK * read + value_of(eight_at(at));
    for (; at < most && (unsigned)*at - '0' <= 9; at++) {
        unsigned digit = (unsigned)*at - '0';
        if (read > (UINT64_MAX - digit) / 10)
            return NULL;
        read = 10 * read + digit;
    }
    *number = read;
    return at;
}

/* Put together here, with whole rows, and copied out by its length. */
uint64_t tuned_sentence(uint32_t number, uint64_t first, uint64_t second, uint8_t *out,
                        size_t out_length)
{
    uint8_t text[HEAD + BEHIND + 64], *at = text;
    const struct phrase *phrase;
    size_t length;
    if (number - 1 >= LAST)
        return refuse(NOT_A_SENTENCE, number, 0);
    phrase = &phrases[number];
    memcpy(at, phrase->head, HEAD);
    at = put_number(at + phrase->head_length, first);
    memcpy(at, phrase->behind, BEHIND);
    at += phrase->behind_length;
    if (phrase->unsaid == NONE) {
        at = put_number(at, second);
    } else if (second != unsaid_second(phrase, first)) {
        memcpy(at, SECOND, SECOND_LENGTH);
        at = put_number(at + SECOND_LENGTH, second);
    }
    *at++ = '.';
    length = (size_t)(at - text);
    if (out_length < length)
        return refuse(SHORT_BUFFER, length, 0);
    memcpy(out, text, length);
    return 0;
}

static int begins(const uint8_t *at, const uint8_t *end, const char *words, size_t length)
{
    return (size_t)(end - at) >= length && memcmp(at, words, length) == 0;
}

/* The row whose number a text has, or the first one, with which none begins. */
static const struct phrase *row_of(const uint8_t *text, size_t length)
{
    unsigned number;
    if (length < 10)
        return phrases;
    number = (unsigned)text[8] - '0';
    if (text[9] != ',')
        number = 10 * number + text[9] - '0';
    return number <= LAST ? &phrases[number] : phrases;
}

uint64_t tuned_read_sentence(const uint8_t *text, size_t length, uint64_t parts[3])
{
    const struct phrase *phrase = row_of(text, length);
    const uint8_t *end = text + length, *at = text;
    uint64_t first, second;
    if (phrase == phrases || !begins(at, end, phrase->head, phrase->head_length))
        goto refused;
    at = read_number(at + phrase->head_length, end, &first);
    if (!at || !begins(at, end, phrase->behind, phrase->behind_length))
        goto refused;
    at += phrase->behind_length;
    second = unsaid_second(phrase, first);
    if (phrase->unsaid == NONE) {
        at = read_number(at, end, &second);
    } else if (end - at > 1) {
        if (!begins(at, end, SECOND, SECOND_LENGTH))
            goto refused;
        at = read_number(at + SECOND_LENGTH, end, &second);
        if (second == unsaid_second(phrase, first))
            goto refused;
    }
    if (!at || end - at != 1 || *at != '.')
        goto refused;
    parts[0] = (uint64_t)(phrase - phrases);
    parts[1] = first;
    parts[2] = second;
    return 0;
refused:
    return refuse(NOT_A_SENTENCE, length, 0);
}
