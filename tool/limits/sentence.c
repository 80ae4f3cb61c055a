/* Sentences: lengths, the numbers that have one, words, and reading back. */
#include "limits.h"

#include <inttypes.h>
#include <stdio.h>
#include <string.h>

enum { LONGEST = SEQOPCHI_MAX_SENTENCE_BYTES };

#define FIRST_NUMBER SEQOPCHI_REFUSED_SHORT
#define LAST_NUMBER SEQOPCHI_REFUSED_NOT_A_SENTENCE

/* Both are of twenty digits. */
#define MOST UINT64_MAX
#define NEARLY_MOST (UINT64_MAX - 1)

static const uint64_t pairs[][2] = {
    { 0, 0 }, { 1, 0 }, { 0, 1 }, { 10, 10 }, { 9, 10 }, { UINT32_MAX, 0 },
    { (uint64_t)1 << 32, (uint64_t)1 << 32 }, { MOST, 0 }, { 0, MOST }, { MOST, MOST },
    { MOST, NEARLY_MOST }
};

static char sentence[ROOM]; /* the last one that was printed, as a string */
static uint64_t parts[3];

static void expect_result(uint64_t r, unsigned number, uint64_t first)
{
    char fault[160];

    snprintf(fault, sizeof fault, "%u (%s) %" PRIu32 " / %" PRIu32 ", not %u (%s) %"
             PRIu64 " / 0", seqopchi_number(r), seqopchi_word(seqopchi_number(r)),
             seqopchi_first(r), seqopchi_second(r), number, seqopchi_word(number), first);
    check(seqopchi_number(r) == number && seqopchi_first(r) == first
          && seqopchi_second(r) == 0, fault);
}

static uint64_t print(uint32_t number, const uint64_t *pair, size_t out_len)
{
    calls++;
    memset(out, MARK, sizeof out);
    return seqopchi_sentence(number, pair[0], pair[1], out, out_len);
}

static uint64_t read_text(const char *text, size_t length)
{
    calls++;
    memset(parts, MARK, sizeof parts);
    return seqopchi_read_sentence((const uint8_t *)text, length, parts);
}

/* It is none, and nothing is handed out. */
static void expect_none(const char *text, size_t length)
{
    expect_result(read_text(text, length), SEQOPCHI_REFUSED_NOT_A_SENTENCE, length);
    check(is_marked(parts, sizeof parts), "a refusal writes the parts");
}

static void expect_parts(const char *text, size_t length, uint32_t number,
                         const uint64_t *pair)
{
    expect_result(read_text(text, length), SEQOPCHI_DONE, 0);
    check(parts[0] == number && parts[1] == pair[0] && parts[2] == pair[1],
          "another refusal is read");
}

/* A byte less is too little, and with that length all of it is written. */
static size_t check_length(uint32_t number, const uint64_t *pair)
{
    uint64_t r = print(number, pair, 0);
    size_t length = seqopchi_first(r);

    expect_result(r, SEQOPCHI_REFUSED_SHORT_BUFFER, length);
    check(length > 0 && length <= LONGEST, "the sentence has another length");
    expect_result(print(number, pair, length - 1), SEQOPCHI_REFUSED_SHORT_BUFFER,
                  length);
    check(is_marked(out, ROOM), "a refusal writes to out");
    expect_result(print(number, pair, LONGEST), SEQOPCHI_DONE, 0);
    check_written(out, length);
    memcpy(sentence, out, length);
    sentence[length] = 0;
    expect_result(print(number, pair, length), SEQOPCHI_DONE, 0);
    check_written(out, length);
    check(memcmp(out, sentence, length) == 0, "another sentence with less room");
    return length;
}

/* Its number and its word, and one full stop, which is last. */
static void check_form(uint32_t number, size_t length)
{
    char start[LONGEST];

    snprintf(start, sizeof start, "Refused %" PRIu32 ", %s: ", number,
             seqopchi_word(number));
    check(strncmp(sentence, start, strlen(start)) == 0, "another start of the sentence");
    check(strlen(sentence) == length, "a byte of the sentence is 0");
    check(strchr(sentence, '.') == sentence + length - 1,
          "no full stop, or one before the end");
}

/* Cut anywhere, and with a byte more, it is none. */
static void check_cuts(size_t length)
{
    static const char more[] = { 0, ' ', '\n', '.', '0' };

    for (size_t shorter = 0; shorter < length; shorter++)
        expect_none(sentence, shorter);
    for (size_t i = 0; i < COUNT_OF(more); i++) {
        sentence[length] = more[i];
        expect_none(sentence, length + 1);
    }
    expect_none(sentence, ROOM);
}

/* Answers the length of the longest, which is the last one's. */
static size_t check_number(uint32_t number)
{
    size_t length = 0, longest = 0;

    for (size_t i = 0; i < COUNT_OF(pairs); i++) {
        about("seqopchi_sentence", seqopchi_word(number), (unsigned long)i);
        length = check_length(number, pairs[i]);
        check_form(number, length);
        expect_parts(sentence, length, number, pairs[i]);
        check_cuts(length);
        longest = length > longest ? length : longest;
    }
    check(length == longest, "there are longer ones than with the longest places");
    return longest;
}

/* With any room, before 17. */
static void check_outside(uint32_t number)
{
    static const size_t rooms[] = { 0, 1, LONGEST, ROOM };

    about("seqopchi_sentence", "number", number);
    for (size_t i = 0; i < COUNT_OF(rooms); i++) {
        expect_result(print(number, pairs[i], rooms[i]), SEQOPCHI_REFUSED_NOT_A_SENTENCE,
                      number);
        check(is_marked(out, ROOM), "a refusal writes to out");
    }
}

/* The header's example, and the string of C that it promises. */
static void check_string(void)
{
    static const char example[] =
        "Refused 13, common loss: one loss can stop both copies of task 10.";
    static const uint64_t tasks[2] = { 10, 10 };
    uint8_t string[LONGEST + 1] = { 0 };

    about("seqopchi_sentence", "buffer of", sizeof string);
    calls++;
    expect_result(seqopchi_sentence(SEQOPCHI_REFUSED_COMMON_LOSS, 10, 10,
                                    string, LONGEST), SEQOPCHI_DONE, 0);
    check(strcmp((const char *)string, example) == 0, "another sentence than the header's");
    expect_parts(example, strlen(example), SEQOPCHI_REFUSED_COMMON_LOSS, tasks);
}

/* A refusal 22 has its sentence; a text that has none is refused with its length. */
static void check_not_a_sentence(void)
{
    static const uint64_t five[2] = { 5, 0 };
    size_t length;

    about("seqopchi_read_sentence", "text of", 5);
    expect_none("Hello", 5);
    length = check_length(SEQOPCHI_REFUSED_NOT_A_SENTENCE, five);
    expect_parts(sentence, length, SEQOPCHI_REFUSED_NOT_A_SENTENCE, five);
}

void check_sentences(void)
{
    static const uint32_t outside[] = {
        FIRST_NUMBER - 1, LAST_NUMBER + 1, LAST_NUMBER + 2, 255, 256, 256 + FIRST_NUMBER,
        256 + LAST_NUMBER, 65536 + FIRST_NUMBER, UINT32_MAX
    };
    size_t longest = 0;

    for (uint32_t number = FIRST_NUMBER; number <= LAST_NUMBER; number++) {
        size_t length = check_number(number);

        longest = length > longest ? length : longest;
    }
    about("SEQOPCHI_MAX_SENTENCE_BYTES", "length", LONGEST);
    check(longest == LONGEST, "no sentence is as long");
    for (size_t i = 0; i < COUNT_OF(outside); i++)
        check_outside(outside[i]);
    check_string();
    check_not_a_sentence();
}
