/* The plain baseline for sentences (request (xi)): snprintf with a table of formats. A text is read
   by looking for its numbers, printing the refusal that has them, and comparing the two. */

#include <inttypes.h>
#include <stdio.h>
#include <stdlib.h>
#include <string.h>

#include "refusal.h"

#define PLACE "%" PRIu64
#define DIGITS "0123456789"

enum { MAX_SENTENCE = 120 };

static const struct { const char *word, *phrase; } tables[] = {
    { "", "" },
    { "short", "the file ends before the number at byte " PLACE " is whole" },
    { "version", "the version at byte " PLACE " is not known here" },
    { "count", "the count at byte " PLACE " is outside its limits" },
    { "value", "the number at byte " PLACE " is outside its limits" },
    { "link order", "the link at byte " PLACE " is not above the one before" },
    { "tail", "the file goes on at byte " PLACE ", where it should end" },
    { "unable", "the node at byte " PLACE " cannot run its task" },
    { "same node", "both copies of task " PLACE " are on one node or supply" },
    { "early", "the backup of task " PLACE " starts before a loss is noticed" },
    { "late", "the backup of task " PLACE " ends after the deadline" },
    { "primary unfed", "the result of task " PLACE " is late for the primary of task " PLACE },
    { "backup unfed", "a result of task " PLACE " is late for the backup of task " PLACE },
    { "common loss", "one loss can stop both copies of task " PLACE },
    { "overlap", "one node is held at the same time by copies of tasks " PLACE " and " PLACE },
    { "no primary", "no node has a place for the primary of task " PLACE },
    { "no backup", "no node has a place for the backup of task " PLACE },
    { "short buffer", "the output needs room for " PLACE " bytes" },
    { "no such node", "the loss of " PLACE " takes no node of the job" },
    { "too soon", "the primary of task " PLACE " starts before it is ready" },
    { "full", "the job has no room for task " PLACE " or its links" },
    { "stale", "the place for task " PLACE " now breaks a rule; ask again" },
    { "not a sentence", "no refusal has it; its length or number: " PLACE }
};

static int is_known(uint64_t number)
{
    return number >= 1 && number < sizeof tables / sizeof tables[0];
}

/* The second place that goes without saying. Where both are shown there is none. */
static uint64_t unsaid_second(uint64_t number, uint64_t first, uint64_t second)
{
    switch (number) {
    case PRIMARY_UNFED: case BACKUP_UNFED: case OVERLAP:
        return second;
    case SAME_NODE: case EARLY: case LATE: case COMMON_LOSS: case NO_PRIMARY: case NO_BACKUP:
    case TOO_SOON: case STALE:
        return first;
    default:
        return 0;
    }
}

/* The length of the sentence, which has a 0 behind it. */
static size_t print(char text[MAX_SENTENCE + 1], uint64_t number, uint64_t first, uint64_t second)
{
    size_t room = MAX_SENTENCE + 1, length;
    length = (size_t)snprintf(text, room, "Refused " PLACE ", %s: ", number, tables[number].word);
    length += (size_t)snprintf(text + length, room - length, tables[number].phrase, first, second);
    if (second != unsaid_second(number, first, second))
        length += (size_t)snprintf(text + length, room - length, ", second " PLACE, second);
    length += (size_t)snprintf(text + length, room - length, ".");
    return length;
}

uint64_t plain_sentence(uint32_t number, uint64_t first, uint64_t second, uint8_t *out,
                        size_t out_length)
{
    char text[MAX_SENTENCE + 1];
    size_t length;
    if (!is_known(number))
        return refuse(NOT_A_SENTENCE, number, 0);
    length = print(text, number, first, second);
    if (out_length < length)
        return refuse(SHORT_BUFFER, length, 0);
    memcpy(out, text, length);
    return 0;
}

/* The next number of a text: what is not one fails when it is compared. */
static uint64_t next_number(const char **at)
{
    char *end;
    uint64_t number;
    *at += strcspn(*at, DIGITS);
    number = strtoull(*at, &end, 10);
    *at = end;
    return number;
}

uint64_t plain_read_sentence(const uint8_t *text, size_t length, uint64_t parts[3])
{
    char copy[MAX_SENTENCE + 1], guess[MAX_SENTENCE + 1];
    const char *at = copy;
    uint64_t number, first, second;
    if (length > MAX_SENTENCE)
        return refuse(NOT_A_SENTENCE, length, 0);
    memcpy(copy, text, length);
    copy[length] = 0;
    number = next_number(&at);
    if (!is_known(number))
        return refuse(NOT_A_SENTENCE, length, 0);
    first = next_number(&at);
    if (at[strcspn(at, DIGITS)])
        second = next_number(&at);
    else
        second = unsaid_second(number, first, 0);
    if (print(guess, number, first, second) != length || memcmp(guess, text, length) != 0)
        return refuse(NOT_A_SENTENCE, length, 0);
    parts[0] = number;
    parts[1] = first;
    parts[2] = second;
    return 0;
}
