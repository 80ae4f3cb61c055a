/* Refusals, and the 8-byte number in which one crosses. */

#ifndef BASELINE_REFUSAL_H
#define BASELINE_REFUSAL_H

#include <stdint.h>

enum refusal {
    SHORT = 1, VERSION, COUNT, VALUE, LINK_ORDER, TAIL, UNABLE, SAME_NODE, EARLY, LATE,
    PRIMARY_UNFED, BACKUP_UNFED, COMMON_LOSS, OVERLAP, NO_PRIMARY, NO_BACKUP, SHORT_BUFFER,
    NO_SUCH_NODE, TOO_SOON, FULL, STALE, NOT_A_SENTENCE
};

/* An offset in a log, or the length of a text, may be longer than the first place can say. */
static uint64_t refuse(enum refusal number, uint64_t first, uint64_t second)
{
    return (uint64_t)number | (first & UINT32_MAX) << 8 | second << 40;
}

#endif
