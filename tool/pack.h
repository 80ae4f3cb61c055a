/* The parts of a text that more than one form has. */
#ifndef TOOL_PACK_H
#define TOOL_PACK_H

#include "section.h"
#include "text.h"

/* ready TICK deadline TICK run TICKS..: a task's entry in a job of that version. */
void pack_entry(struct text *t, struct section *to, uint32_t version, size_t nodes);

/* primary NODE at START backup NODE at START */
void pack_copies(struct text *t, struct section *to);

#endif
