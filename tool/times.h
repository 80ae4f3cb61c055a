/* A list of times: how long each copy took, as text or packed (TEXT.md). */
#ifndef TOOL_TIMES_H
#define TOOL_TIMES_H

#include "source.h"

/* Reads the file and makes its packed form: 0, or 2 after a message. */
int times_read(struct source *times, const char *path);

/* What follows the first word of the text, which is 'times'. */
void pack_times(struct text *t, struct section *to);

#endif
