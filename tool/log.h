/* A log of the last runs: which copy took how long, as text or packed (TEXT.md). */
#ifndef TOOL_LOG_H
#define TOOL_LOG_H

#include "source.h"

/* Reads the log that goes with a job and makes its packed form: 0, or 2 after a
 * message. */
int log_read(struct source *log, const char *path, const struct file *job);

/* Whether there may be more of a log: a reads_on. The job is null for a text. */
bool log_goes_on(const struct file *so_far, const struct file *job);

/* What follows the first word of the text, which is 'log'. */
void pack_log(struct text *t, struct section *to);

#endif
