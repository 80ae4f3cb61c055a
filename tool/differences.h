/* What differs between a job and a newer one. */
#ifndef TOOL_DIFFERENCES_H
#define TOOL_DIFFERENCES_H

#include "files.h"

/* Whether a run time differs, of a task and node that both jobs have. */
bool run_time_differs(const struct file *job, const struct file *new_job, uint32_t task,
                      uint32_t node);

/* How many run times differ, and a line for each other number that does. What a version
 * lacks counts as it does for the library. */
void add_differences(struct buffer *b, const struct file *job,
                     const struct file *new_job);

#endif
