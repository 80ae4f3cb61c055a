/* One more task: its description or a booking of it, as text or packed (TEXT.md). */
#ifndef TOOL_NEW_TASK_H
#define TOOL_NEW_TASK_H

#include "source.h"

/* For a job that reads well, makes the packed form of what was read: 0, or 2 after a
 * message. */
int new_task_pack(struct source *task, const struct file *job);

/* What follows the first word of the text, which is 'task'. */
void pack_new_task(struct text *t, struct section *to, const struct file *job);

#endif
