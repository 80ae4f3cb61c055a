/* What the number at a byte offset of a job, a plan, one more task, a list of times or a
 * log is. */
#ifndef TOOL_FIELDS_H
#define TOOL_FIELDS_H

#include "files.h"

struct field {
    char name[64];
    uint32_t low, high; /* what is allowed there, for the reader of a message */
};

/* Every number before the offset is without fault, as it is in a first fault. */
struct field job_field(const struct file *job, size_t at);

/* The same in a plan, behind a job that reads well. */
struct field plan_field(const struct file *job, size_t at);

/* The same in a description or booking, behind a job that reads well. */
struct field new_task_field(const struct file *job, const struct file *task, size_t at);

/* The same in a list of times, behind a job and a plan that read well. */
struct field times_field(const struct file *job, const struct file *plan, size_t at);

/* The same in a log, behind a job that reads well. */
struct field log_field(const struct file *job, const struct file *log, size_t at);

#endif
