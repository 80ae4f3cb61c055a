/* Where each number of a job, a plan, one more task, a list of times or a log stands, by
 * the version of the job. The library has said that the file reads well, or that the part
 * before the number read is without fault. */
#ifndef TOOL_LAYOUT_H
#define TOOL_LAYOUT_H

#include "files.h"

/* The numbers of one copy; its finish is the start plus the run time. */
struct copy {
    uint32_t task, node, start, finish;
    int backup;
};

struct link {
    uint32_t from, to, delay;
};

/* The numbers of a node's entry, in file order. */
enum { DETECT, SEND, GROUP, NODE_FIELDS };

struct node_field {
    const char *word, *name; /* in a text and in a message */
    uint32_t since;          /* the first version of a job that has it */
    uint32_t most;
};

extern const struct node_field node_fields[NODE_FIELDS];

uint32_t number_at(const struct file *f, size_t at);

/* Whether this tool knows the form of a job version, and whether that has ready
 * times. */
bool knows_version(uint32_t version);
bool has_ready(uint32_t version);
/* How many of the node fields it has: the first ones. */
int node_fields_in(uint32_t version);

uint32_t job_version(const struct file *job);
uint32_t job_nodes(const struct file *job);
/* Whether the version has a node field, and the number of one that it has. */
bool job_has(const struct file *job, int field);
uint32_t job_node(const struct file *job, uint32_t node, int field);
uint32_t job_send(const struct file *job, uint32_t node); /* 0 where there is none */
uint32_t job_group(const struct file *job, uint32_t node); /* node where there is none */
uint32_t job_tasks(const struct file *job);
uint32_t job_ready(const struct file *job, uint32_t task); /* 0 where there is none */
uint32_t job_deadline(const struct file *job, uint32_t task);
uint32_t job_run_time(const struct file *job, uint32_t task, uint32_t node);
uint32_t job_links(const struct file *job);
struct link job_link(const struct file *job, uint32_t link);

/* Offsets at which the sections, their rows and parts of these begin. */
size_t node_at(const struct file *job, uint32_t node);
size_t task_count_at(const struct file *job);
size_t task_at(const struct file *job, uint32_t task);
size_t deadline_at(const struct file *job, uint32_t task);
size_t run_times_at(const struct file *job, uint32_t task);
size_t link_count_at(const struct file *job);
size_t link_at(const struct file *job, uint32_t link);

/* The same in a description, whose entry of the task stands first, and its end, where
 * the place of a booking begins. */
size_t new_deadline_at(const struct file *job);
size_t new_run_times_at(const struct file *job);
size_t new_link_count_at(const struct file *job);
size_t new_link_at(const struct file *job, uint32_t link);
uint32_t new_links(const struct file *job, const struct file *task);
size_t description_end(const struct file *job, const struct file *task);

/* Whether bytes follow the description, in a file that may have faults. */
bool has_place(const struct file *job, const struct file *task);

struct copy plan_copy(const struct file *job, const struct file *plan,
                      uint32_t task, int backup);

/* How long a copy took, in a list of times. */
uint32_t actual_time(const struct file *times, const struct copy *copy);

/* Of a log, whose record 0 is the oldest. */
struct record {
    uint32_t task, node, ticks;
};

size_t log_records(const struct file *log);
struct record log_record(const struct file *log, size_t record);

/* All copies of a plan by node, then start, then task, primary before backup.
 * The caller frees them. */
struct copy *plan_copies(const struct file *job, const struct file *plan,
                         size_t *count);

#endif
