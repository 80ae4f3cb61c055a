/* Where each number of a job, a plan, one more task, a list of times or a log stands, by
 * the version of the job. */
#include "layout.h"

#include "seqopchi.h"

#include <stdlib.h>

const struct node_field node_fields[NODE_FIELDS] = {
    [DETECT] = { "detect", "detect time", 1, SEQOPCHI_MAX_DETECT },
    [SEND] = { "send", "send time", 3, SEQOPCHI_MAX_SEND },
    [GROUP] = { "group", "supply group", 4, SEQOPCHI_MAX_GROUP },
};

/* The test is no verdict on the file: it keeps this program inside its memory
 * whatever it is linked with. */
uint32_t number_at(const struct file *f, size_t at)
{
    const uint8_t *b;

    if (f->length < 4 || at > f->length - 4)
        exit(failed("'%s' has no number at byte %zu", f->name, at));
    b = f->data + at;
    return b[0] | (uint32_t)b[1] << 8 | (uint32_t)b[2] << 16 | (uint32_t)b[3] << 24;
}

bool knows_version(uint32_t version)
{
    return version >= 1 && version <= SEQOPCHI_NEWEST_JOB_VERSION;
}

bool has_ready(uint32_t version)
{
    return version >= 2;
}

int node_fields_in(uint32_t version)
{
    int count = 0;

    while (count < NODE_FIELDS && node_fields[count].since <= version)
        count++;
    return count;
}

uint32_t job_version(const struct file *job)
{
    return number_at(job, 0);
}

uint32_t job_nodes(const struct file *job)
{
    return number_at(job, 4);
}

size_t node_at(const struct file *job, uint32_t node)
{
    return 8 + SEQOPCHI_NODE_BYTES(job_version(job)) * (size_t)node;
}

bool job_has(const struct file *job, int field)
{
    return field < node_fields_in(job_version(job));
}

uint32_t job_node(const struct file *job, uint32_t node, int field)
{
    return number_at(job, node_at(job, node) + 4 * (size_t)field);
}

uint32_t job_send(const struct file *job, uint32_t node)
{
    return job_has(job, SEND) ? job_node(job, node, SEND) : 0;
}

uint32_t job_group(const struct file *job, uint32_t node)
{
    return job_has(job, GROUP) ? job_node(job, node, GROUP) : node;
}

size_t task_count_at(const struct file *job)
{
    return node_at(job, job_nodes(job));
}

uint32_t job_tasks(const struct file *job)
{
    return number_at(job, task_count_at(job));
}

size_t task_at(const struct file *job, uint32_t task)
{
    size_t nodes = job_nodes(job);

    return task_count_at(job) + 4 + SEQOPCHI_TASK_BYTES(job_version(job), nodes) * task;
}

size_t deadline_at(const struct file *job, uint32_t task)
{
    return task_at(job, task) + (has_ready(job_version(job)) ? 4 : 0);
}

size_t run_times_at(const struct file *job, uint32_t task)
{
    return deadline_at(job, task) + 4;
}

uint32_t job_ready(const struct file *job, uint32_t task)
{
    return has_ready(job_version(job)) ? number_at(job, task_at(job, task)) : 0;
}

uint32_t job_deadline(const struct file *job, uint32_t task)
{
    return number_at(job, deadline_at(job, task));
}

uint32_t job_run_time(const struct file *job, uint32_t task, uint32_t node)
{
    return number_at(job, run_times_at(job, task) + 4 * (size_t)node);
}

size_t link_count_at(const struct file *job)
{
    return task_at(job, job_tasks(job));
}

uint32_t job_links(const struct file *job)
{
    return number_at(job, link_count_at(job));
}

size_t link_at(const struct file *job, uint32_t link)
{
    return link_count_at(job) + 4 + 12 * (size_t)link;
}

struct link job_link(const struct file *job, uint32_t link)
{
    size_t at = link_at(job, link);
    struct link l;

    l.from = number_at(job, at);
    l.to = number_at(job, at + 4);
    l.delay = number_at(job, at + 8);
    return l;
}

size_t new_deadline_at(const struct file *job)
{
    return deadline_at(job, 0) - task_at(job, 0);
}

size_t new_run_times_at(const struct file *job)
{
    return run_times_at(job, 0) - task_at(job, 0);
}

size_t new_link_count_at(const struct file *job)
{
    return task_at(job, 1) - task_at(job, 0);
}

size_t new_link_at(const struct file *job, uint32_t link)
{
    return new_link_count_at(job) + 4 + 8 * (size_t)link;
}

uint32_t new_links(const struct file *job, const struct file *task)
{
    return number_at(task, new_link_count_at(job));
}

size_t description_end(const struct file *job, const struct file *task)
{
    return new_link_at(job, new_links(job, task));
}

bool has_place(const struct file *job, const struct file *task)
{
    return task->length >= new_link_at(job, 0)
        && task->length > description_end(job, task);
}

struct copy plan_copy(const struct file *job, const struct file *plan,
                      uint32_t task, int backup)
{
    size_t at = 8 + 16 * (size_t)task + (backup ? 8 : 0);
    struct copy c;

    c.task = task;
    c.backup = backup;
    c.node = number_at(plan, at);
    c.start = number_at(plan, at + 4);
    c.finish = c.start + job_run_time(job, task, c.node);
    return c;
}

uint32_t actual_time(const struct file *times, const struct copy *copy)
{
    return number_at(times, 8 * (size_t)copy->task + (copy->backup ? 4 : 0));
}

size_t log_records(const struct file *log)
{
    return log->length / SEQOPCHI_LOG_RECORD_BYTES;
}

struct record log_record(const struct file *log, size_t record)
{
    size_t at = SEQOPCHI_LOG_RECORD_BYTES * record;
    struct record r;

    r.task = number_at(log, at);
    r.node = number_at(log, at + 4);
    r.ticks = number_at(log, at + 8);
    return r;
}

static int by_value(uint32_t a, uint32_t b)
{
    return (a > b) - (a < b);
}

static int by_node_and_start(const void *left, const void *right)
{
    const struct copy *a = left, *b = right;

    if (a->node != b->node)
        return by_value(a->node, b->node);
    if (a->start != b->start)
        return by_value(a->start, b->start);
    if (a->task != b->task)
        return by_value(a->task, b->task);
    return a->backup - b->backup;
}

struct copy *plan_copies(const struct file *job, const struct file *plan,
                         size_t *count)
{
    uint32_t tasks = job_tasks(job);
    struct copy *copies = allocated(2 * (size_t)tasks * sizeof *copies);

    *count = 2 * (size_t)tasks;
    for (uint32_t task = 0; task < tasks; task++) {
        copies[2 * task] = plan_copy(job, plan, task, 0);
        copies[2 * task + 1] = plan_copy(job, plan, task, 1);
    }
    qsort(copies, *count, sizeof *copies, by_node_and_start);
    return copies;
}
