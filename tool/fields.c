/* What the number at a byte offset of a job, a plan, one more task, a list of times or a
 * log is. */
#include "fields.h"

#include "layout.h"
#include "seqopchi.h"

#include <stdio.h>

static struct field field(uint32_t low, uint32_t high, const char *name)
{
    struct field f;

    f.low = low;
    f.high = high;
    snprintf(f.name, sizeof f.name, "%s", name);
    return f;
}

static struct field node_field_at(const struct file *job, size_t at)
{
    size_t row = node_at(job, 1) - node_at(job, 0), past = at - node_at(job, 0);
    const struct node_field *column = &node_fields[past % row / 4];
    struct field f = field(0, column->most, "");

    snprintf(f.name, sizeof f.name, "the %s of node %zu", column->name, past / row);
    return f;
}

/* So far behind the beginning of a task's entry. */
static struct field entry_field(const struct file *job, size_t past, const char *whose)
{
    size_t deadline = new_deadline_at(job), runs = new_run_times_at(job);
    struct field f = field(0, SEQOPCHI_MAX_TIME, "");

    if (past >= runs) {
        snprintf(f.name, sizeof f.name, "the run time of %s on node %zu", whose,
                 (past - runs) / 4);
        return f;
    }
    if (past == deadline)
        f.low = SEQOPCHI_MIN_DEADLINE;
    snprintf(f.name, sizeof f.name, "the %s of %s",
             past == deadline ? "deadline" : "ready time", whose);
    return f;
}

static struct field task_field(const struct file *job, size_t at)
{
    size_t row = task_at(job, 1) - task_at(job, 0), past = at - task_at(job, 0);
    char whose[32];

    snprintf(whose, sizeof whose, "task %zu", past / row);
    return entry_field(job, past % row, whose);
}

static struct field link_field(const struct file *job, size_t at)
{
    static const char *const part[] = { "from", "to", "delay" };
    size_t past = at - link_at(job, 0);
    size_t column = past % 12 / 4;
    struct field f = field(0, job_tasks(job) - 1, "");

    if (column == 1)
        f.low = number_at(job, at - 4) + 1;
    if (column == 2)
        f.high = SEQOPCHI_MAX_TIME;
    snprintf(f.name, sizeof f.name, "the %s of link %zu", part[column], past / 12);
    return f;
}

struct field job_field(const struct file *job, size_t at)
{
    if (at == 0)
        return field(1, SEQOPCHI_NEWEST_JOB_VERSION, "the version");
    if (at == 4)
        return field(SEQOPCHI_MIN_NODES, SEQOPCHI_MAX_NODES, "the node count");
    if (at < task_count_at(job))
        return node_field_at(job, at);
    if (at == task_count_at(job))
        return field(SEQOPCHI_MIN_TASKS, SEQOPCHI_MAX_TASKS, "the task count");
    if (at < link_count_at(job))
        return task_field(job, at);
    if (at == link_count_at(job))
        return field(0, SEQOPCHI_MAX_LINKS, "the link count");
    return link_field(job, at);
}

/* So far behind the beginning of the four numbers of a place. */
static struct field place_field(const struct file *job, size_t past, const char *whose)
{
    static const char *const part[] = {
        "primary node", "primary start", "backup node", "backup start"
    };
    size_t column = past / 4;
    struct field f = field(0, SEQOPCHI_MAX_TIME, "");

    if (column % 2 == 0)
        f.high = job_nodes(job) - 1;
    snprintf(f.name, sizeof f.name, "the %s of %s", part[column], whose);
    return f;
}

struct field plan_field(const struct file *job, size_t at)
{
    char whose[32];

    if (at == 0)
        return field(SEQOPCHI_PLAN_VERSION, SEQOPCHI_PLAN_VERSION, "the version");
    if (at == 4)
        return field(job_tasks(job), job_tasks(job), "the task count");
    snprintf(whose, sizeof whose, "task %zu", (at - 8) / 16);
    return place_field(job, (at - 8) % 16, whose);
}

static struct field new_link_field(const struct file *job, size_t at)
{
    size_t past = at - new_link_at(job, 0);
    bool is_from = past % 8 == 0;
    struct field f = field(0, is_from ? job_tasks(job) - 1 : SEQOPCHI_MAX_TIME, "");

    snprintf(f.name, sizeof f.name, "the %s of link %zu", is_from ? "from" : "delay",
             past / 8);
    return f;
}

struct field new_task_field(const struct file *job, const struct file *task, size_t at)
{
    size_t count = new_link_count_at(job);

    if (at < count)
        return entry_field(job, at, "the new task");
    if (at == count)
        return field(0, SEQOPCHI_MAX_LINKS, "the link count");
    if (at < description_end(job, task))
        return new_link_field(job, at);
    return place_field(job, at - description_end(job, task), "the place");
}

struct field times_field(const struct file *job, const struct file *plan, size_t at)
{
    struct copy copy = plan_copy(job, plan, (uint32_t)(at / 8), at % 8 > 0);
    struct field f = field(SEQOPCHI_MIN_ACTUAL_TIME, copy.finish - copy.start, "");

    snprintf(f.name, sizeof f.name, "the time of the %s of task %u on node %u",
             copy.backup ? "backup" : "primary", (unsigned)copy.task,
             (unsigned)copy.node);
    return f;
}

struct field log_field(const struct file *job, const struct file *log, size_t at)
{
    size_t record = at / SEQOPCHI_LOG_RECORD_BYTES;
    size_t begin = record * SEQOPCHI_LOG_RECORD_BYTES;
    struct field f = field(0, job_tasks(job) - 1, "");

    if (at == begin) {
        snprintf(f.name, sizeof f.name, "the task of record %zu", record);
    } else if (at == begin + 4) {
        f.high = job_nodes(job) - 1;
        snprintf(f.name, sizeof f.name, "the node of task %u in record %zu",
                 (unsigned)number_at(log, begin), record);
    } else {
        f.low = SEQOPCHI_MIN_ACTUAL_TIME;
        f.high = SEQOPCHI_MAX_TIME;
        snprintf(f.name, sizeof f.name, "the time of task %u on node %u in record %zu",
                 (unsigned)number_at(log, begin), (unsigned)number_at(log, begin + 4),
                 record);
    }
    return f;
}
