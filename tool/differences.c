/* What differs between a job and a newer one. */
#include "differences.h"

#include "layout.h"

#include <stdio.h>

struct jobs {
    const struct file *old, *new;
};

static uint32_t lesser(uint32_t a, uint32_t b)
{
    return a < b ? a : b;
}

bool run_time_differs(const struct file *job, const struct file *new_job, uint32_t task,
                      uint32_t node)
{
    return task < job_tasks(new_job) && node < job_nodes(new_job)
        && job_run_time(new_job, task, node) != job_run_time(job, task, node);
}

static unsigned run_times_that_differ(const struct jobs *jobs)
{
    uint32_t tasks = job_tasks(jobs->old), nodes = job_nodes(jobs->old);
    unsigned count = 0;

    for (uint32_t task = 0; task < tasks; task++)
        for (uint32_t node = 0; node < nodes; node++)
            count += run_time_differs(jobs->old, jobs->new, task, node);
    return count;
}

static void add_numbers(struct buffer *b, const char *what, uint32_t old, uint32_t new)
{
    if (new != old)
        buffer_print(b, "%s: %u, new %u\n", what, (unsigned)old, (unsigned)new);
}

/* The same of a node or task. */
static void add_numbers_of(struct buffer *b, const char *what, uint32_t whose,
                           uint32_t old, uint32_t new)
{
    char name[40];

    snprintf(name, sizeof name, "%s %u", what, (unsigned)whose);
    add_numbers(b, name, old, new);
}

static void add_nodes(struct buffer *b, const struct jobs *jobs)
{
    const struct file *old = jobs->old, *new = jobs->new;
    uint32_t nodes = lesser(job_nodes(old), job_nodes(new));

    add_numbers(b, "nodes", job_nodes(old), job_nodes(new));
    for (uint32_t node = 0; node < nodes; node++) {
        add_numbers_of(b, "detect time of node", node, job_node(old, node, DETECT),
                       job_node(new, node, DETECT));
        add_numbers_of(b, "send time of node", node, job_send(old, node),
                       job_send(new, node));
        add_numbers_of(b, "supply group of node", node, job_group(old, node),
                       job_group(new, node));
    }
}

static void add_tasks(struct buffer *b, const struct jobs *jobs)
{
    const struct file *old = jobs->old, *new = jobs->new;
    uint32_t tasks = lesser(job_tasks(old), job_tasks(new));

    add_numbers(b, "tasks", job_tasks(old), job_tasks(new));
    for (uint32_t task = 0; task < tasks; task++) {
        add_numbers_of(b, "ready time of task", task, job_ready(old, task),
                       job_ready(new, task));
        add_numbers_of(b, "deadline of task", task, job_deadline(old, task),
                       job_deadline(new, task));
    }
}

/* Where links rise: below 0 if left comes first, 0 if both join the same tasks. */
static int by_ends(const struct link *left, const struct link *right)
{
    if (left->from != right->from)
        return left->from < right->from ? -1 : 1;
    return (left->to > right->to) - (left->to < right->to);
}

/* A link of one job, or of both: the other is null. */
static void add_link(struct buffer *b, const struct link *old, const struct link *new)
{
    const struct link *either = old ? old : new;

    if (old && new && old->delay == new->delay)
        return;
    buffer_print(b, "link %u to %u: ", (unsigned)either->from, (unsigned)either->to);
    if (old && new)
        buffer_print(b, "delay %u, new %u\n", (unsigned)old->delay,
                     (unsigned)new->delay);
    else
        buffer_print(b, "delay %u, in the %s job only\n", (unsigned)either->delay,
                     old ? "old" : "new");
}

/* Links rise by both tasks in either job, so each is met beside its like. */
static void add_links(struct buffer *b, const struct jobs *jobs)
{
    uint32_t olds = job_links(jobs->old), news = job_links(jobs->new), i = 0, k = 0;

    add_numbers(b, "links", olds, news);
    while (i < olds || k < news) {
        struct link old = { 0, 0, 0 }, new = { 0, 0, 0 };
        int order;

        if (i < olds)
            old = job_link(jobs->old, i);
        if (k < news)
            new = job_link(jobs->new, k);
        order = i == olds ? 1 : k == news ? -1 : by_ends(&old, &new);
        add_link(b, order <= 0 ? &old : NULL, order >= 0 ? &new : NULL);
        i += order <= 0;
        k += order >= 0;
    }
}

void add_differences(struct buffer *b, const struct file *job,
                     const struct file *new_job)
{
    struct jobs jobs = { job, new_job };
    struct buffer rest = { NULL, 0, 0 };
    unsigned run_times = run_times_that_differ(&jobs);

    add_numbers(&rest, "version", job_version(job), job_version(new_job));
    add_nodes(&rest, &jobs);
    add_tasks(&rest, &jobs);
    add_links(&rest, &jobs);
    buffer_print(b, "new job: ");
    if (run_times == 0 && rest.length == 0)
        buffer_print(b, "the same\n");
    else
        buffer_print(b, "run times that differ: %u, %s\n", run_times,
                     rest.length ? "and also" : "nothing else does");
    if (rest.length)
        buffer_add(b, rest.data, rest.length);
    buffer_free(&rest);
}
