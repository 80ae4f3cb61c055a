/* show: a job, also beside a newer one, and a plan with the judge's answer, as readable
 * text. */
#include "commands.h"

#include "differences.h"
#include "groups.h"
#include "layout.h"
#include "refusal.h"

#include <stdlib.h>
#include <string.h>

static void add_nodes(struct buffer *b, const struct file *job)
{
    uint32_t nodes = job_nodes(job);
    int fields = node_fields_in(job_version(job));

    buffer_print(b, "\nnode");
    for (int i = 0; i < fields; i++)
        buffer_print(b, "  %s", node_fields[i].word);
    buffer_print(b, "\n");
    for (uint32_t node = 0; node < nodes; node++) {
        buffer_print(b, "%4u", (unsigned)node);
        for (int i = 0; i < fields; i++)
            buffer_print(b, "  %*u", (int)strlen(node_fields[i].word),
                         (unsigned)job_node(job, node, i));
        buffer_print(b, "\n");
    }
}

/* Tables of tasks begin with the task and, where the job has it, its ready time. */
static void add_task_head(struct buffer *b, const struct file *job)
{
    buffer_print(b, "\ntask%s", has_ready(job_version(job)) ? "    ready" : "");
}

static void add_task(struct buffer *b, const struct file *job, uint32_t task)
{
    buffer_print(b, "%4u", (unsigned)task);
    if (has_ready(job_version(job)))
        buffer_print(b, "  %7u", (unsigned)job_ready(job, task));
}

static void add_run_time(struct buffer *b, const struct file *job, uint32_t task,
                         uint32_t node)
{
    uint32_t run = job_run_time(job, task, node);

    if (run > 0)
        buffer_print(b, "  %7u", (unsigned)run);
    else
        buffer_print(b, "  %7s", "-");
}

/* Beneath a task, the run times that differ in the newer job; no line if none does. */
static void add_new_run_times(struct buffer *b, const struct file *job,
                              const struct file *new_job, uint32_t task)
{
    uint32_t nodes = job_nodes(job), done = 0;

    for (uint32_t node = 0; node < nodes; node++) {
        if (!run_time_differs(job, new_job, task, node))
            continue;
        if (done == 0)
            buffer_print(b, " new%*s", has_ready(job_version(job)) ? 30 : 21, "");
        buffer_print(b, "%*s", 9 * (int)(node - done), "");
        add_run_time(b, new_job, task, node);
        done = node + 1;
    }
    if (done > 0)
        buffer_print(b, "\n");
}

static void add_tasks(struct buffer *b, const struct file *job,
                      const struct file *new_job)
{
    uint32_t nodes = job_nodes(job), tasks = job_tasks(job);

    add_task_head(b, job);
    buffer_print(b, "  deadline  run time on");
    for (uint32_t node = 0; node < nodes; node++)
        buffer_print(b, node ? "  %7u" : " node %u", (unsigned)node);
    buffer_print(b, "\n");
    for (uint32_t task = 0; task < tasks; task++) {
        add_task(b, job, task);
        buffer_print(b, "  %8u           ", (unsigned)job_deadline(job, task));
        for (uint32_t node = 0; node < nodes; node++)
            add_run_time(b, job, task, node);
        buffer_print(b, "\n");
        if (new_job)
            add_new_run_times(b, job, new_job, task);
    }
}

static void add_links(struct buffer *b, const struct file *job)
{
    uint32_t links = job_links(job);

    if (links == 0)
        return;
    buffer_print(b, "\nlink  from    to    delay\n");
    for (uint32_t k = 0; k < links; k++) {
        struct link link = job_link(job, k);

        buffer_print(b, "%4u  %4u  %4u  %7u\n", (unsigned)k, (unsigned)link.from,
                     (unsigned)link.to, (unsigned)link.delay);
    }
}

/* The newer job is null where there is none. */
static void add_job(struct buffer *b, const struct file *job,
                    const struct file *new_job)
{
    buffer_print(b, "job: nodes %u, tasks %u, links %u\n",
                 (unsigned)job_nodes(job), (unsigned)job_tasks(job),
                 (unsigned)job_links(job));
    add_nodes(b, job);
    add_tasks(b, job, new_job);
    add_links(b, job);
    if (new_job) {
        buffer_print(b, "\n");
        add_differences(b, job, new_job);
    }
}

void add_verdict(struct buffer *b, const struct input *in)
{
    buffer_print(b, "plan, by the judge: ");
    verdict_text(b, &in->job, &in->plan);
    buffer_print(b, "\n");
}

static void add_places(struct buffer *b, const struct input *in)
{
    uint32_t tasks = job_tasks(&in->job);

    add_task_head(b, &in->job);
    buffer_print(b, "  primary on     from       to"
                    "  backup on     from       to  deadline\n");
    for (uint32_t task = 0; task < tasks; task++) {
        struct copy p = plan_copy(&in->job, &in->plan, task, 0);
        struct copy q = plan_copy(&in->job, &in->plan, task, 1);

        add_task(b, &in->job, task);
        buffer_print(b, "  %10u  %7u  %7u  %9u  %7u  %7u  %8u\n",
                     (unsigned)p.node, (unsigned)p.start, (unsigned)p.finish,
                     (unsigned)q.node, (unsigned)q.start, (unsigned)q.finish,
                     (unsigned)job_deadline(&in->job, task));
    }
}

static void add_lanes(struct buffer *b, const struct input *in)
{
    size_t count, next = 0;
    struct copy *copies = plan_copies(&in->job, &in->plan, &count);
    uint32_t nodes = job_nodes(&in->job);

    for (uint32_t node = 0; node < nodes; node++) {
        buffer_print(b, "\n");
        add_node_name(b, &in->job, node);
        buffer_print(b, next < count && copies[next].node == node ? "\n" : ": empty\n");
        for (; next < count && copies[next].node == node; next++)
            buffer_print(b, "  %7u to %7u  %s of task %u\n",
                         (unsigned)copies[next].start,
                         (unsigned)copies[next].finish,
                         copies[next].backup ? "backup " : "primary",
                         (unsigned)copies[next].task);
    }
    free(copies);
}

static void add_plan(struct buffer *b, const struct input *in,
                     const struct file *new_job)
{
    buffer_print(b, "\n");
    add_verdict(b, in);
    if (new_job) {
        buffer_print(b, "the same plan for the new job: ");
        verdict_text(b, new_job, &in->plan);
        buffer_print(b, "\n");
    }
    add_places(b, in);
    add_lanes(b, in);
}

int run_show(const struct options *o)
{
    struct options second = { .path = { o->new_job }, .paths = 1 };
    struct input in, newer = { .planned = false };
    struct buffer text = { NULL, 0, 0 };
    const struct file *new_job = o->new_job ? &newer.job : NULL;
    int status = read_readable(&in, o);

    if (status)
        return status;
    if (new_job)
        status = read_readable(&newer, &second);
    if (status == 0) {
        add_job(&text, &in.job, new_job);
        if (in.planned)
            add_plan(&text, &in, new_job);
        free_input(&newer);
        status = finish_output(o, &text);
    }
    free_input(&in);
    return status;
}
