/* trace: the fault set of each task, behind the links that arrive at it. */
#include "commands.h"

#include "groups.h"
#include "layout.h"
#include "refusal.h"

#include <stdio.h>

static uint32_t set_of(const struct file *sets, uint32_t task)
{
    return number_at(sets, 4 * (size_t)task);
}

/* When the result of a copy is on a node, in a type that holds any three numbers of
 * the files together. */
static uint64_t arrival(const struct file *job, const struct copy *sender,
                        uint32_t delay, uint32_t node)
{
    if (sender->node == node)
        return sender->finish;
    return (uint64_t)sender->finish + delay + job_send(job, sender->node);
}

/* How a link is called, and whether it is strong and by how much: columns that are
 * filled up behind, so that their words stand together for a search. */
static void add_columns(struct buffer *b, const struct link *link, uint64_t there,
                        uint64_t start)
{
    bool strong = there <= start;
    char name[32], kind[32];

    snprintf(name, sizeof name, "link %u to %u", (unsigned)link->from,
             (unsigned)link->to);
    snprintf(kind, sizeof kind, "%s by %llu", strong ? "strong" : "weak",
             (unsigned long long)(strong ? start - there : there - start));
    buffer_print(b, "  %-13s  %-16s  ", name, kind);
}

/* The sender's set is final, and stands above: a link comes from a lower task. */
static void add_link(struct buffer *b, const struct input *in, const struct link *link,
                     const struct file *sets)
{
    struct copy backup = plan_copy(&in->job, &in->plan, link->from, 1);
    struct copy primary = plan_copy(&in->job, &in->plan, link->to, 0);
    uint64_t there = arrival(&in->job, &backup, link->delay, primary.node);

    add_columns(b, link, there, primary.start);
    buffer_print(b, "backup %u ends at %u, is there at %llu; primary %u starts at %u",
                 (unsigned)link->from, (unsigned)backup.finish,
                 (unsigned long long)there, (unsigned)link->to,
                 (unsigned)primary.start);
    if (there > primary.start) {
        buffer_print(b, "; brings ");
        add_set(b, set_of(sets, link->from), " ");
    }
    buffer_print(b, "\n");
}

static void add_arriving(struct buffer *b, const struct input *in, uint32_t task,
                         const struct file *sets)
{
    uint32_t links = job_links(&in->job), found = 0;

    for (uint32_t k = 0; k < links; k++) {
        struct link link = job_link(&in->job, k);

        if (link.to != task)
            continue;
        add_link(b, in, &link, sets);
        found++;
    }
    if (found == 0)
        buffer_print(b, "  no link arrives\n");
}

static void add_copy(struct buffer *b, const struct file *job, const struct copy *copy)
{
    buffer_print(b, "%s on ", copy->backup ? ", backup" : "primary");
    add_node_name(b, job, copy->node);
    buffer_print(b, " from %u to %u", (unsigned)copy->start, (unsigned)copy->finish);
}

static void add_task(struct buffer *b, const struct input *in, uint32_t task,
                     const struct file *sets)
{
    struct copy primary = plan_copy(&in->job, &in->plan, task, 0);
    struct copy backup = plan_copy(&in->job, &in->plan, task, 1);

    buffer_print(b, "task %u: ", (unsigned)task);
    add_copy(b, &in->job, &primary);
    add_copy(b, &in->job, &backup);
    buffer_print(b, "\n  begins with %u, its primary's %s\n",
                 (unsigned)job_group(&in->job, primary.node),
                 job_has(&in->job, GROUP) ? "group" : "node");
    add_arriving(b, in, task, sets);
    buffer_print(b, "  fault set of task %u: ", (unsigned)task);
    add_set(b, set_of(sets, task), " ");
    buffer_print(b, "\n");
}

/* The sets are the library's; only the times of the links are worked out here. */
int run_trace(const struct options *o)
{
    struct input in;
    struct buffer text = { NULL, 0, 0 };
    uint8_t bytes[SEQOPCHI_MAX_FAULT_SETS_BYTES];
    struct file sets = { "the fault sets", bytes, sizeof bytes, NULL };
    int status = read_input(&in, o);
    uint64_t result;

    if (status)
        return status;
    result = seqopchi_fault_sets(in.job.data, in.job.length, in.plan.data,
                                 in.plan.length, bytes, sizeof bytes);
    if (result) {
        status = refused(result, &in.job, &in.plan);
    } else {
        add_verdict(&text, &in);
        for (uint32_t task = 0; task < job_tasks(&in.job); task++)
            add_task(&text, &in, task, &sets);
        status = finish_output(o, &text);
    }
    free_input(&in);
    return status;
}
