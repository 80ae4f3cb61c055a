/* trial: whether a plan outlives each loss at every moment; for a no, a run that shows
 * it. */
#include "commands.h"

#include "groups.h"
#include "layout.h"
#include "refusal.h"

#include <string.h>

enum { SAYS_NO = 3 }; /* an exit status: a no is an answer, and no refusal */

/* One of the runs that are looked at, with its loss in o. */
struct run {
    const struct input *in;
    struct options o;
    struct file outcomes; /* replay's numbers */
};

static void add_copy(struct buffer *b, const struct copy *copy)
{
    buffer_print(b, "the %s of task %u", copy->backup ? "backup" : "primary",
                 (unsigned)copy->task);
}

static bool add_idle_primary(struct buffer *b, const struct run *r)
{
    for (uint32_t task = 0; task < job_tasks(&r->in->job); task++) {
        struct copy primary = plan_copy(&r->in->job, &r->in->plan, task, 0);

        if (copy_outcome(&r->outcomes, &primary) == SEQOPCHI_FINISHED)
            continue;
        add_copy(b, &primary);
        buffer_print(b, " does not start\n");
        return true;
    }
    return false;
}

static bool add_undone(struct buffer *b, const struct run *r)
{
    for (uint32_t task = 0; task < job_tasks(&r->in->job); task++) {
        uint32_t finish = task_finish(&r->outcomes, task);
        uint32_t deadline = job_deadline(&r->in->job, task);

        if (finish > 0 && finish <= deadline)
            continue;
        buffer_print(b, "task %u is ", (unsigned)task);
        if (finish == 0)
            buffer_print(b, "not done; its deadline is %u\n", (unsigned)deadline);
        else
            buffer_print(b, "done at %u, after its deadline, %u\n", (unsigned)finish,
                         (unsigned)deadline);
        return true;
    }
    return false;
}

/* Two copies on one node, if both are started and share a tick. Neither is cut: once the
 * run without loss is good, no two that started on a lost node overlap. */
static bool add_pair(struct buffer *b, const struct run *r, const struct copy *one,
                     const struct copy *other)
{
    uint32_t from = one->start > other->start ? one->start : other->start;
    uint32_t to = one->finish < other->finish ? one->finish : other->finish;

    if (one->node != other->node || from >= to || !is_started(&r->outcomes, one)
        || !is_started(&r->outcomes, other))
        return false;
    add_copy(b, one);
    buffer_print(b, " and ");
    add_copy(b, other);
    buffer_print(b, " both hold node %u from %u to %u\n", (unsigned)one->node,
                 (unsigned)from, (unsigned)to);
    return true;
}

/* By lower task, then higher, as the judge has pairs; a task's own two are one. */
static bool add_overlap(struct buffer *b, const struct run *r)
{
    uint32_t copies = 2 * job_tasks(&r->in->job);

    for (uint32_t i = 0; i < copies; i++)
        for (uint32_t k = i + 1; k < copies; k++) {
            struct copy one = plan_copy(&r->in->job, &r->in->plan, i / 2, i % 2);
            struct copy other = plan_copy(&r->in->job, &r->in->plan, k / 2, k % 2);

            if (add_pair(b, r, &one, &other))
                return true;
        }
    return false;
}

/* A name as a shell takes it. */
static void add_name(struct buffer *b, const char *name)
{
    static const char plain[] = "abcdefghijklmnopqrstuvwxyzABCDEFGHIJKLMNOPQRSTUVWXYZ"
                                "0123456789_-./+,:=@%";

    buffer_print(b, name[0] == '-' && !is_dash(name) ? " ./" : " ");
    if (name[0] && name[strspn(name, plain)] == '\0') {
        buffer_print(b, "%s", name);
        return;
    }
    buffer_print(b, "'");
    for (; *name; name++)
        if (*name == '\'')
            buffer_print(b, "'\\''");
        else
            buffer_add(b, name, 1);
    buffer_print(b, "'");
}

static void add_command(struct buffer *b, const char *what, const char *command,
                        const struct options *o)
{
    buffer_print(b, "%s: seqopchi %s", what, command);
    add_name(b, o->path[0]);
    add_name(b, o->path[1]);
    if (o->lose)
        buffer_print(b, " --lose %u@%u", (unsigned)o->group, (unsigned)o->tick);
}

/* What goes wrong in the run, and how to see it; false if nothing does. Without a loss
 * chart draws the plan. */
static bool add_wrong(struct buffer *b, const struct run *r)
{
    struct buffer wrong = { NULL, 0, 0 };
    bool found = (!r->o.lose && add_idle_primary(&wrong, r)) || add_undone(&wrong, r)
        || add_overlap(&wrong, r);

    if (found) {
        buffer_print(b, "no\n");
        add_cause(b, r->in, &r->o);
        buffer_add(b, wrong.data, wrong.length);
        add_command(b, "print the run", "replay", &r->o);
        buffer_print(b, "\n");
        add_command(b, r->o.lose ? "draw the run" : "draw the plan", "chart", &r->o);
        buffer_print(b, " -o FILE.svg\n");
    }
    buffer_free(&wrong);
    return found;
}

/* Run 0 has no loss; the others have that of a primary's group, the tick before its
 * finish, task by task. If any loss shows the no, one of these does. */
static void choose_loss(struct run *r, uint32_t number)
{
    r->o.lose = number > 0;
    if (r->o.lose) {
        struct copy primary = plan_copy(&r->in->job, &r->in->plan, number - 1, 0);

        r->o.group = job_group(&r->in->job, primary.node);
        r->o.tick = primary.finish - 1;
    }
}

static int add_no(struct buffer *b, const struct input *in, const struct options *o)
{
    struct run r = { in, *o, { NULL, NULL, 0, NULL } };
    bool found = false;

    for (uint32_t k = 0; !found && k <= job_tasks(&in->job); k++) {
        int status;

        choose_loss(&r, k);
        status = replayed(&r.outcomes, in, &r.o);
        if (status)
            return status;
        found = add_wrong(b, &r);
        file_free(&r.outcomes);
    }
    return found ? SAYS_NO : failed("the trial says no, but no run shows it");
}

int run_trial(const struct options *o)
{
    struct input in;
    struct buffer text = { NULL, 0, 0 };
    int status = read_input(&in, o), written;
    uint64_t result;

    if (status)
        return status;
    result = seqopchi_trial(in.job.data, in.job.length, in.plan.data, in.plan.length);
    if (result == SEQOPCHI_TRIAL_NO)
        status = add_no(&text, &in, o);
    else if (result)
        status = refused(result, &in.job, &in.plan);
    else
        buffer_print(&text, "yes\n");
    free_input(&in);
    if (status != 0 && status != SAYS_NO) {
        buffer_free(&text);
        return status;
    }
    written = finish_output(o, &text);
    return written ? written : status;
}
