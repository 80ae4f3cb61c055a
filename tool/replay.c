/* replay: what becomes of each copy, with or without a loss and a list of times. */
#include "commands.h"

#include "groups.h"
#include "layout.h"
#include "refusal.h"

static uint64_t replay_listed(const struct input *in, const struct options *o,
                              struct file *run)
{
    const struct file *job = &in->job, *plan = &in->plan;

    if (o->lose)
        return seqopchi_replay_loss(job->data, job->length, plan->data, plan->length,
                                    o->group, o->tick, run->data, run->length);
    return seqopchi_replay(job->data, job->length, plan->data, plan->length,
                           run->data, run->length);
}

static uint64_t replay_actual(const struct input *in, const struct options *o,
                              struct file *run)
{
    const struct file *job = &in->job, *plan = &in->plan, *times = &in->times.file;

    if (o->lose)
        return seqopchi_replay_times_loss(job->data, job->length, plan->data,
                                          plan->length, o->group, o->tick,
                                          times->data, times->length,
                                          run->data, run->length);
    return seqopchi_replay_times(job->data, job->length, plan->data, plan->length,
                                 times->data, times->length, run->data, run->length);
}

int replayed(struct file *run, const struct input *in, const struct options *o)
{
    uint64_t result;

    run->name = "the run";
    run->lines = NULL;
    run->length = SEQOPCHI_MAX_REPLAY_BYTES;
    run->data = allocated(run->length);
    result = in->timed ? replay_actual(in, o, run) : replay_listed(in, o, run);
    if (result == 0)
        return 0;
    file_free(run);
    return refused_times(result, &in->job, &in->plan,
                         in->timed ? &in->times.file : NULL);
}

const char *outcome_word(uint32_t outcome)
{
    switch (outcome) {
    case SEQOPCHI_CUT:
        return "cut";
    case SEQOPCHI_FINISHED:
        return "finished";
    default:
        return "not started";
    }
}

uint32_t copy_outcome(const struct file *run, const struct copy *copy)
{
    return number_at(run, 12 * (size_t)copy->task + (copy->backup ? 4 : 0));
}

bool is_started(const struct file *run, const struct copy *copy)
{
    return copy_outcome(run, copy) != SEQOPCHI_NOT_STARTED;
}

uint32_t task_finish(const struct file *run, uint32_t task)
{
    return number_at(run, 12 * (size_t)task + 8);
}

/* A column of ticks that a task without a finished copy has none of. */
static void add_ticks(struct buffer *b, bool finished, uint32_t ticks)
{
    if (finished)
        buffer_print(b, "  %7u", (unsigned)ticks);
    else
        buffer_print(b, "  %7s", "none");
}

/* How long the finished copy took, and how long it was listed with. */
static void add_taken(struct buffer *b, const struct input *in, const struct file *run,
                      uint32_t task)
{
    uint32_t finish = task_finish(run, task);
    bool is_backup = number_at(run, 12 * (size_t)task + 4) == SEQOPCHI_FINISHED;
    struct copy copy = plan_copy(&in->job, &in->plan, task, is_backup);

    add_ticks(b, finish > 0, finish - copy.start);
    add_ticks(b, finish > 0, copy.finish - copy.start);
}

static void add_run(struct buffer *b, const struct input *in, const struct file *run)
{
    uint32_t tasks = job_tasks(&in->job);

    buffer_print(b, "task  primary      backup        finish  deadline%s\n",
                 in->timed ? "     took   listed" : "");
    for (uint32_t task = 0; task < tasks; task++) {
        uint32_t finish = task_finish(run, task);

        buffer_print(b, "%4u  %-11s  %-11s", (unsigned)task,
                     outcome_word(number_at(run, 12 * (size_t)task)),
                     outcome_word(number_at(run, 12 * (size_t)task + 4)));
        add_ticks(b, finish > 0, finish);
        buffer_print(b, "  %8u", (unsigned)job_deadline(&in->job, task));
        if (in->timed)
            add_taken(b, in, run, task);
        buffer_print(b, "\n");
    }
}

void add_cause(struct buffer *b, const struct input *in, const struct options *o)
{
    if (!o->lose)
        buffer_print(b, "no loss");
    else
        add_loss(b, &in->job, o->group, o->tick);
    if (o->lose && job_has(&in->job, GROUP)) {
        buffer_print(b, " (");
        add_nodes_of_group(b, &in->job, o->group);
        buffer_print(b, ")");
    }
    buffer_print(b, in->timed ? ", actual times\n" : "\n");
}

int run_replay(const struct options *o)
{
    struct input in;
    struct file run;
    struct buffer text = { NULL, 0, 0 };
    int status = read_input(&in, o);

    if (status)
        return status;
    status = replayed(&run, &in, o);
    if (status == 0) {
        add_cause(&text, &in, o);
        add_run(&text, &in, &run);
        file_free(&run);
        status = finish_output(o, &text);
    }
    free_input(&in);
    return status;
}
