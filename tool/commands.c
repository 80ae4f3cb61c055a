/* The commands that are little more than a call of the library. */
#include "commands.h"

#include "layout.h"
#include "refusal.h"
#include "times.h"

#include <string.h>

/* One byte more than the longest file: what follows does not change an answer. */
enum {
    JOB_READ = SEQOPCHI_MAX_JOB_BYTES + 1,
    PLAN_READ = SEQOPCHI_MAX_PLAN_BYTES + 1
};

int read_input(struct input *in, const struct options *o)
{
    int status;

    memset(in, 0, sizeof *in);
    in->planned = o->paths > 1;
    in->timed = o->times;
    status = file_read(&in->job, o->path[0], JOB_READ);
    if (status == 0 && in->planned)
        status = file_read(&in->plan, o->path[1], PLAN_READ);
    if (status == 0 && in->timed)
        status = times_read(&in->times, o->times);
    if (status)
        free_input(in);
    return status;
}

int read_readable(struct input *in, const struct options *o)
{
    int status = read_input(in, o);
    uint64_t result;

    if (status)
        return status;
    result = in->planned ? ask_files(&in->job, &in->plan) : ask_job(&in->job);
    if (result == 0)
        return 0;
    status = refused(result, &in->job, in->planned ? &in->plan : NULL);
    free_input(in);
    return status;
}

void free_input(struct input *in)
{
    file_free(&in->job);
    file_free(&in->plan);
    source_free(&in->times);
}

int finish_output(const struct options *o, struct buffer *text)
{
    int status = file_write(o->output, text->data, text->length);

    buffer_free(text);
    return status;
}

int run_plan(const struct options *o)
{
    struct input in;
    uint8_t plan[SEQOPCHI_MAX_PLAN_BYTES];
    int status = read_input(&in, o);
    uint64_t result;

    if (status)
        return status;
    result = seqopchi_plan(in.job.data, in.job.length, plan, sizeof plan);
    if (result)
        status = refused(result, &in.job, NULL);
    else
        status = file_write(o->output, plan, SEQOPCHI_PLAN_BYTES(job_tasks(&in.job)));
    free_input(&in);
    return status;
}

int run_judge(const struct options *o)
{
    struct input in;
    int status = read_input(&in, o);
    uint64_t result;

    if (status)
        return status;
    result = seqopchi_judge(in.job.data, in.job.length, in.plan.data, in.plan.length);
    if (result)
        status = refused(result, &in.job, &in.plan);
    else
        status = file_write(o->output, "passed\n", 7);
    free_input(&in);
    return status;
}

static void add_listing(struct buffer *b, const struct file *plan)
{
    uint32_t tasks = number_at(plan, 4);

    buffer_print(b, "task primary at backup at\n");
    for (uint32_t task = 0; task < tasks; task++) {
        buffer_print(b, "%u", (unsigned)task);
        for (size_t at = 8 + 16 * (size_t)task; at < 24 + 16 * (size_t)task; at += 4)
            buffer_print(b, " %u", (unsigned)number_at(plan, at));
        buffer_print(b, "\n");
    }
}

/* Standard output gets what the listing program would print, also for a
 * refusal; the sentence on standard error comes on top of it. */
int run_list(const struct options *o)
{
    struct input in;
    struct buffer text = { NULL, 0, 0 };
    uint8_t bytes[SEQOPCHI_MAX_PLAN_BYTES];
    struct file plan = { "the plan", bytes, sizeof bytes, NULL };
    int status = read_input(&in, o), written;
    uint64_t result;

    if (status)
        return status;
    result = seqopchi_plan(in.job.data, in.job.length, bytes, sizeof bytes);
    if (result) {
        buffer_print(&text, "refused %u %u %u\n", seqopchi_number(result),
                     (unsigned)seqopchi_first(result),
                     (unsigned)seqopchi_second(result));
        status = refused(result, &in.job, NULL);
    } else {
        add_listing(&text, &plan);
    }
    free_input(&in);
    written = finish_output(o, &text);
    return written ? written : status;
}
