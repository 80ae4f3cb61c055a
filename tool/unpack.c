/* unpack: the text form of a job, of a plan or log behind its job, or of one more task or
 * a list of times behind job and plan (TEXT.md). */
#include "commands.h"

#include "layout.h"
#include "log.h"
#include "refusal.h"

/* The entry of a task, which begins at that byte of f. */
static void add_entry(struct buffer *b, const struct file *job, const struct file *f,
                      size_t at)
{
    uint32_t nodes = job_nodes(job);

    if (has_ready(job_version(job)))
        buffer_print(b, " ready %u", (unsigned)number_at(f, at));
    buffer_print(b, " deadline %u run",
                 (unsigned)number_at(f, at + new_deadline_at(job)));
    for (uint32_t node = 0; node < nodes; node++) {
        uint32_t run = number_at(f, at + new_run_times_at(job) + 4 * (size_t)node);

        if (run > 0)
            buffer_print(b, " %u", (unsigned)run);
        else
            buffer_print(b, " -");
    }
    buffer_print(b, "\n");
}

static void add_node(struct buffer *b, const struct file *job, uint32_t node)
{
    int fields = node_fields_in(job_version(job));

    buffer_print(b, "node %u", (unsigned)node);
    for (int i = 0; i < fields; i++)
        buffer_print(b, " %s %u", node_fields[i].word,
                     (unsigned)job_node(job, node, i));
    buffer_print(b, "\n");
}

static void add_job_text(struct buffer *b, const struct file *job)
{
    uint32_t nodes = job_nodes(job), tasks = job_tasks(job), links = job_links(job);

    buffer_print(b, "job %u\n", (unsigned)job_version(job));
    for (uint32_t node = 0; node < nodes; node++)
        add_node(b, job, node);
    for (uint32_t task = 0; task < tasks; task++) {
        buffer_print(b, "task %u", (unsigned)task);
        add_entry(b, job, job, task_at(job, task));
    }
    for (uint32_t k = 0; k < links; k++) {
        struct link link = job_link(job, k);

        buffer_print(b, "link %u to %u delay %u\n", (unsigned)link.from,
                     (unsigned)link.to, (unsigned)link.delay);
    }
}

/* The four numbers of a place, which begin at that byte of f. */
static void add_copies(struct buffer *b, const struct file *f, size_t at)
{
    buffer_print(b, " primary %u at %u backup %u at %u\n", (unsigned)number_at(f, at),
                 (unsigned)number_at(f, at + 4), (unsigned)number_at(f, at + 8),
                 (unsigned)number_at(f, at + 12));
}

static void add_plan_text(struct buffer *b, const struct input *in)
{
    uint32_t tasks = job_tasks(&in->job);

    buffer_print(b, "plan %u\n", (unsigned)number_at(&in->plan, 0));
    for (uint32_t task = 0; task < tasks; task++) {
        buffer_print(b, "task %u", (unsigned)task);
        add_copies(b, &in->plan, 8 + 16 * (size_t)task);
    }
}

static void add_new_task_text(struct buffer *b, const struct file *job,
                              const struct file *task)
{
    uint32_t links = new_links(job, task);

    buffer_print(b, "task");
    add_entry(b, job, task, 0);
    for (uint32_t k = 0; k < links; k++) {
        size_t at = new_link_at(job, k);

        buffer_print(b, "link from %u delay %u\n", (unsigned)number_at(task, at),
                     (unsigned)number_at(task, at + 4));
    }
    if (!has_place(job, task))
        return;
    buffer_print(b, "place");
    add_copies(b, task, description_end(job, task));
}

static void add_times_text(struct buffer *b, const struct file *job,
                           const struct file *times)
{
    uint32_t tasks = job_tasks(job);

    buffer_print(b, "times\n");
    for (uint32_t task = 0; task < tasks; task++)
        buffer_print(b, "task %u primary %u backup %u\n", (unsigned)task,
                     (unsigned)number_at(times, 8 * (size_t)task),
                     (unsigned)number_at(times, 8 * (size_t)task + 4));
}

static int unpack_times(const struct options *o)
{
    struct input in;
    struct buffer text = { NULL, 0, 0 };
    int status = read_input(&in, o);
    uint64_t result;

    if (status)
        return status;
    result = ask_times(&in.job, &in.plan, &in.times.file);
    if (result) {
        status = refused_times(result, &in.job, &in.plan, &in.times.file);
    } else {
        add_times_text(&text, &in.job, &in.times.file);
        status = finish_output(o, &text);
    }
    free_input(&in);
    return status;
}

static void add_log_text(struct buffer *b, const struct file *log)
{
    size_t records = log_records(log);

    buffer_print(b, "log\n");
    for (size_t k = 0; k < records; k++) {
        struct record r = log_record(log, k);

        buffer_print(b, "task %u node %u took %u\n", (unsigned)r.task,
                     (unsigned)r.node, (unsigned)r.ticks);
    }
}

static int unpack_log(const struct options *o)
{
    struct input in;
    struct source log;
    struct buffer text = { NULL, 0, 0 };
    int status = read_input(&in, o);
    uint64_t result;

    if (status)
        return status;
    status = log_read(&log, o->log, &in.job);
    result = status ? 0 : ask_log(&in.job, &log.file);
    if (result) {
        status = refused_log(result, &in.job, &log.file);
    } else if (status == 0) {
        add_log_text(&text, &log.file);
        status = finish_output(o, &text);
    }
    source_free(&log);
    free_input(&in);
    return status;
}

static int unpack_new_task(const struct options *o)
{
    struct request r;
    struct buffer text = { NULL, 0, 0 };
    int status = read_request(&r, o);
    uint64_t result;

    if (status)
        return status;
    result = ask_new_task(&r.in.job, &r.in.plan, &r.task.file);
    if (result) {
        status = refused_task(result, &r.in.job, &r.in.plan, &r.task.file);
    } else {
        add_new_task_text(&text, &r.in.job, &r.task.file);
        status = finish_output(o, &text);
    }
    free_request(&r);
    return status;
}

int run_unpack(const struct options *o)
{
    struct input in;
    struct buffer text = { NULL, 0, 0 };
    int status;

    if (o->paths > 2)
        return unpack_new_task(o);
    if (o->times)
        return unpack_times(o);
    if (o->log)
        return unpack_log(o);
    status = read_readable(&in, o);
    if (status)
        return status;
    if (in.planned)
        add_plan_text(&text, &in);
    else
        add_job_text(&text, &in.job);
    free_input(&in);
    return finish_output(o, &text);
}
