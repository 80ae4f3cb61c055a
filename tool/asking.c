/* ask and commit: where one more task would go, and booking it there. */
#include "commands.h"

#include "groups.h"
#include "layout.h"
#include "new_task.h"
#include "refusal.h"

int read_request(struct request *r, const struct options *o)
{
    int status = read_input(&r->in, o);
    uint64_t result;

    if (status)
        return status;
    status = source_read(&r->task, o->path[2]);
    if (status == 0) {
        result = seqopchi_judge(r->in.job.data, r->in.job.length,
                                r->in.plan.data, r->in.plan.length);
        status = result ? refused(result, &r->in.job, &r->in.plan)
            : new_task_pack(&r->task, &r->in.job);
    }
    if (status)
        free_request(r);
    return status;
}

void free_request(struct request *r)
{
    free_input(&r->in);
    source_free(&r->task);
}

static int asked(const struct request *r, uint32_t places[4])
{
    const struct file *job = &r->in.job, *plan = &r->in.plan, *task = &r->task.file;
    uint64_t result = seqopchi_ask(job->data, job->length, plan->data, plan->length,
                                   task->data, task->length, places);

    return result ? refused_task(result, job, plan, task) : 0;
}

static uint32_t finish(const struct request *r, uint32_t node, uint32_t start)
{
    return start + number_at(&r->task.file,
                             new_run_times_at(&r->in.job) + 4 * (size_t)node);
}

static void add_places(struct buffer *b, const struct request *r,
                       const uint32_t places[4])
{
    static const char *const copy[] = { "primary on ", "\nbackup on " };

    for (int i = 0; i < 2; i++) {
        uint32_t node = places[2 * i], start = places[2 * i + 1];

        buffer_print(b, "%s", copy[i]);
        add_node_name(b, &r->in.job, node);
        buffer_print(b, " from %u to %u", (unsigned)start,
                     (unsigned)finish(r, node, start));
    }
    buffer_print(b, ", deadline %u\n",
                 (unsigned)number_at(&r->task.file, new_deadline_at(&r->in.job)));
}

/* The last line is the one that a booking has more than the description. */
int run_ask(const struct options *o)
{
    struct request r;
    struct buffer text = { NULL, 0, 0 };
    uint32_t places[4];
    int status = read_request(&r, o);

    if (status)
        return status;
    status = asked(&r, places);
    if (status == 0) {
        buffer_print(&text, "task %u would find room; nothing is booked\n",
                     (unsigned)job_tasks(&r.in.job));
        add_places(&text, &r, places);
        buffer_print(&text, "place primary %u at %u backup %u at %u\n",
                     (unsigned)places[0], (unsigned)places[1], (unsigned)places[2],
                     (unsigned)places[3]);
        status = finish_output(o, &text);
    }
    free_request(&r);
    return status;
}

/* Makes a booking of a description: with the place that is asked for here, which
 * stands on no line. 0, or 1 after a refusal. */
static int add_asked(struct buffer *bytes, struct file *booking,
                     const struct request *r)
{
    uint32_t places[4];
    int status = asked(r, places);

    if (status)
        return status;
    buffer_add(bytes, booking->data, booking->length);
    for (int i = 0; i < 4; i++)
        buffer_number(bytes, places[i]);
    booking->data = (uint8_t *)bytes->data;
    booking->length = bytes->length;
    booking->lines = NULL;
    return 0;
}

/* What was booked, from the booking's last four numbers. */
static int tell_booked(const struct request *r, const struct file *booking)
{
    struct buffer text = { NULL, 0, 0 };
    uint32_t places[4];
    int status;

    for (int i = 0; i < 4; i++)
        places[i] = number_at(booking, description_end(&r->in.job, booking) + 4 * i);
    buffer_print(&text, "task %u is booked\n", (unsigned)job_tasks(&r->in.job));
    add_places(&text, r, places);
    status = file_write("-", text.data, text.length);
    buffer_free(&text);
    return status;
}

static int write_longer(const struct options *o, const struct request *r,
                        const uint8_t *job, const uint8_t *plan)
{
    const struct file *old = &r->in.job;
    uint32_t tasks = job_tasks(old) + 1;
    struct output outputs[2] = { { o->output, job, 0 }, { o->second_output, plan, 0 } };

    outputs[0].length = SEQOPCHI_JOB_BYTES(job_version(old), job_nodes(old), tasks,
                                           job_links(old)
                                           + new_links(old, &r->task.file));
    outputs[1].length = SEQOPCHI_PLAN_BYTES(tasks);
    return files_write(outputs);
}

static int book(const struct options *o, const struct request *r,
                const struct file *booking)
{
    const struct file *job = &r->in.job, *plan = &r->in.plan;
    uint8_t longer_job[SEQOPCHI_MAX_JOB_BYTES], longer_plan[SEQOPCHI_MAX_PLAN_BYTES];
    uint64_t result = seqopchi_commit(job->data, job->length, plan->data, plan->length,
                                      booking->data, booking->length, longer_job,
                                      sizeof longer_job, longer_plan,
                                      sizeof longer_plan);
    int status;

    if (result)
        return refused_task(result, job, plan, booking);
    status = write_longer(o, r, longer_job, longer_plan);
    return status ? status : tell_booked(r, booking);
}

int run_commit(const struct options *o)
{
    struct request r;
    struct buffer bytes = { NULL, 0, 0 };
    struct file booking;
    int status = read_request(&r, o);

    if (status)
        return status;
    booking = r.task.file;
    if (!has_place(&r.in.job, &booking))
        status = add_asked(&bytes, &booking, &r);
    if (status == 0)
        status = book(o, &r, &booking);
    buffer_free(&bytes);
    free_request(&r);
    return status;
}
