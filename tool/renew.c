/* times: the job with run times from the log of the last runs. */
#include "commands.h"

#include "layout.h"
#include "log.h"
#include "refusal.h"

/* A job and a log, and the job with the run times of the log. */
struct renewal {
    struct input in;
    struct source log;
    uint8_t bytes[SEQOPCHI_MAX_JOB_BYTES];
    struct file job; /* in these bytes */
};

/* How many of the records that count are of this task on this node. */
static unsigned records_of(const struct file *log, uint32_t task, uint32_t node)
{
    size_t records = log_records(log), next = 0;
    unsigned count = 0;

    if (records > SEQOPCHI_LOG_WINDOW)
        next = records - SEQOPCHI_LOG_WINDOW;
    for (; next < records; next++) {
        struct record r = log_record(log, next);

        count += r.task == task && r.node == node;
    }
    return count;
}

static void add_record_counts(struct buffer *b, const struct file *log)
{
    size_t records = log_records(log);

    buffer_print(b, "log: records %zu", records);
    if (records > SEQOPCHI_LOG_WINDOW)
        buffer_print(b, ", of which the newest %d count\n", SEQOPCHI_LOG_WINDOW);
    else
        buffer_print(b, records > 0 ? ", all count\n" : "\n");
}

/* The run times that are not as they were; gives how many. */
static unsigned add_changes(struct buffer *b, const struct renewal *r)
{
    uint32_t nodes = job_nodes(&r->job), tasks = job_tasks(&r->job);
    unsigned changes = 0;

    for (uint32_t task = 0; task < tasks; task++)
        for (uint32_t node = 0; node < nodes; node++) {
            uint32_t old = job_run_time(&r->in.job, task, node);
            uint32_t new = job_run_time(&r->job, task, node);

            if (new == old)
                continue;
            if (changes++ == 0)
                buffer_print(b, "task  node   listed          new  records\n");
            buffer_print(b, "%4u  %4u  %7u  ->  %7u  %7u\n", (unsigned)task,
                         (unsigned)node, (unsigned)old, (unsigned)new,
                         records_of(&r->log.file, task, node));
        }
    return changes;
}

static int tell_changes(const struct renewal *r)
{
    struct buffer text = { NULL, 0, 0 };
    int status;

    add_record_counts(&text, &r->log.file);
    if (add_changes(&text, r) == 0)
        buffer_print(&text, "no run time changed\n");
    status = file_write("-", text.data, text.length);
    buffer_free(&text);
    return status;
}

/* A job that goes to standard output is there alone. */
static int renew(const struct options *o, struct renewal *r)
{
    const struct file *job = &r->in.job, *log = &r->log.file;
    uint64_t result = seqopchi_renew_job(job->data, job->length, log->data, log->length,
                                         r->bytes, sizeof r->bytes);
    int status;

    if (result)
        return refused_log(result, job, log);
    r->job = *job;
    r->job.data = r->bytes;
    status = file_write(o->output, r->bytes, job->length);
    return status || is_dash(o->output) ? status : tell_changes(r);
}

int run_times(const struct options *o)
{
    struct options first = { .path = { o->path[0] }, .paths = 1 };
    struct renewal r;
    int status = read_input(&r.in, &first);

    if (status)
        return status;
    status = log_read(&r.log, o->path[1], &r.in.job);
    if (status == 0)
        status = renew(o, &r);
    free_input(&r.in);
    source_free(&r.log);
    return status;
}
