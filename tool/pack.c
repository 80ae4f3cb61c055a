/* pack: a job, a plan, one more task, a list of times or a log from its text form
 * (TEXT.md). */
#include "pack.h"

#include "commands.h"
#include "layout.h"
#include "log.h"
#include "new_task.h"
#include "refusal.h"
#include "times.h"

#include <stdio.h>

struct job_text {
    uint32_t version;
    struct section nodes, tasks, links;
};

/* What is packed, and the job, or job and plan, beside it where they are named. */
enum kind { JOB_TEXT, PLAN_TEXT, TASK_TEXT, TIMES_TEXT, LOG_TEXT };

struct packing {
    enum kind kind;
    struct section file;
    struct input beside;
    bool named;
};

/* Only where the version has it: send TICKS */
static void pack_node_field(struct text *t, struct job_text *job,
                            const struct node_field *field)
{
    char what[40];

    if (field->since <= job->version) {
        snprintf(what, sizeof what, "the %s", field->name);
        take_word(t, field->word);
        section_add(&job->nodes, take_number(t, what), t->line);
    } else if (took_word(t, field->word)) {
        text_fault(t, "expected the end of the line, found '%s': nodes have a %s from "
                   "'job %u' on", field->word, field->name, (unsigned)field->since);
    }
}

/* node K detect TICKS send TICKS group GROUP */
static void pack_node(struct text *t, struct job_text *job)
{
    take_index(t, "node", job->nodes.entries);
    for (int i = 0; i < NODE_FIELDS; i++)
        pack_node_field(t, job, &node_fields[i]);
    take_line_end(t);
    job->nodes.entries++;
}

/* Only where the version has it: ready TICK */
static void pack_ready(struct text *t, struct section *tasks, uint32_t version)
{
    if (has_ready(version)) {
        take_word(t, "ready");
        section_add(tasks, take_number(t, "the ready time"), t->line);
    } else if (took_word(t, "ready")) {
        text_fault(t, "expected 'deadline', found 'ready': tasks have a ready time "
                   "from 'job 2' on");
    }
}

/* One run time for each node; - is 0. */
void pack_entry(struct text *t, struct section *to, uint32_t version, size_t nodes)
{
    pack_ready(t, to, version);
    take_word(t, "deadline");
    section_add(to, take_number(t, "the deadline"), t->line);
    take_word(t, "run");
    for (size_t node = 0; node < nodes && !t->wrong; node++) {
        if (took_word(t, "-"))
            section_add(to, 0, t->line);
        else
            section_add(to, take_number(t, "a run time for each node"), t->line);
    }
    take_line_end(t);
}

/* task K and its entry */
static void pack_task(struct text *t, struct job_text *job)
{
    take_index(t, "task", job->tasks.entries);
    pack_entry(t, &job->tasks, job->version, job->nodes.entries);
    job->tasks.entries++;
}

/* link FROM to TO delay TICKS */
static void pack_link(struct text *t, struct section *links)
{
    section_add(links, take_number(t, "the task that the link comes from"), t->line);
    take_word(t, "to");
    section_add(links, take_number(t, "the task that the link goes to"), t->line);
    take_word(t, "delay");
    section_add(links, take_number(t, "the delay"), t->line);
    take_line_end(t);
    links->entries++;
}

void pack_copies(struct text *t, struct section *to)
{
    static const char *const copy[] = { "primary", "backup" };

    for (int i = 0; i < 2; i++) {
        take_word(t, copy[i]);
        section_add(to, take_number(t, "a node"), t->line);
        take_word(t, "at");
        section_add(to, take_number(t, "a start"), t->line);
    }
    take_line_end(t);
}

/* The sections stand in the file's order: no line of an earlier one comes back. */
static void pack_job_line(struct text *t, struct job_text *job)
{
    if (job->tasks.entries == 0 && took_word(t, "node"))
        pack_node(t, job);
    else if (job->links.entries == 0 && took_word(t, "task"))
        pack_task(t, job);
    else if (took_word(t, "link"))
        pack_link(t, &job->links);
    else
        text_fault(t, "expected a line that begins with %s",
                   job->links.entries ? "'link'"
                   : job->tasks.entries ? "'task' or 'link'"
                   : "'node', 'task' or 'link'");
}

/* The lines of a version that this tool does not know are left alone: the library
 * refuses the version, which it reads first. */
static void pack_job(struct text *t, struct section *file, uint32_t version)
{
    struct job_text job = { 0 };

    if (!knows_version(version))
        return;
    job.version = version;
    while (next_line(t))
        pack_job_line(t, &job);
    section_append(file, &job.nodes);
    section_append(file, &job.tasks);
    section_append(file, &job.links);
    section_free(&job.nodes);
    section_free(&job.tasks);
    section_free(&job.links);
}

/* task K and its copies */
static void pack_plan(struct text *t, struct section *file)
{
    struct section places = { 0 };

    while (next_line(t)) {
        take_word(t, "task");
        take_index(t, "task", places.entries);
        pack_copies(t, &places);
        places.entries++;
    }
    section_append(file, &places);
    section_free(&places);
}

static enum kind take_kind(struct text *t)
{
    if (!next_line(t))
        text_fault(t, "expected 'job', 'plan', 'task', 'times' or 'log', but the text "
                   "ends");
    else if (took_word(t, "job"))
        return JOB_TEXT;
    else if (took_word(t, "plan"))
        return PLAN_TEXT;
    else if (took_word(t, "times"))
        return TIMES_TEXT;
    else if (took_word(t, "log"))
        return LOG_TEXT;
    else if (!took_word(t, "task"))
        text_fault(t, "expected 'job', 'plan', 'task', 'times' or 'log' as the first "
                   "word");
    return TASK_TEXT;
}

/* Which files go with a text. */
static int check_beside(enum kind kind, const struct options *o, const char *name)
{
    if (kind != TIMES_TEXT && o->plan)
        return failed("'%s' has no times: --plan goes with a list of them", name);
    if (kind == JOB_TEXT && o->job)
        return failed("'%s' is a job: --job goes with a plan, a task, times or a log",
                      name);
    if (kind == TASK_TEXT && !o->job)
        return failed("'%s' describes a task: --job JOB is missing", name);
    if (kind == TIMES_TEXT && !o->job != !o->plan)
        return failed("'%s' lists times: --job JOB and --plan PLAN go together", name);
    return 0;
}

/* A task is taken apart by the version and the nodes of its job. */
static int read_beside(struct packing *p, const struct options *o, const char *name)
{
    struct options beside = { .path = { o->job, o->plan }, .paths = o->plan ? 2 : 1 };
    uint64_t result;
    int status = check_beside(p->kind, o, name);

    if (status || !o->job)
        return status;
    status = read_input(&p->beside, &beside);
    if (status)
        return status;
    p->named = true;
    result = p->kind == TASK_TEXT ? ask_job(&p->beside.job) : 0;
    return result ? refused(result, &p->beside.job, NULL) : 0;
}

/* Behind the first word: that of a job or plan is followed by the version. */
static void pack_text(struct text *t, struct packing *p)
{
    uint32_t version;

    if (p->kind == TASK_TEXT) {
        pack_new_task(t, &p->file, &p->beside.job);
        return;
    }
    if (p->kind == TIMES_TEXT) {
        pack_times(t, &p->file);
        return;
    }
    if (p->kind == LOG_TEXT) {
        pack_log(t, &p->file);
        return;
    }
    version = take_number(t, "the version");
    section_add(&p->file, version, t->line);
    take_line_end(t);
    if (p->kind == JOB_TEXT)
        pack_job(t, &p->file, version);
    else
        pack_plan(t, &p->file);
}

/* The library reads a task behind a passed plan: that is the planner's here. If it has
 * none for the job, ask and commit will tell. */
static int ask_packed_task(const struct file *job, const struct file *packed)
{
    uint8_t bytes[SEQOPCHI_MAX_PLAN_BYTES];
    struct file plan = { "the plan", bytes, 0, NULL };
    uint64_t result = seqopchi_plan(job->data, job->length, bytes, sizeof bytes);

    if (result)
        return 0;
    plan.length = SEQOPCHI_PLAN_BYTES(job_tasks(job));
    result = ask_new_task(job, &plan, packed);
    return result ? refused_task(result, job, &plan, packed) : 0;
}

/* The refusal of what was packed, or 0. A plan or log without its job is not asked about:
 * the judge or 'times' will be; nor is a list of times without its plan: replay will
 * be. */
static int ask_packed(const struct packing *p, const struct file *packed)
{
    const struct file *job = &p->beside.job, *plan = &p->beside.plan;
    uint64_t result;

    if (p->kind == JOB_TEXT) {
        result = ask_job(packed);
        return result ? refused(result, packed, NULL) : 0;
    }
    if (p->kind == TASK_TEXT)
        return ask_packed_task(job, packed);
    if (p->kind == TIMES_TEXT) {
        result = p->named ? ask_times(job, plan, packed) : 0;
        return result ? refused_times(result, job, plan, packed) : 0;
    }
    if (p->kind == LOG_TEXT) {
        result = p->named ? ask_log(job, packed) : 0;
        return result ? refused_log(result, job, packed) : 0;
    }
    result = p->named ? ask_files(job, packed) : 0;
    return result ? refused(result, job, packed) : 0;
}

static int pack_source(struct packing *p, const struct options *o,
                       const struct file *source)
{
    struct text text = text_of(source);
    struct file packed;
    int status;

    p->kind = take_kind(&text);
    status = text.wrong ? 2 : read_beside(p, o, source->name);
    if (status)
        return status;
    pack_text(&text, p);
    if (text.wrong)
        return 2;
    packed = section_file(&p->file, source->name);
    status = ask_packed(p, &packed);
    return status ? status : file_write(o->output, packed.data, packed.length);
}

int run_pack(const struct options *o)
{
    struct file source;
    struct packing packing = { 0 };
    int status = file_read_on(&source, o->path[0], TEXT_LIMIT + 1, log_goes_on, NULL);

    if (status == 0)
        status = check_text_length(&source);
    if (status == 0)
        status = pack_source(&packing, o, &source);
    if (packing.named)
        free_input(&packing.beside);
    section_free(&packing.file);
    file_free(&source);
    return status;
}
