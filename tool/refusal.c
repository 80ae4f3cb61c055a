/* The library's answers, and a refusal as a sentence. */
#include "refusal.h"

#include "fields.h"
#include "groups.h"
#include "layout.h"

#include <stdio.h>

/* With a buffer of no bytes planner and replay stop behind the reading, with 17. */
static uint64_t but_for_room(uint64_t result)
{
    return seqopchi_number(result) == SEQOPCHI_REFUSED_SHORT_BUFFER ? 0 : result;
}

uint64_t ask_job(const struct file *job)
{
    uint8_t none = 0;

    return but_for_room(seqopchi_plan(job->data, job->length, &none, 0));
}

/* By replay, which reads both files and never judges the plan. */
uint64_t ask_files(const struct file *job, const struct file *plan)
{
    uint8_t none = 0;

    return but_for_room(seqopchi_replay(job->data, job->length,
                                        plan->data, plan->length, &none, 0));
}

uint64_t ask_times(const struct file *job, const struct file *plan,
                   const struct file *times)
{
    uint8_t none = 0;

    return but_for_room(seqopchi_replay_times(job->data, job->length,
                                              plan->data, plan->length,
                                              times->data, times->length, &none, 0));
}

/* A log is read only where there is room for the table. */
uint64_t ask_log(const struct file *job, const struct file *log)
{
    uint8_t table[SEQOPCHI_MAX_RUN_TIMES_BYTES];

    return seqopchi_run_times(job->data, job->length, log->data, log->length,
                              table, sizeof table);
}

/* Behind the reading come other refusals: full, no place, stale, short buffer. */
uint64_t ask_new_task(const struct file *job, const struct file *plan,
                      const struct file *task)
{
    uint8_t none = 0;
    uint32_t places[4];
    uint64_t result;

    if (has_place(job, task))
        result = seqopchi_commit(job->data, job->length, plan->data, plan->length,
                                 task->data, task->length, &none, 0, &none, 0);
    else
        result = seqopchi_ask(job->data, job->length, plan->data, plan->length,
                              task->data, task->length, places);
    return seqopchi_number(result) < SEQOPCHI_REFUSED_SAME_NODE ? result : 0;
}

/* "byte 12 of 'x.job', the deadline of task 0"; in a packed text the line comes
 * first, except for a count, which stands on none. */
static void add_place(struct buffer *b, const struct file *f, size_t at,
                      const char *what)
{
    if (!f->lines) {
        buffer_print(b, "byte %zu of '%s', %s", at, f->name, what);
        return;
    }
    if (at < f->length && f->lines[at / 4] > 0)
        buffer_print(b, "line %u of ", f->lines[at / 4]);
    buffer_print(b, "'%s', %s (byte %zu when packed)", f->name, what, at);
}

static void add_limits(struct buffer *b, const struct field *field)
{
    if (field->low > field->high)
        buffer_print(b, "; no task comes after the last");
    else if (field->low == field->high)
        buffer_print(b, "; it must be %u", (unsigned)field->low);
    else
        buffer_print(b, "; it must be from %u to %u",
                     (unsigned)field->low, (unsigned)field->high);
}

/* Reached by the second link at the soonest. */
static void add_link_order(struct buffer *b, const struct file *job, size_t at)
{
    uint32_t number = (uint32_t)((at - link_at(job, 0)) / 12);
    struct link link = job_link(job, number), before = job_link(job, number - 1);
    char what[40];

    snprintf(what, sizeof what, "link %u", (unsigned)number);
    add_place(b, job, at, what);
    buffer_print(b, ", from %u to %u, does not rise above the link before, from %u "
                 "to %u", (unsigned)link.from, (unsigned)link.to,
                 (unsigned)before.from, (unsigned)before.to);
}

/* The same in a description, whose links all go to the new task. */
static void add_new_link_order(struct buffer *b, const struct file *job,
                               const struct file *task, size_t at)
{
    char what[40];

    snprintf(what, sizeof what, "link %zu", (at - new_link_at(job, 0)) / 8);
    add_place(b, task, at, what);
    buffer_print(b, ", from %u, does not rise above the link before, from %u",
                 (unsigned)number_at(task, at), (unsigned)number_at(task, at - 8));
}

/* What a call was given; all but the job are null where there is none. */
struct given {
    const struct file *job, *plan, *task, *times, *log;
};

/* Whether a booking was given to ask, for which its place is a tail. */
static bool is_place(const struct given *g, const struct file *f, size_t at)
{
    return f == g->task && at == description_end(g->job, f) && f->length == at + 16;
}

/* Of the texts only a list of times can have a line too many, or one too few. */
static void add_tail(struct buffer *b, const struct given *g, const struct file *f,
                     size_t at)
{
    uint32_t tasks = job_tasks(g->job);
    char what[32];

    if (is_place(g, f, at)) {
        add_place(b, f, at, "the place");
        buffer_print(b, ", is for commit; ask takes a description without one");
    } else if (f->lines) {
        snprintf(what, sizeof what, "task %u", (unsigned)tasks);
        add_place(b, f, at, what);
        buffer_print(b, ", is none of the job, whose last task is %u",
                     (unsigned)tasks - 1);
    } else {
        buffer_print(b, "byte %zu of '%s' follows the last section, where the file "
                     "must end", at, f->name);
    }
}

static void add_short(struct buffer *b, const struct file *f, size_t at,
                      const char *what)
{
    if (f->lines)
        buffer_print(b, "'%s' ends before %s (byte %zu when packed)", f->name, what,
                     at);
    else
        buffer_print(b, "'%s' has fewer than 4 bytes left at byte %zu, for %s",
                     f->name, at, what);
}

static struct field field_at(const struct given *g, const struct file *f, size_t at)
{
    if (f == g->task)
        return new_task_field(g->job, f, at);
    if (f == g->times)
        return times_field(g->job, g->plan, at);
    if (f == g->log)
        return log_field(g->job, f, at);
    return f == g->job ? job_field(f, at) : plan_field(g->job, at);
}

/* Of a number that is not within its limits, or a node that cannot run the task. */
static void add_value(struct buffer *b, unsigned number, const struct given *g,
                      const struct file *f, size_t at)
{
    struct field field = field_at(g, f, at);

    if (number == SEQOPCHI_REFUSED_SHORT) {
        add_short(b, f, at, field.name);
        return;
    }
    add_place(b, f, at, field.name);
    buffer_print(b, ", is %u", (unsigned)number_at(f, at));
    if (number != SEQOPCHI_REFUSED_UNABLE)
        add_limits(b, &field);
    else if (f == g->log)
        buffer_print(b, ", for which the job lists no run time of that task");
    else
        buffer_print(b, ", a node that cannot run the task (run time 0)");
    if (f == g->times)
        buffer_print(b, ", its listed run time");
}

/* The library reads job, plan, and task or times in turn, or job and log. */
static const struct file *faulty(const struct given *g)
{
    const struct file *third = g->task ? g->task : g->times;

    if ((!g->plan && !g->log) || ask_job(g->job))
        return g->job;
    if (g->log)
        return g->log;
    return !third || ask_files(g->job, g->plan) ? g->plan : third;
}

/* Where in the file at fault. A place in a log is told modulo 2 to the 32nd: of those
 * that may be meant it is the first up to which the log is refused alike. */
static size_t fault_at(const struct given *g, const struct file *f, uint64_t result)
{
    const uint64_t step = (uint64_t)UINT32_MAX + 1;
    struct file head = *f;
    uint64_t at = seqopchi_first(result);

    while (f == g->log && at + step <= f->length) {
        head.length = (size_t)at + 4;
        if (ask_log(g->job, &head) == result)
            break;
        at += step;
    }
    return (size_t)at;
}

/* 1 to 7: the first place is a byte offset in the file at fault. */
static void add_fault(struct buffer *b, uint64_t result, const struct given *g)
{
    unsigned number = seqopchi_number(result);
    const struct file *f = faulty(g);
    size_t at = fault_at(g, f, result);

    if (number == SEQOPCHI_REFUSED_TAIL)
        add_tail(b, g, f, at);
    else if (number != SEQOPCHI_REFUSED_LINK_ORDER)
        add_value(b, number, g, f, at);
    else if (f == g->task)
        add_new_link_order(b, g->job, f, at);
    else
        add_link_order(b, g->job, at);
}

/* The refusals that name tasks: the first task stands behind head, the second behind
 * middle. */
struct rule_words {
    const char *head, *middle, *tail;
};

/* By number. */
static const struct rule_words rule_words[] = {
    [SEQOPCHI_REFUSED_SAME_NODE] =
    { "task ", " has its primary and its backup on one node", NULL },
    [SEQOPCHI_REFUSED_EARLY] =
    { "the backup of task ", " starts before its primary's finish plus the detect "
      "time of the primary's node", NULL },
    [SEQOPCHI_REFUSED_LATE] =
    { "the backup of task ", " finishes after the deadline", NULL },
    [SEQOPCHI_REFUSED_PRIMARY_UNFED] =
    { "the result of task ", "'s primary arrives after the start of task ",
      "'s primary" },
    [SEQOPCHI_REFUSED_BACKUP_UNFED] =
    { "a result of task ", " arrives after the start of task ", "'s backup" },
    [SEQOPCHI_REFUSED_COMMON_LOSS] =
    { "the loss of one node can stop both copies of task ", "", NULL },
    [SEQOPCHI_REFUSED_OVERLAP] =
    { "a copy of task ", " and a copy of task ",
      " hold one node at the same time" },
    [SEQOPCHI_REFUSED_NO_PRIMARY] =
    { "no node has a place for the primary of task ", "", NULL },
    [SEQOPCHI_REFUSED_NO_BACKUP] =
    { "no node has a place for the backup of task ", "", NULL },
    [SEQOPCHI_REFUSED_TOO_SOON] =
    { "the primary of task ", " starts before the task's ready time", NULL },
    [SEQOPCHI_REFUSED_STALE] =
    { "the place proposed for task ", " breaks a rule beside the copies held; ask "
      "again", NULL },
};

/* Of jobs that say the group of each node, where others mean a node by it. */
static const struct rule_words group_words[] = {
    [SEQOPCHI_REFUSED_SAME_NODE] =
    { "task ", " has its primary and its backup in one supply group", NULL },
    [SEQOPCHI_REFUSED_COMMON_LOSS] =
    { "the loss of one supply group can stop both copies of task ", "", NULL },
};

static bool names_tasks(unsigned number)
{
    return number < sizeof rule_words / sizeof rule_words[0]
        && rule_words[number].head;
}

static const struct rule_words *words_of(unsigned rule, const struct file *job)
{
    if (rule < sizeof group_words / sizeof group_words[0] && group_words[rule].head
        && job_has(job, GROUP))
        return &group_words[rule];
    return &rule_words[rule];
}

static void add_broken_rule(struct buffer *b, uint64_t result, const struct file *job)
{
    const struct rule_words *words = words_of(seqopchi_number(result), job);

    buffer_print(b, "%s%u%s", words->head, (unsigned)seqopchi_first(result),
                 words->middle);
    if (words->tail)
        buffer_print(b, "%u%s", (unsigned)seqopchi_second(result), words->tail);
}

static void add_no_such_node(struct buffer *b, const struct file *job, uint32_t group)
{
    uint32_t groups = groups_of_job(job);

    if (job_has(job, GROUP)) {
        buffer_print(b, "no node of the job is in group %u; its %s ", (unsigned)group,
                     has_several(groups) ? "groups are" : "only group is");
        add_set(b, groups, ", ");
    } else {
        buffer_print(b, "node %u is none of the job, whose nodes are 0 to %u",
                     (unsigned)group, (unsigned)job_nodes(job) - 1);
    }
}

static void add_full(struct buffer *b, const struct given *g, uint32_t number)
{
    if (number >= SEQOPCHI_MAX_TASKS)
        buffer_print(b, "the job has %u tasks, and no job has more", (unsigned)number);
    else
        buffer_print(b, "with task %u the job would have %u links, and no job has more "
                     "than %d", (unsigned)number,
                     (unsigned)(job_links(g->job) + new_links(g->job, g->task)),
                     SEQOPCHI_MAX_LINKS);
}

static void add_refusal(struct buffer *b, uint64_t result, const struct given *g)
{
    unsigned number = seqopchi_number(result);
    uint32_t first = seqopchi_first(result);

    buffer_print(b, "refused %u (%s): ", number, seqopchi_word(number));
    if (number < SEQOPCHI_REFUSED_SAME_NODE)
        add_fault(b, result, g);
    else if (names_tasks(number))
        add_broken_rule(b, result, g->job);
    else if (number == SEQOPCHI_REFUSED_NO_SUCH_NODE)
        add_no_such_node(b, g->job, first);
    else if (number == SEQOPCHI_REFUSED_FULL)
        add_full(b, g, first);
    else if (number == SEQOPCHI_REFUSED_NOT_A_SENTENCE)
        buffer_print(b, "the text is no refusal's sentence; its length is %u",
                     (unsigned)first);
    else
        buffer_print(b, "the output needs %u bytes", (unsigned)first);
}

void verdict_text(struct buffer *b, const struct file *job, const struct file *plan)
{
    struct given given = { .job = job, .plan = plan };
    uint64_t result = seqopchi_judge(job->data, job->length, plan->data, plan->length);

    if (result)
        add_refusal(b, result, &given);
    else
        buffer_print(b, "passed");
}

static int tell_refusal(uint64_t result, const struct given *g)
{
    struct buffer text = { NULL, 0, 0 };

    add_refusal(&text, result, g);
    failed("%.*s", (int)text.length, text.data);
    buffer_free(&text);
    return 1;
}

int refused_task(uint64_t result, const struct file *job, const struct file *plan,
                 const struct file *task)
{
    struct given given = { .job = job, .plan = plan, .task = task };

    return tell_refusal(result, &given);
}

int refused_times(uint64_t result, const struct file *job, const struct file *plan,
                  const struct file *times)
{
    struct given given = { .job = job, .plan = plan, .times = times };

    return tell_refusal(result, &given);
}

int refused_log(uint64_t result, const struct file *job, const struct file *log)
{
    struct given given = { .job = job, .log = log };

    return tell_refusal(result, &given);
}

int refused(uint64_t result, const struct file *job, const struct file *plan)
{
    return refused_task(result, job, plan, NULL);
}
