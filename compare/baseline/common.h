/* What both baselines share: types, reading, the rules, the judge, writing, and the parts of ask,
   commit, fault sets, trial and run times that have no other way. Each file that includes this uses
   all of it. */

#ifndef BASELINE_COMMON_H
#define BASELINE_COMMON_H

#include <stddef.h>
#include <stdint.h>

#include "refusal.h"

enum { MAX_NODES = 16, MAX_TASKS = 64, MAX_LINKS = 512 };

/* A task that is asked for is read behind the job's own. */
enum { SLOTS = MAX_TASKS + 1 };

enum { MAX_DETECT = 1000, MAX_SEND = 1000, MAX_GROUP = 15, MAX_TIME = 1000000 };

/* The newest version of a job. A plan has version 1 only. */
enum { NEWEST = 4 };

struct link { uint32_t from, to, delay; };

struct job {
    uint32_t version, nodes, tasks, links;
    uint32_t detect[MAX_NODES];
    uint32_t send[MAX_NODES];
    uint32_t ready[SLOTS];
    uint32_t deadline[SLOTS];
    uint32_t run[SLOTS][MAX_NODES];
    struct link link[MAX_LINKS];
    /* Behind the rest: where it pushed the links back, the plain replay took half as long again. */
    uint32_t group[MAX_NODES];
};

/* A copy holds its node from start up to, but not including, finish. At `sent` its result has left
   for the other nodes: the send time is added once, where the copy is placed (request (iv)). */
struct copy { uint32_t node, start, finish, sent; };

struct layout { struct copy primary[SLOTS], backup[SLOTS]; };

/* Reading. Each reader answers 0 or the refusal. */

struct file { const uint8_t *bytes; size_t length, offset; };

static struct file open_bytes(const uint8_t *bytes, size_t length)
{
    struct file file = { bytes, length, 0 };
    return file;
}

static inline uint32_t number_at(const uint8_t *at)
{
    return (uint32_t)at[0] | (uint32_t)at[1] << 8 | (uint32_t)at[2] << 16 | (uint32_t)at[3] << 24;
}

static uint64_t read_number(struct file *file, uint32_t *number)
{
    if (file->length - file->offset < 4)
        return refuse(SHORT, file->offset, 0);
    *number = number_at(file->bytes + file->offset);
    file->offset += 4;
    return 0;
}

static uint64_t read_within(struct file *file, uint32_t low, uint32_t high, enum refusal fault,
                            uint32_t *number)
{
    uint64_t refused = read_number(file, number);
    if (refused)
        return refused;
    if (*number < low || *number > high)
        return refuse(fault, file->offset - 4, 0);
    return 0;
}

/* Send times are there from version 3 on, groups from version 4 on; before, each node is its
   own. */
static uint64_t read_node(struct file *file, struct job *job, uint32_t node)
{
    uint64_t refused = read_within(file, 0, MAX_DETECT, VALUE, &job->detect[node]);
    job->send[node] = 0;
    job->group[node] = node;
    if (!refused && job->version >= 3)
        refused = read_within(file, 0, MAX_SEND, VALUE, &job->send[node]);
    if (!refused && job->version >= 4)
        refused = read_within(file, 0, MAX_GROUP, VALUE, &job->group[node]);
    return refused;
}

static uint64_t read_nodes(struct file *file, struct job *job)
{
    uint64_t refused = read_within(file, 2, MAX_NODES, COUNT, &job->nodes);
    for (uint32_t node = 0; !refused && node < job->nodes; node++)
        refused = read_node(file, job, node);
    return refused;
}

/* Ready times are there from version 2 on. */
static inline uint64_t read_task(struct file *file, struct job *job, uint32_t task)
{
    uint64_t refused = 0;
    job->ready[task] = 0;
    if (job->version >= 2)
        refused = read_within(file, 0, MAX_TIME, VALUE, &job->ready[task]);
    if (!refused)
        refused = read_within(file, 1, MAX_TIME, VALUE, &job->deadline[task]);
    for (uint32_t node = 0; !refused && node < job->nodes; node++)
        refused = read_within(file, 0, MAX_TIME, VALUE, &job->run[task][node]);
    return refused;
}

static uint64_t read_tasks(struct file *file, struct job *job)
{
    uint64_t refused = read_within(file, 1, MAX_TASKS, COUNT, &job->tasks);
    for (uint32_t task = 0; !refused && task < job->tasks; task++)
        refused = read_task(file, job, task);
    return refused;
}

static uint64_t read_link(struct file *file, uint32_t tasks, struct link *link)
{
    uint64_t refused = read_within(file, 0, tasks - 1, VALUE, &link->from);
    if (!refused)
        refused = read_within(file, link->from + 1, tasks - 1, VALUE, &link->to);
    if (!refused)
        refused = read_within(file, 0, MAX_TIME, VALUE, &link->delay);
    return refused;
}

static uint64_t read_links(struct file *file, struct job *job)
{
    uint64_t refused = read_within(file, 0, MAX_LINKS, COUNT, &job->links);
    for (uint32_t i = 0; !refused && i < job->links; i++) {
        struct link *link = &job->link[i];
        size_t offset = file->offset;
        refused = read_link(file, job->tasks, link);
        if (!refused && i > 0) {
            const struct link *last = link - 1;
            if (link->from < last->from || (link->from == last->from && link->to <= last->to))
                refused = refuse(LINK_ORDER, offset, 0);
        }
    }
    return refused;
}

static uint64_t read_end(const struct file *file)
{
    return file->offset < file->length ? refuse(TAIL, file->offset, 0) : 0;
}

static uint64_t read_job(struct file file, struct job *job)
{
    uint64_t refused = read_within(&file, 1, NEWEST, VERSION, &job->version);
    if (!refused)
        refused = read_nodes(&file, job);
    if (!refused)
        refused = read_tasks(&file, job);
    if (!refused)
        refused = read_links(&file, job);
    if (!refused)
        refused = read_end(&file);
    return refused;
}

static void set_ticks(const struct job *job, uint32_t ticks, struct copy *copy)
{
    copy->finish = copy->start + ticks;
    copy->sent = copy->finish + job->send[copy->node];
}

static void set_finish(const struct job *job, uint32_t task, struct copy *copy)
{
    set_ticks(job, job->run[task][copy->node], copy);
}

static inline uint64_t read_copy(struct file *file, const struct job *job, uint32_t task,
                                 struct copy *copy)
{
    uint64_t refused = read_within(file, 0, job->nodes - 1, VALUE, &copy->node);
    if (refused)
        return refused;
    if (job->run[task][copy->node] == 0)
        return refuse(UNABLE, file->offset - 4, 0);
    refused = read_within(file, 0, MAX_TIME, VALUE, &copy->start);
    if (refused)
        return refused;
    set_finish(job, task, copy);
    return 0;
}

static uint64_t read_plan(struct file file, const struct job *job, struct layout *plan)
{
    uint32_t number;
    uint64_t refused = read_within(&file, 1, 1, VERSION, &number);
    if (!refused)
        refused = read_within(&file, job->tasks, job->tasks, COUNT, &number);
    for (uint32_t task = 0; !refused && task < job->tasks; task++) {
        refused = read_copy(&file, job, task, &plan->primary[task]);
        if (!refused)
            refused = read_copy(&file, job, task, &plan->backup[task]);
    }
    if (!refused)
        refused = read_end(&file);
    return refused;
}

/* From 1 to the listed run time on the copy's node. */
static inline uint64_t read_ticks(struct file *file, const struct job *job, uint32_t task,
                                  struct copy *copy)
{
    uint32_t ticks;
    uint64_t refused = read_within(file, 1, job->run[task][copy->node], VALUE, &ticks);
    if (!refused)
        set_ticks(job, ticks, copy);
    return refused;
}

/* A list of actual times (request (viii)). From then on the copies finish as it says. */
static uint64_t read_times(struct file file, const struct job *job, struct layout *plan)
{
    uint64_t refused = 0;
    for (uint32_t task = 0; !refused && task < job->tasks; task++) {
        refused = read_ticks(&file, job, task, &plan->primary[task]);
        if (!refused)
            refused = read_ticks(&file, job, task, &plan->backup[task]);
    }
    if (!refused)
        refused = read_end(&file);
    return refused;
}

/* The links into the task that is asked for. Those that read well are no more than the job's tasks,
   since they rise by from. */
struct inputs {
    uint32_t links;
    struct link link[MAX_TASKS];
};

static uint64_t read_inputs(struct file *file, const struct job *job, struct inputs *inputs)
{
    uint64_t refused = read_within(file, 0, MAX_LINKS, COUNT, &inputs->links);
    for (uint32_t i = 0; !refused && i < inputs->links; i++) {
        struct link link = { 0, job->tasks, 0 };
        size_t offset = file->offset;
        refused = read_within(file, 0, job->tasks - 1, VALUE, &link.from);
        if (!refused)
            refused = read_within(file, 0, MAX_TIME, VALUE, &link.delay);
        if (!refused && i > 0 && link.from <= inputs->link[i - 1].from)
            refused = refuse(LINK_ORDER, offset, 0);
        if (!refused)
            inputs->link[i] = link;
    }
    return refused;
}

/* The rules. */

static uint32_t later(uint32_t a, uint32_t b)
{
    return a > b ? a : b;
}

static uint32_t arrival(const struct copy *sender, uint32_t delay, uint32_t node)
{
    return sender->node == node ? sender->finish : sender->sent + delay;
}

static int in_time(const struct copy *sender, uint32_t delay, const struct copy *receiver)
{
    return arrival(sender, delay, receiver->node) <= receiver->start;
}

static int overlap(const struct copy *a, const struct copy *b)
{
    return a->node == b->node && a->start < b->finish && b->start < a->finish;
}

/* A primary starts no sooner than its task is ready (request (ii)); a backup is not asked. */
static int after_ready(const struct job *job, uint32_t task, const struct copy *primary)
{
    return job->ready[task] <= primary->start;
}

static int after_detection(const struct job *job, const struct copy *primary,
                           const struct copy *backup)
{
    return primary->finish + job->detect[primary->node] <= backup->start;
}

/* The bit of a copy's group in a fault set (request (vi)). */
static uint32_t group_bit(const struct job *job, const struct copy *copy)
{
    return UINT32_C(1) << job->group[copy->node];
}

static int one_group(const struct job *job, const struct copy *a, const struct copy *b)
{
    return job->group[a->node] == job->group[b->node];
}

static uint64_t judge_tasks(const struct job *job, const struct layout *plan)
{
    for (uint32_t task = 0; task < job->tasks; task++)
        if (one_group(job, &plan->primary[task], &plan->backup[task]))
            return refuse(SAME_NODE, task, task);
    for (uint32_t task = 0; task < job->tasks; task++)
        if (!after_ready(job, task, &plan->primary[task]))
            return refuse(TOO_SOON, task, task);
    for (uint32_t task = 0; task < job->tasks; task++)
        if (!after_detection(job, &plan->primary[task], &plan->backup[task]))
            return refuse(EARLY, task, task);
    for (uint32_t task = 0; task < job->tasks; task++)
        if (plan->backup[task].finish > job->deadline[task])
            return refuse(LATE, task, task);
    return 0;
}

/* A backup waits for its sender's backup only where one loss may call for both (request (i)). */
static uint64_t judge_backup_inputs(const struct job *job, const struct layout *plan,
                                    const uint32_t *faults)
{
    for (uint32_t i = 0; i < job->links; i++) {
        const struct link *link = &job->link[i];
        const struct copy *receiver = &plan->backup[link->to];
        if (!in_time(&plan->primary[link->from], link->delay, receiver)
            || (!in_time(&plan->backup[link->from], link->delay, receiver)
                && (faults[link->from] & faults[link->to])))
            return refuse(BACKUP_UNFED, link->from, link->to);
    }
    return 0;
}

static uint64_t judge_nodes(const struct job *job, const struct layout *plan,
                            const uint32_t *faults)
{
    for (uint32_t task = 0; task < job->tasks; task++)
        if (faults[task] & group_bit(job, &plan->backup[task]))
            return refuse(COMMON_LOSS, task, task);
    for (uint32_t a = 0; a < job->tasks; a++)
        for (uint32_t b = a + 1; b < job->tasks; b++)
            if (overlap(&plan->primary[a], &plan->primary[b])
                || overlap(&plan->primary[a], &plan->backup[b])
                || overlap(&plan->backup[a], &plan->primary[b])
                || (overlap(&plan->backup[a], &plan->backup[b]) && (faults[a] & faults[b])))
                return refuse(OVERLAP, a, b);
    return 0;
}

/* Rule D, and the fault sets (document 01's perils) as bits: each baseline has its own way. */
static uint64_t judge_primary_inputs(const struct job *job, const struct layout *plan,
                                     uint32_t *faults);

/* The ready times after rule A, then rules B to G in turn. */
static uint64_t judge_plan(const struct job *job, const struct layout *plan, uint32_t *faults)
{
    uint64_t refused = judge_tasks(job, plan);
    if (!refused)
        refused = judge_primary_inputs(job, plan, faults);
    if (!refused)
        refused = judge_backup_inputs(job, plan, faults);
    if (!refused)
        refused = judge_nodes(job, plan, faults);
    return refused;
}

static uint64_t read_passed(struct file job_file, struct file plan_file, struct job *job,
                            struct layout *plan, uint32_t *faults)
{
    uint64_t refused = read_job(job_file, job);
    if (!refused)
        refused = read_plan(plan_file, job, plan);
    if (!refused)
        refused = judge_plan(job, plan, faults);
    return refused;
}

static uint64_t judge(struct file job_file, struct file plan_file)
{
    struct job job;
    struct layout plan;
    uint32_t faults[MAX_TASKS];
    return read_passed(job_file, plan_file, &job, &plan, faults);
}

/* Writing. */

static void put_number(uint8_t *at, uint32_t number)
{
    at[0] = (uint8_t)number;
    at[1] = (uint8_t)(number >> 8);
    at[2] = (uint8_t)(number >> 16);
    at[3] = (uint8_t)(number >> 24);
}

static void put_plan(const struct layout *plan, uint32_t tasks, uint8_t *out)
{
    put_number(out, 1);
    put_number(out + 4, tasks);
    for (uint32_t task = 0; task < tasks; task++) {
        uint8_t *row = out + 8 + 16 * task;
        put_number(row, plan->primary[task].node);
        put_number(row + 4, plan->primary[task].start);
        put_number(row + 8, plan->backup[task].node);
        put_number(row + 12, plan->backup[task].start);
    }
}

static size_t job_bytes(const struct job *job)
{
    size_t node = job->version >= 4 ? 12 : job->version >= 3 ? 8 : 4;
    size_t task = (job->version >= 2 ? 8 : 4) + 4 * (size_t)job->nodes;
    return 16 + node * job->nodes + task * job->tasks + 12 * (size_t)job->links;
}

static uint8_t *put_next(uint8_t *at, uint32_t number)
{
    put_number(at, number);
    return at + 4;
}

static uint8_t *put_row(const struct job *job, uint32_t task, uint8_t *out)
{
    for (uint32_t node = 0; node < job->nodes; node++)
        out = put_next(out, job->run[task][node]);
    return out;
}

static void put_job(const struct job *job, uint8_t *out)
{
    out = put_next(put_next(out, job->version), job->nodes);
    for (uint32_t node = 0; node < job->nodes; node++) {
        out = put_next(out, job->detect[node]);
        if (job->version >= 3)
            out = put_next(out, job->send[node]);
        if (job->version >= 4)
            out = put_next(out, job->group[node]);
    }
    out = put_next(out, job->tasks);
    for (uint32_t task = 0; task < job->tasks; task++) {
        if (job->version >= 2)
            out = put_next(out, job->ready[task]);
        out = put_row(job, task, put_next(out, job->deadline[task]));
    }
    out = put_next(out, job->links);
    for (uint32_t i = 0; i < job->links; i++) {
        const struct link *link = &job->link[i];
        out = put_next(put_next(put_next(out, link->from), link->to), link->delay);
    }
}

/* Planner and replay as far as both are the same: reading, the buffer, one copy. */

/* The job, then 17. */
static uint64_t start_plan(struct file job_file, size_t out_length, struct job *job)
{
    uint64_t refused = read_job(job_file, job);
    if (!refused && out_length < 8 + 16 * (size_t)job->tasks)
        refused = refuse(SHORT_BUFFER, 8 + 16 * job->tasks, 0);
    return refused;
}

/* A primary shares its node with nobody, as if every loss called for it. */
#define ALL_FAULTS UINT32_MAX

enum state { NOT_STARTED, CUT, FINISHED };

struct loss { int happens; uint32_t group, moment; };

struct run {
    struct job job;
    struct layout plan;
    /* The nodes that are lost, as bits, and when. */
    uint32_t lost, moment;
};

/* The nodes of the lost group, none if there is no loss. */
static uint32_t lost_nodes(const struct job *job, const struct loss *loss)
{
    uint32_t lost = 0;
    for (uint32_t node = 0; loss->happens && node < job->nodes; node++)
        if (job->group[node] == loss->group)
            lost |= UINT32_C(1) << node;
    return lost;
}

/* Job and plan, then 18, then the list if there is one, then 17. */
static uint64_t start_run(struct file job_file, struct file plan_file, struct loss loss,
                          const struct file *times, size_t out_length, struct run *run)
{
    uint64_t refused = read_job(job_file, &run->job);
    if (!refused)
        refused = read_plan(plan_file, &run->job, &run->plan);
    if (refused)
        return refused;
    run->lost = lost_nodes(&run->job, &loss);
    run->moment = loss.moment;
    if (loss.happens && !run->lost)
        return refuse(NO_SUCH_NODE, loss.group, 0);
    if (times)
        refused = read_times(*times, &run->job, &run->plan);
    if (refused)
        return refused;
    if (out_length < 12 * (size_t)run->job.tasks)
        return refuse(SHORT_BUFFER, 12 * run->job.tasks, 0);
    return 0;
}

/* Rule B in a run: with a list too, it goes by the time that is listed for the primary. */
static int called_after_detection(const struct run *run, uint32_t task)
{
    struct copy listed = run->plan.primary[task];
    set_finish(&run->job, task, &listed);
    return after_detection(&run->job, &listed, &run->plan.backup[task]);
}

/* What becomes of a copy whose inputs are there. */
static enum state run_copy(const struct run *run, const struct copy *copy)
{
    if (!(run->lost >> copy->node & 1))
        return FINISHED;
    if (copy->start >= run->moment)
        return NOT_STARTED;
    return copy->finish <= run->moment ? FINISHED : CUT;
}

/* Writes a task's row and answers its finished copy, NULL if there is none. */
static const struct copy *put_outcome(const struct run *run, uint32_t task, enum state primary,
                                      enum state backup, uint8_t *row)
{
    const struct copy *finished = NULL;
    if (primary == FINISHED)
        finished = &run->plan.primary[task];
    else if (backup == FINISHED)
        finished = &run->plan.backup[task];
    put_number(row, primary);
    put_number(row + 4, backup);
    put_number(row + 8, finished ? finished->finish : 0);
    return finished;
}

/* Ask and commit (request (iii)) as far as both are the same: reading, the longer job, and what is
   handed back. */

static uint64_t refuse_full(const struct job *job, const struct inputs *inputs)
{
    if (job->tasks == MAX_TASKS || job->links + inputs->links > MAX_LINKS)
        return refuse(FULL, job->tasks, 0);
    return 0;
}

/* Job, plan and judge, the description, then 20. */
static uint64_t start_ask(struct file job_file, struct file plan_file, struct file task_file,
                          struct job *job, struct layout *plan, uint32_t *faults,
                          struct inputs *inputs)
{
    uint64_t refused = read_passed(job_file, plan_file, job, plan, faults);
    if (!refused)
        refused = read_task(&task_file, job, job->tasks);
    if (!refused)
        refused = read_inputs(&task_file, job, inputs);
    if (!refused)
        refused = read_end(&task_file);
    if (!refused)
        refused = refuse_full(job, inputs);
    return refused;
}

/* A job and a plan, and the fault sets of a passed one. */
struct held {
    struct job job;
    struct layout plan;
    uint32_t faults[SLOTS];
};

/* Job, plan and judge, the description and the four numbers, then 20. */
static uint64_t start_commit(struct file job_file, struct file plan_file, struct file booking,
                             struct held *held, struct inputs *inputs)
{
    struct job *job = &held->job;
    struct layout *plan = &held->plan;
    uint64_t refused = read_passed(job_file, plan_file, job, plan, held->faults);
    if (!refused)
        refused = read_task(&booking, job, job->tasks);
    if (!refused)
        refused = read_inputs(&booking, job, inputs);
    if (!refused)
        refused = read_copy(&booking, job, job->tasks, &plan->primary[job->tasks]);
    if (!refused)
        refused = read_copy(&booking, job, job->tasks, &plan->backup[job->tasks]);
    if (!refused)
        refused = read_end(&booking);
    if (!refused)
        refused = refuse_full(job, inputs);
    return refused;
}

/* Makes the job longer by the task behind it. From behind, a new link goes after all old ones with
   the same from; once the new ones are in, what is left of the old stands where it should. */
static void add_task(struct job *job, const struct inputs *inputs)
{
    uint32_t old = job->links, added = inputs->links;
    job->tasks++;
    job->links += added;
    while (added > 0) {
        struct link *link = &job->link[old + added - 1];
        if (old > 0 && job->link[old - 1].from > inputs->link[added - 1].from)
            *link = job->link[--old];
        else
            *link = inputs->link[--added];
    }
}

/* 17 for the job, then for the plan; then both are written. */
static uint64_t put_longer(const struct held *held, uint8_t *out_job, size_t out_job_length,
                           uint8_t *out_plan, size_t out_plan_length)
{
    size_t job = job_bytes(&held->job), plan = 8 + 16 * (size_t)held->job.tasks;
    if (out_job_length < job)
        return refuse(SHORT_BUFFER, job, 0);
    if (out_plan_length < plan)
        return refuse(SHORT_BUFFER, plan, 0);
    put_job(&held->job, out_job);
    put_plan(&held->plan, held->job.tasks, out_plan);
    return 0;
}

static void put_places(const struct layout *plan, uint32_t task, uint32_t *places)
{
    places[0] = plan->primary[task].node;
    places[1] = plan->primary[task].start;
    places[2] = plan->backup[task].node;
    places[3] = plan->backup[task].start;
}

/* The fault sets by themselves (request (v)): again each baseline has its own way. */
static inline void find_fault_sets(const struct job *job, const struct layout *plan,
                                   uint32_t *faults);

/* Job and plan, then 17; the plan is not judged. */
static uint64_t fault_sets(struct file job_file, struct file plan_file, uint8_t *out,
                           size_t out_length)
{
    struct job job;
    struct layout plan;
    uint32_t faults[MAX_TASKS];
    uint64_t refused = read_job(job_file, &job);
    if (!refused)
        refused = read_plan(plan_file, &job, &plan);
    if (!refused && out_length < 4 * (size_t)job.tasks)
        refused = refuse(SHORT_BUFFER, 4 * job.tasks, 0);
    if (refused)
        return refused;
    find_fault_sets(&job, &plan, faults);
    for (uint32_t task = 0; task < job.tasks; task++)
        put_number(out + 4 * task, faults[task]);
    return 0;
}

/* The trial's no (request (ix)): number 0 and first place 1. */
#define NO (UINT64_C(1) << 8)

/* Job and plan, with no loss so far. */
static uint64_t start_trial(struct file job_file, struct file plan_file, struct run *run)
{
    uint64_t refused = read_job(job_file, &run->job);
    if (!refused)
        refused = read_plan(plan_file, &run->job, &run->plan);
    run->lost = run->moment = 0;
    return refused;
}

/* The copy's group is lost at the tick before its finish. */
static void lose_before_finish(struct run *run, const struct copy *copy)
{
    struct loss loss = { 1, run->job.group[copy->node], copy->finish - 1 };
    run->lost = lost_nodes(&run->job, &loss);
    run->moment = loss.moment;
}

/* Run times from the last runs (request (x)). */

/* So many of the newest records count. */
enum { WINDOW = 256, RECORD_BYTES = 12 };

struct record { uint32_t task, node, ticks; };

/* That the node can run the task is asked before the ticks are read. */
static inline uint64_t read_record(struct file *log, const struct job *job, struct record *record)
{
    uint64_t refused = read_within(log, 0, job->tasks - 1, VALUE, &record->task);
    if (!refused)
        refused = read_within(log, 0, job->nodes - 1, VALUE, &record->node);
    if (!refused && job->run[record->task][record->node] == 0)
        refused = refuse(UNABLE, log->offset - 4, 0);
    if (!refused)
        refused = read_within(log, 1, MAX_TIME, VALUE, &record->ticks);
    return refused;
}

/* Reads a log and gives the job the run times that it has; writes a job as it was read but for its
   run times: each baseline has its own way. */
static uint64_t renew_times(struct file log, struct job *job);
static void put_renewed(const struct job *job, struct file file, uint8_t *out);

/* The job, then 17, then the log. */
static uint64_t run_times(struct file job_file, struct file log, uint8_t *out, size_t out_length)
{
    struct job job;
    uint64_t refused = read_job(job_file, &job);
    if (!refused && out_length < 4 * (size_t)job.tasks * job.nodes)
        refused = refuse(SHORT_BUFFER, 4 * job.tasks * job.nodes, 0);
    if (!refused)
        refused = renew_times(log, &job);
    if (refused)
        return refused;
    for (uint32_t task = 0; task < job.tasks; task++)
        out = put_row(&job, task, out);
    return 0;
}

static uint64_t renew_job(struct file job_file, struct file log, uint8_t *out, size_t out_length)
{
    struct job job;
    uint64_t refused = read_job(job_file, &job);
    if (!refused && out_length < job_file.length)
        refused = refuse(SHORT_BUFFER, job_file.length, 0);
    if (!refused)
        refused = renew_times(log, &job);
    if (!refused)
        put_renewed(&job, job_file, out);
    return refused;
}

/* The C interface of one side, over its own `replay`, `ask`, `commit` and `trial`; its planner has
   a function of its own. */
#define EXPORT(side)                                                                              \
    EXPORT_JUDGE_AND_REPLAY(side)                                                                 \
    EXPORT_REPLAY_TIMES(side)                                                                     \
    EXPORT_ASK_AND_COMMIT(side)                                                                   \
    EXPORT_FAULT_SETS(side)                                                                       \
    EXPORT_TRIAL(side)                                                                            \
    EXPORT_RUN_TIMES(side)

#define EXPORT_JUDGE_AND_REPLAY(side)                                                             \
    uint64_t side##_judge(const uint8_t *job, size_t job_length, const uint8_t *plan,             \
                          size_t plan_length)                                                     \
    {                                                                                             \
        return judge(open_bytes(job, job_length), open_bytes(plan, plan_length));                 \
    }                                                                                             \
    uint64_t side##_replay(const uint8_t *job, size_t job_length, const uint8_t *plan,            \
                           size_t plan_length, uint8_t *out, size_t out_length)                   \
    {                                                                                             \
        struct loss none = { 0, 0, 0 };                                                           \
        return replay(open_bytes(job, job_length), open_bytes(plan, plan_length), none, NULL,     \
                      out, out_length);                                                           \
    }                                                                                             \
    uint64_t side##_replay_loss(const uint8_t *job, size_t job_length, const uint8_t *plan,       \
                                size_t plan_length, uint32_t group, uint32_t moment,              \
                                uint8_t *out, size_t out_length)                                  \
    {                                                                                             \
        struct loss loss = { 1, group, moment };                                                  \
        return replay(open_bytes(job, job_length), open_bytes(plan, plan_length), loss, NULL,     \
                      out, out_length);                                                           \
    }

#define EXPORT_REPLAY_TIMES(side)                                                                 \
    uint64_t side##_replay_times(const uint8_t *job, size_t job_length, const uint8_t *plan,      \
                                 size_t plan_length, const uint8_t *times, size_t times_length,   \
                                 uint8_t *out, size_t out_length)                                 \
    {                                                                                             \
        struct loss none = { 0, 0, 0 };                                                           \
        struct file list = open_bytes(times, times_length);                                       \
        return replay(open_bytes(job, job_length), open_bytes(plan, plan_length), none, &list,    \
                      out, out_length);                                                           \
    }                                                                                             \
    uint64_t side##_replay_times_loss(const uint8_t *job, size_t job_length, const uint8_t *plan, \
                                      size_t plan_length, uint32_t group, uint32_t moment,        \
                                      const uint8_t *times, size_t times_length, uint8_t *out,    \
                                      size_t out_length)                                          \
    {                                                                                             \
        struct loss loss = { 1, group, moment };                                                  \
        struct file list = open_bytes(times, times_length);                                       \
        return replay(open_bytes(job, job_length), open_bytes(plan, plan_length), loss, &list,    \
                      out, out_length);                                                           \
    }

#define EXPORT_ASK_AND_COMMIT(side)                                                               \
    uint64_t side##_ask(const uint8_t *job, size_t job_length, const uint8_t *plan,               \
                        size_t plan_length, const uint8_t *task, size_t task_length,              \
                        uint32_t places[4])                                                       \
    {                                                                                             \
        return ask(open_bytes(job, job_length), open_bytes(plan, plan_length),                    \
                   open_bytes(task, task_length), places);                                        \
    }                                                                                             \
    uint64_t side##_commit(const uint8_t *job, size_t job_length, const uint8_t *plan,            \
                           size_t plan_length, const uint8_t *booking, size_t booking_length,     \
                           uint8_t *out_job, size_t out_job_length, uint8_t *out_plan,            \
                           size_t out_plan_length)                                                \
    {                                                                                             \
        struct held held;                                                                         \
        uint64_t refused = commit(open_bytes(job, job_length), open_bytes(plan, plan_length),     \
                                  open_bytes(booking, booking_length), &held);                    \
        if (!refused)                                                                             \
            refused = put_longer(&held, out_job, out_job_length, out_plan, out_plan_length);      \
        return refused;                                                                           \
    }

#define EXPORT_FAULT_SETS(side)                                                                   \
    uint64_t side##_fault_sets(const uint8_t *job, size_t job_length, const uint8_t *plan,        \
                               size_t plan_length, uint8_t *out, size_t out_length)               \
    {                                                                                             \
        return fault_sets(open_bytes(job, job_length), open_bytes(plan, plan_length), out,        \
                          out_length);                                                            \
    }

#define EXPORT_TRIAL(side)                                                                        \
    uint64_t side##_trial(const uint8_t *job, size_t job_length, const uint8_t *plan,             \
                          size_t plan_length)                                                     \
    {                                                                                             \
        return trial(open_bytes(job, job_length), open_bytes(plan, plan_length));                 \
    }

#define EXPORT_RUN_TIMES(side)                                                                    \
    uint64_t side##_run_times(const uint8_t *job, size_t job_length, const uint8_t *log,          \
                              size_t log_length, uint8_t *out, size_t out_length)                 \
    {                                                                                             \
        return run_times(open_bytes(job, job_length), open_bytes(log, log_length), out,           \
                         out_length);                                                             \
    }                                                                                             \
    uint64_t side##_renew_job(const uint8_t *job, size_t job_length, const uint8_t *log,          \
                              size_t log_length, uint8_t *out, size_t out_length)                 \
    {                                                                                             \
        return renew_job(open_bytes(job, job_length), open_bytes(log, log_length), out,           \
                         out_length);                                                             \
    }

#endif
