/* The plain baseline: the documents as they read, over flat arrays, with no tables beside them. */

#include "common.h"

/* The judge, and the fault sets by themselves. */

/* Links rise by from, so a sender's set is whole before it is handed on. */
static inline void find_fault_sets(const struct job *job, const struct layout *plan,
                                   uint32_t *faults)
{
    for (uint32_t task = 0; task < job->tasks; task++)
        faults[task] = group_bit(job, &plan->primary[task]);
    for (uint32_t i = 0; i < job->links; i++) {
        const struct link *link = &job->link[i];
        if (!in_time(&plan->backup[link->from], link->delay, &plan->primary[link->to]))
            faults[link->to] |= faults[link->from];
    }
}

static uint64_t judge_primary_inputs(const struct job *job, const struct layout *plan,
                                     uint32_t *faults)
{
    for (uint32_t i = 0; i < job->links; i++) {
        const struct link *link = &job->link[i];
        if (!in_time(&plan->primary[link->from], link->delay, &plan->primary[link->to]))
            return refuse(PRIMARY_UNFED, link->from, link->to);
    }
    find_fault_sets(job, plan, faults);
    return 0;
}

/* The planner. */

/* The copy of an earlier task that the new one may not overlap (rule G), NULL if there is none. */
static const struct copy *clash(const struct held *draft, uint32_t earlier,
                                const struct copy *copy, uint32_t faults)
{
    const struct copy *primary = &draft->plan.primary[earlier];
    const struct copy *backup = &draft->plan.backup[earlier];
    if (overlap(copy, primary))
        return primary;
    if (overlap(copy, backup) && (faults & draft->faults[earlier]))
        return backup;
    return NULL;
}

/* The earliest place on its node, from where the copy stands. No start before the end of a clash
   will do, so it leaps there. It may then meet a copy looked at before, hence the repetition. */
static void avoid_clashes(const struct held *draft, uint32_t task, uint32_t faults,
                          struct copy *copy)
{
    uint32_t run = copy->finish - copy->start;
    int moved;
    do {
        moved = 0;
        for (uint32_t earlier = 0; earlier < task; earlier++) {
            const struct copy *other = clash(draft, earlier, copy, faults);
            if (other) {
                copy->start = other->finish;
                copy->finish = other->finish + run;
                moved = 1;
            }
        }
    } while (moved);
}

/* The place with the earliest finish, then the lowest node, among the nodes whose group is not
   barred. */
static int find_place(const struct held *draft, uint32_t task, const uint32_t *ready,
                      uint32_t barred, uint32_t faults, struct copy *best)
{
    best->finish = UINT32_MAX;
    for (uint32_t node = 0; node < draft->job.nodes; node++) {
        uint32_t run = draft->job.run[task][node];
        struct copy copy = { node, ready[node], ready[node] + run, 0 };
        if (run == 0 || (barred & group_bit(&draft->job, &copy)))
            continue;
        avoid_clashes(draft, task, faults, &copy);
        if (copy.finish < best->finish)
            *best = copy;
    }
    if (best->finish > draft->job.deadline[task])
        return 0;
    set_finish(&draft->job, task, best);
    return 1;
}

/* Puts off each node's ready moment until the sender's result is there. */
static void wait_for(const struct held *draft, const struct copy *sender, uint32_t delay,
                     uint32_t *ready)
{
    for (uint32_t node = 0; node < draft->job.nodes; node++)
        ready[node] = later(ready[node], arrival(sender, delay, node));
}

static int place_primary(struct held *draft, uint32_t task)
{
    uint32_t ready[MAX_NODES] = { 0 };
    /* The ready time is waited for like a result; with no delay, its node is no matter. */
    struct copy capture = { 0, 0, draft->job.ready[task], draft->job.ready[task] };
    wait_for(draft, &capture, 0, ready);
    for (uint32_t i = 0; i < draft->job.links; i++) {
        const struct link *link = &draft->job.link[i];
        if (link->to == task)
            wait_for(draft, &draft->plan.primary[link->from], link->delay, ready);
    }
    return find_place(draft, task, ready, 0, ALL_FAULTS, &draft->plan.primary[task]);
}

/* The fault set of a task whose primary is placed. */
static uint32_t fault_set(const struct held *draft, uint32_t task)
{
    const struct copy *primary = &draft->plan.primary[task];
    uint32_t faults = group_bit(&draft->job, primary);
    for (uint32_t i = 0; i < draft->job.links; i++) {
        const struct link *link = &draft->job.link[i];
        if (link->to == task && !in_time(&draft->plan.backup[link->from], link->delay, primary))
            faults |= draft->faults[link->from];
    }
    return faults;
}

/* The fault set holds the primary's group, so rule F bars what rule A bars. */
static int place_backup(struct held *draft, uint32_t task)
{
    const struct copy *primary = &draft->plan.primary[task];
    uint32_t ready[MAX_NODES];
    uint32_t faults = fault_set(draft, task);
    for (uint32_t node = 0; node < draft->job.nodes; node++)
        ready[node] = primary->finish + draft->job.detect[primary->node];
    for (uint32_t i = 0; i < draft->job.links; i++) {
        const struct link *link = &draft->job.link[i];
        if (link->to != task)
            continue;
        wait_for(draft, &draft->plan.primary[link->from], link->delay, ready);
        if (faults & draft->faults[link->from])
            wait_for(draft, &draft->plan.backup[link->from], link->delay, ready);
    }
    draft->faults[task] = faults;
    return find_place(draft, task, ready, faults, faults, &draft->plan.backup[task]);
}

uint64_t plain_plan(const uint8_t *job, size_t job_length, uint8_t *out, size_t out_length)
{
    struct held draft;
    uint64_t refused = start_plan(open_bytes(job, job_length), out_length, &draft.job);
    if (refused)
        return refused;
    for (uint32_t task = 0; task < draft.job.tasks; task++) {
        if (!place_primary(&draft, task))
            return refuse(NO_PRIMARY, task, task);
        if (!place_backup(&draft, task))
            return refuse(NO_BACKUP, task, task);
    }
    put_plan(&draft.plan, draft.job.tasks, out);
    return 0;
}

/* Replay. */

/* The first link into the task from one on, or the number of links. A loop of its own: within
   another the whole replay took up to two thirds longer, by where it happened to stand. */
static uint32_t next_input(const struct job *job, uint32_t task, uint32_t i)
{
    while (i < job->links && job->link[i].to != task)
        i++;
    return i;
}

/* Whether the results of all senders arrive by the receiver's start. */
static int inputs_there(const struct run *run, const struct copy *const *finished, uint32_t task,
                        const struct copy *receiver)
{
    const struct job *job = &run->job;
    for (uint32_t i = next_input(job, task, 0); i < job->links; i = next_input(job, task, i + 1)) {
        const struct link *link = &job->link[i];
        if (!finished[link->from] || !in_time(finished[link->from], link->delay, receiver))
            return 0;
    }
    return 1;
}

/* Answers the task's finished copy, NULL if there is none. Inline, since replay took up to a sixth
   longer once the trial called it too. */
static inline const struct copy *run_task(const struct run *run,
                                          const struct copy *const *finished, uint32_t task,
                                          uint8_t *row)
{
    const struct copy *primary = &run->plan.primary[task], *backup = &run->plan.backup[task];
    enum state first = NOT_STARTED, second = NOT_STARTED;
    if (after_ready(&run->job, task, primary) && inputs_there(run, finished, task, primary))
        first = run_copy(run, primary);
    if (first != FINISHED && called_after_detection(run, task)
        && inputs_there(run, finished, task, backup))
        second = run_copy(run, backup);
    return put_outcome(run, task, first, second, row);
}

static uint64_t replay(struct file job, struct file plan, struct loss loss,
                       const struct file *times, uint8_t *out, size_t out_length)
{
    struct run run;
    const struct copy *finished[MAX_TASKS];
    uint64_t refused = start_run(job, plan, loss, times, out_length, &run);
    if (refused)
        return refused;
    for (uint32_t task = 0; task < run.job.tasks; task++)
        finished[task] = run_task(&run, finished, task, out + 12 * task);
    return 0;
}

/* Ask and commit. */

/* The planner's next step: the fault sets of the tasks before were the judge's. */
static uint64_t ask(struct file job, struct file plan, struct file task_file, uint32_t *places)
{
    struct held draft;
    struct inputs inputs;
    uint64_t refused =
        start_ask(job, plan, task_file, &draft.job, &draft.plan, draft.faults, &inputs);
    if (refused)
        return refused;
    uint32_t task = draft.job.tasks;
    add_task(&draft.job, &inputs);
    if (!place_primary(&draft, task))
        return refuse(NO_PRIMARY, task, task);
    if (!place_backup(&draft, task))
        return refuse(NO_BACKUP, task, task);
    put_places(&draft.plan, task, places);
    return 0;
}

/* Stale just if the judge refuses the longer pair. */
static uint64_t commit(struct file job, struct file plan, struct file booking, struct held *held)
{
    struct inputs inputs;
    uint64_t refused = start_commit(job, plan, booking, held, &inputs);
    if (refused)
        return refused;
    uint32_t task = held->job.tasks;
    add_task(&held->job, &inputs);
    if (judge_plan(&held->job, &held->plan, held->faults))
        return refuse(STALE, task, task);
    return 0;
}

/* The trial. */

/* What the started copies of a run hold. */
struct holds {
    uint32_t count;
    struct copy copy[2 * MAX_TASKS];
};

/* A cut copy holds its node until the moment. */
static void hold(const struct run *run, const struct copy *copy, enum state state,
                 struct holds *holds)
{
    struct copy *held = &holds->copy[holds->count];
    if (state == NOT_STARTED)
        return;
    *held = *copy;
    if (state == CUT)
        held->finish = run->moment;
    holds->count++;
}

static int any_overlap(const struct holds *holds)
{
    for (uint32_t a = 0; a < holds->count; a++)
        for (uint32_t b = a + 1; b < holds->count; b++)
            if (overlap(&holds->copy[a], &holds->copy[b]))
                return 1;
    return 0;
}

/* One run: each task is done by its deadline, without loss by its primary, and no two started
   copies overlap. */
static int good_run(const struct run *run)
{
    const struct copy *finished[MAX_TASKS];
    uint8_t row[12];
    struct holds holds = { .count = 0 };
    for (uint32_t task = 0; task < run->job.tasks; task++) {
        finished[task] = run_task(run, finished, task, row);
        if (!finished[task] || finished[task]->finish > run->job.deadline[task])
            return 0;
        if (!run->lost && row[0] != FINISHED)
            return 0;
        hold(run, &run->plan.primary[task], row[0], &holds);
        hold(run, &run->plan.backup[task], row[4], &holds);
    }
    return !any_overlap(&holds);
}

static int outlives(struct run *run, const struct copy *copy)
{
    lose_before_finish(run, copy);
    return good_run(run);
}

/* Without loss, and every copy's group lost at the tick before its finish. */
static uint64_t trial(struct file job, struct file plan)
{
    struct run run;
    uint64_t refused = start_trial(job, plan, &run);
    if (refused)
        return refused;
    if (!good_run(&run))
        return NO;
    for (uint32_t task = 0; task < run.job.tasks; task++)
        if (!outlives(&run, &run.plan.primary[task]) || !outlives(&run, &run.plan.backup[task]))
            return NO;
    return 0;
}

/* Run times from the last runs. */

/* The whole log for its faults, then the newest records once more. */
static uint64_t renew_times(struct file log, struct job *job)
{
    uint32_t largest[MAX_TASKS][MAX_NODES] = { { 0 } };
    struct record record;
    uint64_t refused = 0;
    while (!refused && log.offset < log.length)
        refused = read_record(&log, job, &record);
    if (refused)
        return refused;
    log.offset = log.length > WINDOW * RECORD_BYTES ? log.length - WINDOW * RECORD_BYTES : 0;
    while (log.offset < log.length && !read_record(&log, job, &record)) {
        uint32_t *seen = &largest[record.task][record.node];
        *seen = later(*seen, record.ticks);
    }
    for (uint32_t task = 0; task < job->tasks; task++)
        for (uint32_t node = 0; node < job->nodes; node++)
            if (largest[task][node])
                job->run[task][node] = largest[task][node];
    return 0;
}

static void put_renewed(const struct job *job, struct file file, uint8_t *out)
{
    (void)file;
    put_job(job, out);
}

EXPORT(plain)
