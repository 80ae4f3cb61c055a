/* Holds the header's limits and lengths to the library's, through the calls, in each
 * job version: each limit and one past it, each length and a byte less and more. */
#include "limits.h"

#include <stdio.h>
#include <string.h>

/* The longest job of each version, from the papers. */
static const size_t longest[SEQOPCHI_NEWEST_JOB_VERSION + 1] = {
    0, 10576, 10832, 10896, 10960
};

/* All files read well: judge, ask and commit get to the rules, the trial says no, the
 * others lack room. */
static void expect_read(void)
{
    for (int call = JUDGE; call < CALLS; call++) {
        uint64_t r = result_of(call, 0);
        unsigned number = seqopchi_number(r);

        if (call == JUDGE || call == ASK || call == COMMIT)
            check_result(number >= SEQOPCHI_REFUSED_SAME_NODE
                         && r == result_of(JUDGE, 0), call, r, "a rule");
        else if (call == TRIAL)
            check_result(r == SEQOPCHI_TRIAL_NO, call, r, "no");
        else
            check_result(number == SEQOPCHI_REFUSED_SHORT_BUFFER, call, r,
                         "short buffer");
    }
}

/* Every call finds this fault in the file; the planner and those with a log read no
 * plan. */
static void expect_fault(const struct file *f, unsigned number, size_t offset)
{
    for (int call = JUDGE; call < CALLS; call++)
        if (f == &job || (call != PLAN && call != RUN_TIMES && call != RENEW))
            expect(call, 0, number, offset, 0);
}

struct limit {
    const char *macro;
    enum field field;
    uint32_t limit, past;
    unsigned refusal;
};

#define AT_LEAST(macro, field, refusal) \
    { #macro, field, macro, macro - 1, SEQOPCHI_REFUSED_##refusal }
#define AT_MOST(macro, field, refusal) \
    { #macro, field, macro, macro + 1, SEQOPCHI_REFUSED_##refusal }

static const struct limit limits[] = {
    AT_LEAST(OLDEST_JOB_VERSION, VERSION, VERSION),
    AT_MOST(SEQOPCHI_NEWEST_JOB_VERSION, VERSION, VERSION),
    AT_LEAST(SEQOPCHI_PLAN_VERSION, PLAN_VERSION, VERSION),
    AT_MOST(SEQOPCHI_PLAN_VERSION, PLAN_VERSION, VERSION),
    AT_LEAST(SEQOPCHI_MIN_NODES, NODES, COUNT),
    AT_MOST(SEQOPCHI_MAX_NODES, NODES, COUNT),
    AT_LEAST(SEQOPCHI_MIN_TASKS, TASKS, COUNT),
    AT_MOST(SEQOPCHI_MAX_TASKS, TASKS, COUNT),
    AT_MOST(SEQOPCHI_MAX_LINKS, LINKS, COUNT),
    AT_MOST(SEQOPCHI_MAX_DETECT, DETECT, VALUE),
    AT_MOST(SEQOPCHI_MAX_SEND, SEND, VALUE),
    AT_MOST(SEQOPCHI_MAX_GROUP, GROUP, VALUE),
    AT_MOST(SEQOPCHI_MAX_TIME, READY, VALUE),
    AT_LEAST(SEQOPCHI_MIN_DEADLINE, DEADLINE, VALUE),
    AT_MOST(SEQOPCHI_MAX_TIME, DEADLINE, VALUE),
    AT_MOST(SEQOPCHI_MAX_TIME, RUN, VALUE),
    AT_MOST(SEQOPCHI_MAX_TIME, DELAY, VALUE),
    AT_MOST(SEQOPCHI_MAX_TIME, PRIMARY_START, VALUE),
    AT_MOST(SEQOPCHI_MAX_TIME, BACKUP_START, VALUE)
};

/* All numbers of the kind at the limit; then the last of them one past it. */
static void check_limit(const struct limit *l)
{
    struct file *f = l->field < PLAN_VERSION ? &job : &plan;

    if (version < since[l->field])
        return;
    about(l->macro, field_names[l->field], l->limit);
    write_files(l->field, l->limit);
    check(numbers[l->field] == l->limit, "the usual job has too few tasks for that");
    expect_read();
    about(l->macro, field_names[l->field], l->past);
    set_number(f, l->field, l->past);
    expect_fault(f, l->refusal, f->at[l->field]);
}

/* The file has that length and reads; a byte less is short, a byte more a tail. */
static void check_file(const char *macro, struct file *f, size_t length)
{
    about(macro, "length", length);
    check(f->length == length, "the file of that shape has another length");
    expect_read();
    f->length = length - 1;
    expect_fault(f, SEQOPCHI_REFUSED_SHORT, length - 4);
    f->length = length + 1;
    expect_fault(f, SEQOPCHI_REFUSED_TAIL, length);
    f->length = length;
}

/* Each corner of the shapes; the greatest job comes last. */
static void check_job_lengths(void)
{
    static const uint32_t nodes[] = { SEQOPCHI_MIN_NODES, SEQOPCHI_MAX_NODES };
    static const uint32_t tasks[] = { SEQOPCHI_MIN_TASKS, SEQOPCHI_MAX_TASKS };
    static const uint32_t links[] = { 0, 1, SEQOPCHI_MAX_LINKS };

    for (int i = 0; i < 12; i++) {
        write_files(TASKS, tasks[i / 3 % 2]);
        numbers[NODES] = nodes[i / 6];
        numbers[LINKS] = links[i % 3];
        write_job();
        check_file("SEQOPCHI_JOB_BYTES", &job,
                   SEQOPCHI_JOB_BYTES(version, numbers[NODES], numbers[TASKS],
                                      numbers[LINKS]));
    }
    check_file("the longest job", &job, longest[version]);
    if (version == SEQOPCHI_NEWEST_JOB_VERSION)
        check_file("SEQOPCHI_MAX_JOB_BYTES", &job, SEQOPCHI_MAX_JOB_BYTES);
}

/* A plan of so many tasks as a file, as the planner's output, and replayed. */
static void check_plan_lengths(uint32_t tasks, const char *plan_macro, size_t plan_bytes,
                               const char *replay_macro, size_t replay_bytes)
{
    write_files(TASKS, tasks);
    check_file(plan_macro, &plan, plan_bytes);
    check_output(plan_macro, PLAN, plan_bytes);
    memcpy(plan.data, out, plan_bytes);
    expect(JUDGE, 0, SEQOPCHI_DONE, 0, 0);
    expect(TRIAL, 0, SEQOPCHI_DONE, 0, 0);
    check_output(replay_macro, REPLAY, replay_bytes);
    check_output(replay_macro, LOSS, replay_bytes);
    check_output(replay_macro, TIMES, replay_bytes);
    check_output(replay_macro, TIMES_LOSS, replay_bytes);
}

static void check_lengths(void)
{
    check_job_lengths();
    for (uint32_t tasks = SEQOPCHI_MIN_TASKS; tasks <= SEQOPCHI_MAX_TASKS; tasks++)
        check_plan_lengths(tasks, "SEQOPCHI_PLAN_BYTES", SEQOPCHI_PLAN_BYTES(tasks),
                           "SEQOPCHI_REPLAY_BYTES", SEQOPCHI_REPLAY_BYTES(tasks));
    check_plan_lengths(SEQOPCHI_MAX_TASKS,
                       "SEQOPCHI_MAX_PLAN_BYTES", SEQOPCHI_MAX_PLAN_BYTES,
                       "SEQOPCHI_MAX_REPLAY_BYTES", SEQOPCHI_MAX_REPLAY_BYTES);
}

static const struct { unsigned number; const char *word; } words[] = {
    { SEQOPCHI_DONE, "done" },
    { SEQOPCHI_REFUSED_SHORT, "short" },
    { SEQOPCHI_REFUSED_VERSION, "version" },
    { SEQOPCHI_REFUSED_COUNT, "count" },
    { SEQOPCHI_REFUSED_VALUE, "value" },
    { SEQOPCHI_REFUSED_LINK_ORDER, "link order" },
    { SEQOPCHI_REFUSED_TAIL, "tail" },
    { SEQOPCHI_REFUSED_UNABLE, "unable" },
    { SEQOPCHI_REFUSED_SAME_NODE, "same node" },
    { SEQOPCHI_REFUSED_EARLY, "early" },
    { SEQOPCHI_REFUSED_LATE, "late" },
    { SEQOPCHI_REFUSED_PRIMARY_UNFED, "primary unfed" },
    { SEQOPCHI_REFUSED_BACKUP_UNFED, "backup unfed" },
    { SEQOPCHI_REFUSED_COMMON_LOSS, "common loss" },
    { SEQOPCHI_REFUSED_OVERLAP, "overlap" },
    { SEQOPCHI_REFUSED_NO_PRIMARY, "no primary" },
    { SEQOPCHI_REFUSED_NO_BACKUP, "no backup" },
    { SEQOPCHI_REFUSED_SHORT_BUFFER, "short buffer" },
    { SEQOPCHI_REFUSED_NO_SUCH_NODE, "no such node" },
    { SEQOPCHI_REFUSED_TOO_SOON, "too soon" },
    { SEQOPCHI_REFUSED_FULL, "full" },
    { SEQOPCHI_REFUSED_STALE, "stale" },
    { SEQOPCHI_REFUSED_NOT_A_SENTENCE, "not a sentence" }
};

static void check_words(void)
{
    for (unsigned i = 0; i < COUNT_OF(words); i++) {
        about("seqopchi_word", words[i].word, i);
        check(words[i].number == i, "the enum has another number");
        check(strcmp(seqopchi_word(i), words[i].word) == 0, "another word");
    }
    about("seqopchi_word", "unknown", COUNT_OF(words));
    check(strcmp(seqopchi_word(COUNT_OF(words)), "unknown") == 0, "another word");
}

/* Plans of two linked tasks: node and start of primary and backup, one rule broken. */
static const struct rule { unsigned number, first, second; uint32_t rows[8]; } rules[] = {
    { SEQOPCHI_DONE, 0, 0, { 0, 0, 1, 5, 0, 4, 1, 9 } },
    { SEQOPCHI_REFUSED_SAME_NODE, 0, 0, { 0, 0, 0, 5, 0, 4, 1, 9 } },
    { SEQOPCHI_REFUSED_EARLY, 0, 0, { 0, 0, 1, 4, 0, 4, 1, 9 } },
    { SEQOPCHI_REFUSED_LATE, 1, 1, { 0, 0, 1, 5, 0, 4, 1, 9999 } },
    { SEQOPCHI_REFUSED_PRIMARY_UNFED, 0, 1, { 0, 0, 1, 5, 0, 3, 1, 9 } },
    { SEQOPCHI_REFUSED_BACKUP_UNFED, 0, 1, { 0, 0, 1, 5, 0, 4, 2, 9 } },
    { SEQOPCHI_REFUSED_COMMON_LOSS, 1, 1, { 0, 0, 1, 5, 2, 6, 0, 11 } },
    { SEQOPCHI_REFUSED_OVERLAP, 0, 1, { 0, 0, 1, 5, 1, 6, 2, 11 } }
};

static void write_rule(const struct rule *r)
{
    about("enum seqopchi_refusal", "rule", r->number);
    write_rows(2, r->rows);
}

static void check_rules(void)
{
    for (size_t i = 0; i < COUNT_OF(rules); i++) {
        write_rule(&rules[i]);
        expect(JUDGE, 0, rules[i].number, rules[i].first, rules[i].second);
    }
}

/* The same plans where task 1 becomes ready one tick behind its primary's start: that
 * is refused behind 8 and before all others. At the start itself nothing changes. */
static void check_too_soon(void)
{
    for (size_t i = 0; i < COUNT_OF(rules); i++) {
        const struct rule *r = &rules[i];

        write_rule(r);
        set_number(&job, READY, r->rows[5]);
        expect(JUDGE, 0, r->number, r->first, r->second);
        set_number(&job, READY, r->rows[5] + 1);
        if (r->number == SEQOPCHI_REFUSED_SAME_NODE)
            expect(JUDGE, 0, r->number, r->first, r->second);
        else
            expect(JUDGE, 0, SEQOPCHI_REFUSED_TOO_SOON, 1, 1);
    }
}

/* The refusals that no limit, length or rule gives. */
static void check_other_refusals(void)
{
    about("enum seqopchi_refusal", "one of", COUNT_OF(words));
    write_files(RUN, 0);
    expect_fault(&plan, SEQOPCHI_REFUSED_UNABLE, SEQOPCHI_PLAN_BYTES(0));
    expect(PLAN, ROOM, SEQOPCHI_REFUSED_NO_PRIMARY, 0, 0);
    write_files(DEADLINE, usual[RUN]);
    expect(PLAN, ROOM, SEQOPCHI_REFUSED_NO_BACKUP, 0, 0);
    write_files(LINKS, 2);
    set_number(&job, TO, 1);
    expect_fault(&job, SEQOPCHI_REFUSED_LINK_ORDER, job.at[FROM]);
}

/* One task, its primary on node 0 from 0 to 4, which is lost. */
static void check_outcomes(uint32_t moment, uint8_t primary, uint8_t backup)
{
    about("enum seqopchi_outcome", "moment", moment);
    write_files(TASKS, 1);
    set_number(&plan, BACKUP_START, 5);
    lost_group = 0;
    lost_moment = moment;
    expect_outcomes(LOSS, 0, primary, backup);
}

/* One task, its primary from 2 to 6, its backup from 7 on, which no ready time holds
 * back. The planner puts the primary at the ready time. */
static void check_ready(uint32_t ready, uint8_t primary, uint8_t backup)
{
    about("the outcomes", "ready time", ready);
    write_files(TASKS, 1);
    set_number(&job, READY, ready);
    set_number(&plan, PRIMARY_START, 2);
    set_number(&plan, BACKUP_START, 7);
    expect_outcomes(REPLAY, 0, primary, backup);
    expect(PLAN, ROOM, SEQOPCHI_DONE, 0, 0);
    check(out[SEQOPCHI_PLAN_BYTES(0) + 4] == ready, "another start of the primary");
}

static void check_readiness(void)
{
    check_too_soon();
    check_ready(2, SEQOPCHI_FINISHED, SEQOPCHI_NOT_STARTED);
    check_ready(3, SEQOPCHI_NOT_STARTED, SEQOPCHI_FINISHED);
    check_ready(8, SEQOPCHI_NOT_STARTED, SEQOPCHI_FINISHED);
}

static void check_version(void)
{
    for (size_t i = 0; i < COUNT_OF(limits); i++)
        check_limit(&limits[i]);
    check_lengths();
    check_rules();
    check_other_refusals();
    check_outcomes(0, SEQOPCHI_NOT_STARTED, SEQOPCHI_FINISHED);
    check_outcomes(3, SEQOPCHI_CUT, SEQOPCHI_FINISHED);
    check_outcomes(4, SEQOPCHI_FINISHED, SEQOPCHI_NOT_STARTED);
    check_losses();
    check_asking();
    check_sets();
    check_trial();
    check_times();
    check_log();
    if (version >= since[READY])
        check_readiness();
    if (version >= since[SEND])
        check_sending();
    if (version >= since[GROUP]) {
        check_groups();
        check_trial_groups();
    }
}

int main(void)
{
    check_words();
    check_sentences();
    for (version = OLDEST_JOB_VERSION; version <= SEQOPCHI_NEWEST_JOB_VERSION; version++)
        check_version();
    printf("limits: the header's limits and lengths are the library's (%lu calls)\n", calls);
    return 0;
}
