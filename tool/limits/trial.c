/* The trial: its answers beside the judge's, and the order of refusals. */
#include "limits.h"

enum answer { YES, NO };

static void expect_answers(unsigned judged, enum answer answer)
{
    check(seqopchi_number(result_of(JUDGE, 0)) == judged,
          "the judge answers otherwise");
    expect_kept(TRIAL, 0, SEQOPCHI_DONE, answer, 0);
    check(result_of(TRIAL, 0) == (answer == NO ? SEQOPCHI_TRIAL_NO : 0),
          "the trial's answer is another number");
}

/* Plans of two tasks, of which 0 is linked to 1 or not. Each copy takes 4 ticks, the
 * detect time is 1 and the delay 2. */
static const struct trial {
    uint32_t links;
    unsigned judged;
    enum answer answer;
    uint32_t rows[8];
} trials[] = {
    { 1, SEQOPCHI_DONE, YES, { 0, 0, 1, 5, 0, 4, 1, 9 } },
    { 1, SEQOPCHI_REFUSED_SAME_NODE, NO, { 0, 0, 0, 5, 0, 9, 1, 14 } },
    { 1, SEQOPCHI_REFUSED_EARLY, NO, { 0, 0, 1, 4, 0, 4, 1, 9 } },
    { 1, SEQOPCHI_REFUSED_LATE, NO, { 0, 0, 1, 5, 0, 4, 1, 9999 } },
    { 1, SEQOPCHI_REFUSED_PRIMARY_UNFED, NO, { 0, 0, 1, 5, 0, 3, 1, 9 } },
    { 1, SEQOPCHI_REFUSED_BACKUP_UNFED, NO, { 0, 0, 1, 5, 0, 4, 2, 9 } },
    { 1, SEQOPCHI_REFUSED_COMMON_LOSS, NO, { 0, 0, 1, 5, 2, 6, 0, 11 } },
    /* Backup 0 runs where primary 1 lacks its input; without the link both run. */
    { 1, SEQOPCHI_REFUSED_OVERLAP, YES, { 0, 0, 1, 5, 1, 6, 2, 11 } },
    { 0, SEQOPCHI_REFUSED_OVERLAP, NO, { 0, 0, 1, 5, 1, 6, 2, 11 } },
    /* A common tick at the end of the backup, at its start, and none. */
    { 0, SEQOPCHI_REFUSED_OVERLAP, NO, { 0, 0, 1, 5, 1, 8, 2, 13 } },
    { 0, SEQOPCHI_DONE, YES, { 0, 0, 1, 5, 1, 9, 2, 14 } },
    { 0, SEQOPCHI_REFUSED_OVERLAP, NO, { 0, 0, 1, 5, 1, 2, 2, 7 } },
    { 0, SEQOPCHI_DONE, YES, { 0, 0, 1, 5, 1, 1, 2, 6 } },
    /* Two primaries, and two backups that one loss calls on, or none. */
    { 0, SEQOPCHI_REFUSED_OVERLAP, NO, { 0, 0, 1, 5, 0, 3, 1, 9 } },
    { 0, SEQOPCHI_REFUSED_OVERLAP, NO, { 0, 0, 2, 8, 0, 4, 2, 9 } },
    { 0, SEQOPCHI_DONE, YES, { 0, 0, 2, 5, 1, 0, 2, 5 } }
};

static void write_trial(const struct trial *t)
{
    write_rows(2, t->rows);
    numbers[LINKS] = t->links;
    write_job();
}

static void check_answers(void)
{
    for (size_t i = 0; i < COUNT_OF(trials); i++) {
        about("seqopchi_trial", "plan", i);
        write_trial(&trials[i]);
        expect_answers(trials[i].judged, trials[i].answer);
    }
}

/* Where time is shared, the last backup ends at 15. */
static void check_deadline(uint32_t deadline, unsigned judged, enum answer answer)
{
    static const uint32_t rows[8] = { 0, 0, 1, 5, 1, 6, 2, 11 };

    about("seqopchi_trial", "deadline", deadline);
    write_rows(2, rows);
    set_number(&job, DEADLINE, deadline);
    expect_answers(judged, answer);
}

static void check_greatest(void)
{
    about("seqopchi_trial", "tasks", SEQOPCHI_MAX_TASKS);
    write_files(TASKS, SEQOPCHI_MAX_TASKS);
    numbers[NODES] = SEQOPCHI_MAX_NODES;
    numbers[LINKS] = SEQOPCHI_MAX_LINKS;
    write_job();
    take_planned();
    expect_answers(SEQOPCHI_DONE, YES);
    set_number(&job, DEADLINE, SEQOPCHI_MIN_DEADLINE);
    expect_answers(SEQOPCHI_REFUSED_LATE, NO);
}

/* The last fault of the job before the first of the plan, and that one's last before an
 * answer. */
static void check_order(void)
{
    about("seqopchi_trial", "refusals, with room", 0);
    write_files(TASKS, 2);
    job.length++;
    plan.length++;
    set_number(&plan, PLAN_VERSION, SEQOPCHI_PLAN_VERSION + 1);
    expect_kept(TRIAL, 0, SEQOPCHI_REFUSED_TAIL, job.length - 1, 0);
    job.length--;
    expect_kept(TRIAL, 0, SEQOPCHI_REFUSED_VERSION, 0, 0);
    set_number(&plan, PLAN_VERSION, SEQOPCHI_PLAN_VERSION);
    expect_kept(TRIAL, 0, SEQOPCHI_REFUSED_TAIL, plan.length - 1, 0);
    plan.length--;
    expect_kept(TRIAL, 0, SEQOPCHI_DONE, NO, 0);
}

void check_trial(void)
{
    check_answers();
    check_deadline(15, SEQOPCHI_REFUSED_OVERLAP, YES);
    check_deadline(14, SEQOPCHI_REFUSED_LATE, NO);
    check_greatest();
    check_order();
}

/* Three nodes with these groups. */
static void check_grouped(uint32_t zero, uint32_t one, uint32_t two, unsigned judged,
                          enum answer answer, const uint32_t *rows)
{
    const uint32_t groups[3] = { zero, one, two };

    about("seqopchi_trial, three groups", "group of node 2", two);
    write_rows(2, rows);
    set_nodes(GROUP, groups, 3);
    expect_answers(judged, answer);
}

/* One loss that takes the node of the backup too, or that of what feeds it. */
void check_trial_groups(void)
{
    static const uint32_t shared[8] = { 0, 0, 1, 5, 1, 6, 2, 11 };
    static const uint32_t apart[8] = { 0, 0, 2, 5, 1, 6, 2, 11 };

    check_grouped(7, 0, 15, SEQOPCHI_REFUSED_OVERLAP, YES, shared);
    check_grouped(7, 7, 15, SEQOPCHI_REFUSED_SAME_NODE, NO, shared);
    check_grouped(7, 0, 7, SEQOPCHI_REFUSED_COMMON_LOSS, NO, shared);
    check_grouped(7, 7, 15, SEQOPCHI_DONE, YES, apart);
    check_grouped(7, 7, 7, SEQOPCHI_REFUSED_SAME_NODE, NO, apart);
}
