/* Fault sets: lengths, what is written, and the order of refusals. */
#include "limits.h"

void expect_sets(uint32_t tasks, const uint32_t *sets)
{
    size_t length = SEQOPCHI_FAULT_SETS_BYTES(tasks);

    expect(SETS, ROOM, SEQOPCHI_DONE, 0, 0);
    for (size_t at = 0; at < length; at++)
        check(out[at] == (uint8_t)(sets[at / 4] >> 8 * (at % 4)), "another fault set");
    check(is_marked(out + length, ROOM - length),
          "a byte behind the output is written");
}

static void check_lengths(void)
{
    for (uint32_t tasks = SEQOPCHI_MIN_TASKS; tasks <= SEQOPCHI_MAX_TASKS; tasks++) {
        write_files(TASKS, tasks);
        check_output("SEQOPCHI_FAULT_SETS_BYTES", SETS,
                     SEQOPCHI_FAULT_SETS_BYTES(tasks));
    }
    check_output("SEQOPCHI_MAX_FAULT_SETS_BYTES", SETS, SEQOPCHI_MAX_FAULT_SETS_BYTES);
}

/* Plans of two linked tasks, passed by the judge or not. The backup of task 0 is on
 * node 1 from 5 to 9, and its result on another node at 11. */
static const struct { unsigned judged; uint32_t rows[8], sets[2]; } plans[] = {
    { SEQOPCHI_DONE, { 0, 0, 1, 5, 2, 11, 0, 16 }, { 1, 4 } },
    { SEQOPCHI_REFUSED_COMMON_LOSS, { 0, 0, 1, 5, 2, 10, 0, 15 }, { 1, 5 } },
    { SEQOPCHI_DONE, { 0, 0, 1, 5, 1, 9, 2, 14 }, { 1, 2 } },
    { SEQOPCHI_REFUSED_OVERLAP, { 0, 0, 1, 5, 1, 8, 2, 13 }, { 1, 3 } },
    { SEQOPCHI_DONE, { 0, 0, 1, 5, 0, 4, 1, 9 }, { 1, 1 } }
};

static void check_plans(void)
{
    for (size_t i = 0; i < COUNT_OF(plans); i++) {
        about("the fault sets", "plan", i);
        write_rows(2, plans[i].rows);
        check(seqopchi_number(result_of(JUDGE, 0)) == plans[i].judged,
              "the judge answers otherwise");
        expect_sets(2, plans[i].sets);
    }
}

/* Task 0 is linked to 1 and 2, and 1 to 2. The link 0 to 1 is weak and 0 to 2 strong, so
 * node 0 gets into the set of task 2 by way of task 1 alone, whose backup's result is
 * there at 26. */
static void check_chain(uint32_t start, uint32_t last)
{
    const uint32_t rows[12] = { 0, 0, 1, 5, 2, 6, 0, 20, 1, start, 2, 40 };
    const uint32_t sets[3] = { 1, 5, last };

    about("the fault sets", "start of task 2", start);
    write_rows(3, rows);
    numbers[LINKS] = 3;
    write_job();
    expect_sets(3, sets);
}

/* The greatest job, its primaries on all nodes in turn, with this start. */
static void write_greatest(uint32_t start)
{
    about("the fault sets of the greatest job", "start", start);
    write_files(TASKS, SEQOPCHI_MAX_TASKS);
    numbers[NODES] = SEQOPCHI_MAX_NODES;
    numbers[LINKS] = SEQOPCHI_MAX_LINKS;
    write_job();
    check(numbers[LINKS] == SEQOPCHI_MAX_LINKS, "too few tasks for so many links");
    plan.length = SEQOPCHI_PLAN_BYTES(0);
    for (uint32_t t = 0; t < SEQOPCHI_MAX_TASKS; t++) {
        put(&plan, PRIMARY, t % SEQOPCHI_MAX_NODES);
        put(&plan, PRIMARY_START, start);
        put(&plan, BACKUP, (t + 1) % SEQOPCHI_MAX_NODES);
        put(&plan, BACKUP_START, 0);
    }
}

/* From each of the tasks 0 to 7 a link goes to every later task, and from task 8 one
 * to each of the next 36. All are weak, or with the latest starts strong. */
static void check_greatest(void)
{
    uint32_t own[SEQOPCHI_MAX_TASKS], sets[SEQOPCHI_MAX_TASKS];

    for (uint32_t t = 0; t < SEQOPCHI_MAX_TASKS; t++) {
        own[t] = 1u << t % SEQOPCHI_MAX_NODES;
        sets[t] = own[t] | ((1u << (t < 8 ? t : 8)) - 1);
        if (t > 8 && t <= 8 + 36)
            sets[t] |= own[8];
    }
    write_greatest(0);
    expect_sets(SEQOPCHI_MAX_TASKS, sets);
    check_output("SEQOPCHI_MAX_FAULT_SETS_BYTES", SETS, SEQOPCHI_MAX_FAULT_SETS_BYTES);
    write_greatest(SEQOPCHI_MAX_TIME);
    expect_sets(SEQOPCHI_MAX_TASKS, own);
}

/* The last fault of the job before the first of the plan, and that one's last before
 * too little room. */
static void check_order(void)
{
    about("seqopchi_fault_sets", "refusals, with room", 0);
    write_files(TASKS, 2);
    job.length++;
    plan.length++;
    set_number(&plan, PLAN_VERSION, SEQOPCHI_PLAN_VERSION + 1);
    expect_kept(SETS, 0, SEQOPCHI_REFUSED_TAIL, job.length - 1, 0);
    job.length--;
    expect_kept(SETS, 0, SEQOPCHI_REFUSED_VERSION, 0, 0);
    set_number(&plan, PLAN_VERSION, SEQOPCHI_PLAN_VERSION);
    expect_kept(SETS, 0, SEQOPCHI_REFUSED_TAIL, plan.length - 1, 0);
    plan.length--;
    expect_kept(SETS, 0, SEQOPCHI_REFUSED_SHORT_BUFFER,
                SEQOPCHI_FAULT_SETS_BYTES(2), 0);
}

void check_sets(void)
{
    check_lengths();
    check_plans();
    check_chain(26, 2);
    check_chain(25, 7);
    check_greatest();
    check_order();
}
