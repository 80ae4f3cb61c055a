/* Lists of times: limits, lengths, the order of refusals, and what they change. */
#include "limits.h"

#include <string.h>

static const enum call timed[] = { TIMES, TIMES_LOSS };

/* Both calls: job, plan and list read well, so there is too little room. */
static void expect_read(void)
{
    for (int i = 0; i < 2; i++)
        expect_kept(timed[i], 0, SEQOPCHI_REFUSED_SHORT_BUFFER,
                    SEQOPCHI_REPLAY_BYTES(numbers[TASKS]), 0);
}

/* Both calls, with room: this fault of the list. */
static void expect_fault(unsigned number, size_t offset)
{
    for (int i = 0; i < 2; i++)
        expect_kept(timed[i], ROOM, number, offset, 0);
}

/* The last time of its kind within its limits and past them; more does not read either.
 * That of a primary is found before a fault of the backup behind it. */
static void check_limits(enum field field, uint32_t most)
{
    const uint32_t past[] = {
        SEQOPCHI_MIN_ACTUAL_TIME - 1, most + 1, most + 256, UINT32_MAX
    };

    about("SEQOPCHI_MIN_ACTUAL_TIME", field_names[field], most);
    set_number(&times, field, SEQOPCHI_MIN_ACTUAL_TIME);
    expect_read();
    set_number(&times, field, most);
    expect_read();
    for (size_t i = 0; i < COUNT_OF(past); i++) {
        set_number(&times, field, past[i]);
        expect_fault(SEQOPCHI_REFUSED_VALUE, times.at[field]);
    }
    set_number(&times, BACKUP_TIME, 0);
    expect_fault(SEQOPCHI_REFUSED_VALUE, times.at[field]);
    write_times();
}

/* The listed run time is the greatest. */
static void check_run_limits(uint32_t run)
{
    write_files(RUN, run);
    check_limits(PRIMARY_TIME, run);
    check_limits(BACKUP_TIME, run);
}

/* It is that of the task on the copy's node: the last of the tasks takes 7, 8 and 9
 * ticks on the nodes, the others more. */
static void check_node_limits(uint32_t primary, uint32_t backup)
{
    write_files(RUN, 20);
    job.at[RUN] -= 8;
    for (uint32_t node = 0; node < 3; node++, job.at[RUN] += 4)
        set_number(&job, RUN, 7 + node);
    set_number(&plan, PRIMARY, primary);
    set_number(&plan, BACKUP, backup);
    check_limits(PRIMARY_TIME, 7 + primary);
    check_limits(BACKUP_TIME, 7 + backup);
}

/* It has that length and reads; cut it is short in that number, and more is a tail. */
static void check_length(const char *macro, size_t length)
{
    about(macro, "length", length);
    check(times.length == length, "the list of so many tasks has another length");
    expect_read();
    for (size_t cut = 1; cut <= length; cut += cut < 9 ? 1 : 11) {
        times.length = length - cut;
        expect_fault(SEQOPCHI_REFUSED_SHORT, times.length / 4 * 4);
    }
    for (times.length = length + 1; times.length < length + 10; times.length++)
        expect_fault(SEQOPCHI_REFUSED_TAIL, length);
    times.length = length;
}

static void check_lengths(void)
{
    for (uint32_t tasks = SEQOPCHI_MIN_TASKS; tasks <= SEQOPCHI_MAX_TASKS; tasks += 9) {
        write_files(TASKS, tasks);
        check_length("SEQOPCHI_TIMES_BYTES", SEQOPCHI_TIMES_BYTES(tasks));
    }
    check_length("SEQOPCHI_MAX_TIMES_BYTES", SEQOPCHI_MAX_TIMES_BYTES);
}

/* The last fault of the plan comes before a group that is not there, that one before a
 * faulty time, that before the tail of the list, and this before too little room. */
static void check_order(void)
{
    about("seqopchi_replay_times_loss", "refusals, with room", 0);
    write_files(TASKS, 2);
    lost_group = SEQOPCHI_MAX_GROUP;
    set_number(&times, BACKUP_TIME, 0);
    times.length++;
    plan.length++;
    job.length++;
    expect_kept(TIMES, 0, SEQOPCHI_REFUSED_TAIL, job.length - 1, 0);
    expect_kept(TIMES_LOSS, 0, SEQOPCHI_REFUSED_TAIL, job.length - 1, 0);
    job.length--;
    expect_kept(TIMES, 0, SEQOPCHI_REFUSED_TAIL, plan.length - 1, 0);
    expect_kept(TIMES_LOSS, 0, SEQOPCHI_REFUSED_TAIL, plan.length - 1, 0);
    plan.length--;
    expect_kept(TIMES, 0, SEQOPCHI_REFUSED_VALUE, times.at[BACKUP_TIME], 0);
    expect_kept(TIMES_LOSS, 0, SEQOPCHI_REFUSED_NO_SUCH_NODE, lost_group, 0);
    lost_group = 0;
    expect_kept(TIMES_LOSS, 0, SEQOPCHI_REFUSED_VALUE, times.at[BACKUP_TIME], 0);
    set_number(&times, BACKUP_TIME, 1);
    expect_kept(TIMES_LOSS, 0, SEQOPCHI_REFUSED_TAIL, times.length - 1, 0);
    expect_kept(TIMES, 0, SEQOPCHI_REFUSED_TAIL, times.length - 1, 0);
    times.length--;
    expect_read();
}

/* With the listed run times the run is that without a list. */
static void check_listed(uint32_t group, uint32_t moment)
{
    static const enum call listed[] = { REPLAY, LOSS };
    uint8_t run[SEQOPCHI_MAX_REPLAY_BYTES];
    size_t length = SEQOPCHI_REPLAY_BYTES(usual[TASKS]);

    about("the listed run times", "moment", moment);
    write_planned(PRIMARY_TIME, usual[RUN]);
    numbers[BACKUP_TIME] = usual[RUN];
    write_times();
    lost_group = group;
    lost_moment = moment;
    for (int i = 0; i < 2; i++) {
        expect(listed[i], ROOM, SEQOPCHI_DONE, 0, 0);
        memcpy(run, out, length);
        expect(timed[i], ROOM, SEQOPCHI_DONE, 0, 0);
        check(memcmp(run, out, length) == 0, "another run than without a list");
    }
    lost_group = 0;
}

enum { NOT = SEQOPCHI_NOT_STARTED, CUT = SEQOPCHI_CUT, DONE = SEQOPCHI_FINISHED };

/* Two linked tasks that run for 4 ticks, with delay 2 and detect time 1; primary 0 is on
 * node 0 and takes so many ticks, all other copies take 2. Node 0 is lost, or nothing
 * where the moment is late. The states of the copies, then the finish, for each task. */
static const struct run {
    uint32_t rows[8], time, moment;
    uint8_t wanted[6];
} runs[] = {
    /* a copy that has ended by the loss is finished */
    { { 0, 0, 1, 5, 0, 4, 1, 9 }, 3, 3, { DONE, NOT, 3, NOT, DONE, 11 } },
    { { 0, 0, 1, 5, 0, 4, 1, 9 }, 4, 3, { CUT, DONE, 7, NOT, DONE, 11 } },
    { { 0, 0, 1, 5, 0, 4, 1, 9 }, 1, 0, { NOT, DONE, 7, NOT, DONE, 11 } },
    { { 0, 0, 1, 5, 0, 4, 1, 9 }, 4, 6, { DONE, NOT, 4, DONE, NOT, 6 } },
    /* its result leaves as it ends: primary 1 on another node has it at 5, or at 6 */
    { { 0, 0, 1, 5, 2, 5, 1, 11 }, 3, 9, { DONE, NOT, 3, DONE, NOT, 7 } },
    { { 0, 0, 1, 5, 2, 5, 1, 11 }, 4, 9, { DONE, NOT, 4, NOT, DONE, 13 } },
    /* so does that of a backup: it is there at 9, and sooner than 11, as listed */
    { { 0, 0, 1, 5, 2, 9, 1, 14 }, 2, 1, { CUT, DONE, 7, DONE, NOT, 11 } },
    { { 0, 0, 1, 5, 2, 8, 1, 13 }, 2, 1, { CUT, DONE, 7, NOT, DONE, 15 } },
    /* the backup waits for the listed finish: it is called on at 5, not at 4 */
    { { 0, 0, 1, 4, 0, 4, 1, 9 }, 2, 1, { CUT, NOT, 0, NOT, NOT, 0 } },
    { { 0, 0, 1, 5, 0, 4, 1, 9 }, 2, 1, { CUT, DONE, 7, NOT, DONE, 11 } },
    /* a start is the plan's, also where the node has long been free */
    { { 0, 0, 1, 5, 0, 9, 1, 14 }, 1, 99, { DONE, NOT, 1, DONE, NOT, 11 } }
};

static void check_run(const struct run *r)
{
    about("the run with times", "moment", r->moment);
    write_rows(2, r->rows);
    for (size_t at = 0; at < times.length; at += 4)
        times.data[at] = 2;
    times.data[0] = (uint8_t)r->time;
    lost_moment = r->moment;
    expect(TIMES_LOSS, ROOM, SEQOPCHI_DONE, 0, 0);
    for (size_t at = 0; at < SEQOPCHI_REPLAY_BYTES(2); at++)
        check(out[at] == (at % 4 ? 0 : r->wanted[at / 4]), "another run");
    check(is_marked(out + SEQOPCHI_REPLAY_BYTES(2), ROOM - SEQOPCHI_REPLAY_BYTES(2)),
          "a byte behind the output is written");
}

void check_times(void)
{
    static const uint32_t listed[] = { 1, 2, 255, 256, 65536, SEQOPCHI_MAX_TIME };

    for (size_t i = 0; i < COUNT_OF(listed); i++)
        check_run_limits(listed[i]);
    for (uint32_t node = 0; node < 3; node++)
        check_node_limits(node, 2 - node);
    check_lengths();
    check_order();
    for (uint32_t moment = 0; moment < 20; moment++)
        check_listed(moment % 3, moment);
    for (size_t i = 0; i < COUNT_OF(runs); i++)
        check_run(&runs[i]);
}
