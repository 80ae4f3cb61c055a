/* Send times: the delay that judge, planner, replay, sets, ask and commit take. */
#include "limits.h"

#include <string.h>

enum { MOST = SEQOPCHI_MAX_SEND };

/* Of the usual three nodes. Their detect time is 1, links have delay 2, and each task
 * runs for 4 ticks. */
static void set_sends(const uint32_t send[3])
{
    set_nodes(SEND, send, 3);
}

/* Plans of two linked tasks that pass, with a result that arrives just in time. If the
 * sender takes a tick more, a rule is broken, and in the run with that loss the copies
 * of task 1 have other outcomes. Its fault set, in time and too late, is told too. A
 * send time that has no part in it, on one node or where the result arrives, is the
 * greatest. */
static const struct edge {
    uint32_t send[3], sender, rows[8];
    unsigned number, first, second;
    uint32_t group, moment;
    uint8_t in_time[2], too_late[2];
    uint8_t sets[2];
} edges[] = {
    /* from primary to primary */
    { { 3, MOST, MOST }, 0, { 0, 0, 1, 5, 2, 9, 1, 14 },
      SEQOPCHI_REFUSED_PRIMARY_UNFED, 0, 1, 1, 0,
      { SEQOPCHI_FINISHED, SEQOPCHI_NOT_STARTED },
      { SEQOPCHI_NOT_STARTED, SEQOPCHI_NOT_STARTED }, { 5, 5 } },
    /* from primary to backup; both primaries are on one node */
    { { 3, MOST, MOST }, 0, { 0, 0, 1, 5, 0, 4, 1, 9 },
      SEQOPCHI_REFUSED_BACKUP_UNFED, 0, 1, 0, 5,
      { SEQOPCHI_CUT, SEQOPCHI_FINISHED }, { SEQOPCHI_CUT, SEQOPCHI_NOT_STARTED },
      { 1, 1 } },
    /* from backup to backup */
    { { 0, 3, MOST }, 1, { 0, 0, 1, 5, 0, 4, 2, 14 },
      SEQOPCHI_REFUSED_BACKUP_UNFED, 0, 1, 0, 3,
      { SEQOPCHI_NOT_STARTED, SEQOPCHI_FINISHED },
      { SEQOPCHI_NOT_STARTED, SEQOPCHI_NOT_STARTED }, { 1, 1 } },
    /* from backup to primary: the link is strong, then weak, and the loss is common */
    { { 0, 3, MOST }, 1, { 0, 0, 1, 5, 2, 14, 0, 19 },
      SEQOPCHI_REFUSED_COMMON_LOSS, 1, 1, 0, 3,
      { SEQOPCHI_FINISHED, SEQOPCHI_NOT_STARTED },
      { SEQOPCHI_NOT_STARTED, SEQOPCHI_NOT_STARTED }, { 4, 5 } }
};

static void expect_run(const struct edge *e, const uint8_t outcomes[2])
{
    lost_group = e->group;
    lost_moment = e->moment;
    expect_outcomes(LOSS, 1, outcomes[0], outcomes[1]);
}

static void expect_set(uint8_t set)
{
    expect(SETS, ROOM, SEQOPCHI_DONE, 0, 0);
    check(out[SEQOPCHI_FAULT_SETS_BYTES(1)] == set, "another fault set");
}

static void check_edge(const struct edge *e)
{
    uint32_t send[3];

    about("the delay", "send time", e->send[e->sender]);
    memcpy(send, e->send, sizeof send);
    write_rows(2, e->rows);
    set_sends(send);
    expect(JUDGE, 0, SEQOPCHI_DONE, 0, 0);
    expect_run(e, e->in_time);
    expect_set(e->sets[0]);
    send[e->sender]++;
    set_sends(send);
    expect(JUDGE, 0, e->number, e->first, e->second);
    expect_run(e, e->too_late);
    expect_set(e->sets[1]);
}

/* The run time of the last task on node 0, of three. */
static void clear_run(struct file *f, enum field field)
{
    f->at[field] -= 8;
    set_number(f, field, 0);
}

/* The second of two linked tasks, which node 0 cannot run, so that the first one's
 * result has to be sent. The backup of the first is on node 1 from 5 to 9. */
static void check_planned(const uint32_t send[3], const uint32_t wanted[4])
{
    const uint8_t *row = out + SEQOPCHI_PLAN_BYTES(1);

    write_files(TASKS, 2);
    set_sends(send);
    clear_run(&job, RUN);
    expect(PLAN, ROOM, SEQOPCHI_DONE, 0, 0);
    for (int i = 0; i < 4; i++)
        check(row[4 * i] == wanted[i], "another place");
}

/* The same task asked for and booked; a tick sooner it is stale. */
static void check_asked(const uint32_t send[3], const uint32_t wanted[4])
{
    write_planned(TASKS, 1);
    set_sends(send);
    numbers[NEW_LINKS] = 1;
    write_task();
    clear_run(&task, NEW_RUN);
    clear_run(&booking, NEW_RUN);
    expect_booked(wanted);
    set_number(&booking, NEW_PRIMARY_START, wanted[1] - 1);
    expect(COMMIT, ROOM, SEQOPCHI_REFUSED_STALE, 1, 1);
}

void check_sending(void)
{
    for (size_t i = 0; i < COUNT_OF(edges); i++)
        check_edge(&edges[i]);
    for (uint32_t ticks = 0; ticks < 3; ticks++) {
        const uint32_t send[3] = { ticks, MOST, MOST };
        const uint32_t wanted[4] = { 2, 6 + ticks, 1, 11 + ticks };

        about("the places", "send time", ticks);
        check_planned(send, wanted);
        check_asked(send, wanted);
    }
}
