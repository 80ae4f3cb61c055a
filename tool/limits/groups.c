/* Supply groups: which there are to lose, what one loss takes, and the rules that go by
 * them. */
#include "limits.h"

/* Just these groups, as bits, can be lost. Another is refused before too little room. */
static void expect_losable_by(enum call call, uint32_t groups)
{
    static const uint32_t far[] = {
        32, 255, 256, 65536, UINT32_C(1) << 31, UINT32_MAX - 1, UINT32_MAX
    };
    size_t length = SEQOPCHI_REPLAY_BYTES(numbers[TASKS]);

    for (lost_group = 0; lost_group < 32; lost_group++) {
        if (groups >> lost_group & 1) {
            expect_kept(call, 0, SEQOPCHI_REFUSED_SHORT_BUFFER, length, 0);
            expect(call, length, SEQOPCHI_DONE, 0, 0);
            continue;
        }
        expect_kept(call, 0, SEQOPCHI_REFUSED_NO_SUCH_NODE, lost_group, 0);
        expect_kept(call, ROOM, SEQOPCHI_REFUSED_NO_SUCH_NODE, lost_group, 0);
    }
    for (size_t i = 0; i < COUNT_OF(far); i++) {
        lost_group = far[i];
        expect_kept(call, ROOM, SEQOPCHI_REFUSED_NO_SUCH_NODE, lost_group, 0);
    }
    lost_group = 0;
}

static void expect_losable(uint32_t groups)
{
    expect_losable_by(LOSS, groups);
    expect_losable_by(TIMES_LOSS, groups);
}

/* So many nodes, each in a group of its own, from this one round. */
static void check_own_groups(uint32_t nodes, uint32_t first)
{
    uint32_t groups = 0;

    about("the groups to lose", "nodes", nodes);
    write_files(NODES, nodes);
    numbers[GROUP] = first;
    write_job();
    for (uint32_t node = 0; node < nodes; node++)
        groups |= UINT32_C(1) << (first + node) % (SEQOPCHI_MAX_GROUP + 1);
    expect_losable(groups);
}

/* A fault of the plan comes before a group that is not there. */
static void check_loss_order(void)
{
    about("seqopchi_replay_loss", "refusals, with room", 0);
    write_files(TASKS, 2);
    lost_group = SEQOPCHI_MAX_GROUP;
    plan.length++;
    expect_kept(LOSS, 0, SEQOPCHI_REFUSED_TAIL, plan.length - 1, 0);
    plan.length--;
    expect_kept(LOSS, 0, SEQOPCHI_REFUSED_NO_SUCH_NODE, lost_group, 0);
    lost_group = 0;
}

void check_losses(void)
{
    for (uint32_t n = SEQOPCHI_MIN_NODES; n <= SEQOPCHI_MAX_NODES; n++)
        check_own_groups(n, 0);
    check_loss_order();
}

/* Two nodes in the same group, whichever it is; and each number past the limit. */
static void check_shared_group(uint32_t group)
{
    const uint32_t both[2] = { group, group };

    about("the groups to lose", "two nodes in group", group);
    write_files(NODES, 2);
    set_nodes(GROUP, both, 2);
    expect_losable(UINT32_C(1) << group);
    for (uint32_t node = 0; node < 2; node++) {
        uint32_t past[2] = { group, group };
        size_t at = 8 + SEQOPCHI_NODE_BYTES(version) * (size_t)(node + 1) - 4;

        past[node] = SEQOPCHI_MAX_GROUP + 1 + group;
        set_nodes(GROUP, past, 2);
        expect(JUDGE, 0, SEQOPCHI_REFUSED_VALUE, at, 0);
    }
}

/* Plans of two tasks, linked or not, on four nodes that pass while each node is its own
 * group. With nodes 0 and 1 in group 5 a rule is broken, or not. The fault sets are told
 * for both. Links have delay 2, the detect time is 1, each task runs for 4 ticks. */
static const uint32_t own[4] = { 0, 1, 2, 3 }, drawer[4] = { 5, 5, 2, 3 };

static const struct edge {
    uint32_t links, rows[8];
    unsigned number, first, second;
    uint32_t own_sets[2], drawer_sets[2];
} edges[] = {
    /* A: primary and backup in one group */
    { 1, { 0, 0, 1, 5, 0, 4, 1, 9 }, SEQOPCHI_REFUSED_SAME_NODE, 0, 0,
      { 1, 1 }, { 32, 32 } },
    /* F: a weak link brings the group of primary 0, and backup 1 is in it */
    { 1, { 0, 0, 2, 5, 3, 6, 1, 11 }, SEQOPCHI_REFUSED_COMMON_LOSS, 1, 1,
      { 1, 9 }, { 32, 40 } },
    /* the same with a strong link */
    { 1, { 0, 0, 2, 5, 3, 11, 1, 16 }, SEQOPCHI_DONE, 0, 0, { 1, 8 }, { 32, 8 } },
    /* G: two backups share time */
    { 0, { 0, 0, 2, 5, 1, 0, 2, 8 }, SEQOPCHI_REFUSED_OVERLAP, 0, 1,
      { 1, 2 }, { 32, 32 } },
    /* between two nodes of one group a result is sent, and copies do not overlap */
    { 1, { 0, 0, 2, 5, 1, 6, 2, 11 }, SEQOPCHI_DONE, 0, 0, { 1, 3 }, { 32, 32 } }
};

static void write_edge(const struct edge *e)
{
    write_rows(2, e->rows);
    numbers[NODES] = 4;
    numbers[LINKS] = e->links;
    write_job();
}

static void check_edge(const struct edge *e)
{
    about("a rule over groups", "links", e->links);
    write_edge(e);
    expect(JUDGE, 0, SEQOPCHI_DONE, 0, 0);
    expect_sets(2, e->own_sets);
    set_nodes(GROUP, drawer, 4);
    expect(JUDGE, 0, e->number, e->first, e->second);
    expect_sets(2, e->drawer_sets);
}

/* E: tasks 0 and 1 feed task 2. Its set has the group of primary 0 by the weak link from
 * task 1 where both primaries are in one. Then it waits for backup 0, whose result takes
 * 16 ticks: it is there a tick too late. The link 0 to 1 is strong. */
static void check_waiting(void)
{
    static const uint32_t rows[12] = { 0, 0, 2, 5, 1, 11, 3, 16, 2, 20, 3, 24 };
    static const uint32_t detect[4] = { 1, 1, 0, 1 };

    about("rule E over groups", "tasks", 3);
    write_rows(3, rows);
    numbers[NODES] = 4;
    numbers[LINKS] = 3;
    write_job();
    set_nodes(DETECT, detect, 4);
    job.at[DELAY] -= 12;
    set_number(&job, DELAY, 16);
    expect(JUDGE, 0, SEQOPCHI_DONE, 0, 0);
    set_nodes(GROUP, drawer, 4);
    expect(JUDGE, 0, SEQOPCHI_REFUSED_BACKUP_UNFED, 0, 2);
    set_number(&plan, BACKUP_START, 25);
    expect(JUDGE, 0, SEQOPCHI_DONE, 0, 0);
}

/* The detect time is that of the primary's node, whatever the others of its group have. */
static void check_detection(void)
{
    static const uint32_t other[2] = { 1, 9 }, its[2] = { 2, 1 };

    about("rule B over groups", "detect time", other[1]);
    write_edge(&edges[4]);
    set_nodes(GROUP, drawer, 4);
    set_nodes(DETECT, its, 2);
    expect(JUDGE, 0, SEQOPCHI_REFUSED_EARLY, 0, 0);
    set_nodes(DETECT, other, 2);
    expect(JUDGE, 0, SEQOPCHI_REFUSED_EARLY, 1, 1);
}

/* Two tasks that are not linked, with primaries on nodes 0 and 1 from 0 to 4. */
static void check_loss(const uint32_t groups[4], uint32_t lost, uint32_t moment,
                       const uint8_t outcomes[4])
{
    static const struct edge apart = {
        0, { 0, 0, 2, 5, 1, 0, 2, 9 }, SEQOPCHI_DONE, 0, 0, { 1, 2 }, { 32, 32 }
    };

    about("the outcomes", "lost group", lost);
    write_edge(&apart);
    set_nodes(GROUP, groups, 4);
    lost_group = lost;
    lost_moment = moment;
    expect_outcomes(LOSS, 0, outcomes[0], outcomes[1]);
    expect_outcomes(LOSS, 1, outcomes[2], outcomes[3]);
    lost_group = 0;
}

enum { NOT = SEQOPCHI_NOT_STARTED, CUT = SEQOPCHI_CUT, DONE = SEQOPCHI_FINISHED };

static void check_taken(void)
{
    check_loss(drawer, 5, 0, (const uint8_t[]){ NOT, DONE, NOT, DONE });
    check_loss(drawer, 5, 3, (const uint8_t[]){ CUT, DONE, CUT, DONE });
    check_loss(drawer, 5, 4, (const uint8_t[]){ DONE, NOT, DONE, NOT });
    check_loss(drawer, 2, 3, (const uint8_t[]){ DONE, NOT, DONE, NOT });
    check_loss(own, 0, 3, (const uint8_t[]){ CUT, DONE, DONE, NOT });
    check_loss(own, 1, 3, (const uint8_t[]){ DONE, NOT, CUT, DONE });
}

/* The planner's place of the first task, and a second one asked for and booked. In the
 * drawer no copy backs the other; a booking there is stale. */
static void check_placed(const uint32_t groups[3], uint32_t backup)
{
    const uint32_t wanted[4] = { 0, 4, backup, 9 };

    about("the places", "backup's node", backup);
    write_files(TASKS, 1);
    set_nodes(GROUP, groups, 3);
    take_planned();
    check(plan.data[SEQOPCHI_PLAN_BYTES(0) + 8] == backup, "another node of the backup");
    numbers[NEW_LINKS] = 1;
    write_task();
    expect_booked(wanted);
    set_number(&booking, NEW_BACKUP, 1);
    set_number(&booking, NEW_BACKUP_START, 11);
    if (backup == 1)
        expect(COMMIT, ROOM, SEQOPCHI_DONE, 0, 0);
    else
        expect_kept(COMMIT, ROOM, SEQOPCHI_REFUSED_STALE, 1, 1);
}

void check_groups(void)
{
    for (uint32_t group = 0; group <= SEQOPCHI_MAX_GROUP; group++) {
        check_own_groups(SEQOPCHI_MIN_NODES, group);
        check_own_groups(SEQOPCHI_MAX_NODES, group);
        check_shared_group(group);
    }
    for (size_t i = 0; i < COUNT_OF(edges); i++)
        check_edge(&edges[i]);
    check_waiting();
    check_detection();
    check_taken();
    check_placed(own, 1);
    check_placed(drawer, 2);
}
