/* Descriptions and bookings: limits, lengths, and what ask and commit write. */
#include "limits.h"

#include <string.h>

void expect_booked(const uint32_t wanted[4])
{
    expect(ASK, 0, SEQOPCHI_DONE, 0, 0);
    check(memcmp(places, wanted, sizeof places) == 0, "another place asked for");
    for (int i = 0; i < 4; i++)
        set_number(&booking, NEW_PRIMARY + i, wanted[i]);
    expect(COMMIT, ROOM, SEQOPCHI_DONE, 0, 0);
    check(memcmp(out, job.data, SEQOPCHI_JOB_BYTES(version, 3, 0, 0) - 8) == 0,
          "the longer job has other nodes");
}

/* Read well: whatever comes behind the faults of description and booking. */
static void expect_read(enum call call)
{
    uint64_t r = result_of(call, 0);
    unsigned number = seqopchi_number(r);

    check_result(number == SEQOPCHI_DONE || number > SEQOPCHI_REFUSED_UNABLE, call, r,
                 "read well");
}

struct limit {
    const char *macro;
    enum field field;
    uint32_t limit, past;
};

#define AT_LEAST(macro, field) { #macro, field, macro, macro - 1 }
#define AT_MOST(macro, field) { #macro, field, macro, macro + 1 }

static const struct limit limits[] = {
    AT_MOST(SEQOPCHI_MAX_TIME, NEW_READY),
    AT_LEAST(SEQOPCHI_MIN_DEADLINE, NEW_DEADLINE),
    AT_MOST(SEQOPCHI_MAX_TIME, NEW_DEADLINE),
    AT_MOST(SEQOPCHI_MAX_TIME, NEW_RUN),
    AT_MOST(SEQOPCHI_MAX_TIME, NEW_DELAY),
    AT_MOST(SEQOPCHI_MAX_TIME, NEW_PRIMARY_START),
    AT_MOST(SEQOPCHI_MAX_TIME, NEW_BACKUP_START)
};

/* The last number of its kind, in a description too unless it is one of the place. */
static void expect_past(enum field field, uint32_t past)
{
    if (field < NEW_PRIMARY) {
        set_number(&task, field, past);
        expect_kept(ASK, 0, SEQOPCHI_REFUSED_VALUE, task.at[field], 0);
    }
    set_number(&booking, field, past);
    expect_kept(COMMIT, ROOM, SEQOPCHI_REFUSED_VALUE, booking.at[field], 0);
}

static void check_limit(const struct limit *l)
{
    if (version < since[l->field])
        return;
    about(l->macro, field_names[l->field], l->limit);
    write_planned(l->field, l->limit);
    expect_read(ASK);
    expect_read(COMMIT);
    about(l->macro, field_names[l->field], l->past);
    expect_past(l->field, l->past);
}

/* A from is below N, a node below P. */
static void check_counted_limits(void)
{
    about("the tasks", field_names[NEW_FROM], usual[TASKS]);
    write_planned(NEW_LINKS, usual[TASKS]);
    expect_read(ASK);
    expect_read(COMMIT);
    expect_past(NEW_FROM, usual[TASKS]);
    for (int field = NEW_PRIMARY; field <= NEW_BACKUP; field += 2) {
        about("the nodes", field_names[field], usual[NODES]);
        write_planned(field, usual[NODES] - 1);
        expect_read(COMMIT);
        expect_past(field, usual[NODES]);
    }
}

/* More links than tasks are no count fault: the first that is missing is short. */
static void check_link_count(void)
{
    about("SEQOPCHI_MAX_LINKS", field_names[NEW_LINKS], SEQOPCHI_MAX_LINKS);
    write_planned(NEW_LINKS, 3);
    set_number(&task, NEW_LINKS, SEQOPCHI_MAX_LINKS);
    expect_kept(ASK, 0, SEQOPCHI_REFUSED_SHORT, task.length, 0);
    set_number(&task, NEW_LINKS, SEQOPCHI_MAX_LINKS + 1);
    expect_kept(ASK, 0, SEQOPCHI_REFUSED_COUNT, task.at[NEW_LINKS], 0);
    set_number(&booking, NEW_LINKS, SEQOPCHI_MAX_LINKS + 1);
    expect_kept(COMMIT, ROOM, SEQOPCHI_REFUSED_COUNT, booking.at[NEW_LINKS], 0);
    write_planned(NEW_LINKS, SEQOPCHI_MAX_LINKS);
    expect_kept(ASK, 0, SEQOPCHI_REFUSED_VALUE,
                task.at[NEW_LINKS] + 4 + 8 * usual[TASKS], 0);
}

/* It has that length and reads; a byte less is short, a byte more a tail. */
static void check_length(const char *macro, enum call call, struct file *f,
                         size_t length)
{
    about(macro, "length", length);
    check(f->length == length, "the file of that shape has another length");
    expect_read(call);
    f->length = length - 1;
    expect_kept(call, ROOM, SEQOPCHI_REFUSED_SHORT, length - 4, 0);
    f->length = length + 1;
    expect_kept(call, ROOM, SEQOPCHI_REFUSED_TAIL, length, 0);
    f->length = length;
}

static void check_task_lengths(void)
{
    static const uint32_t nodes[] = { SEQOPCHI_MIN_NODES, SEQOPCHI_MAX_NODES };

    for (int i = 0; i < 2; i++)
        for (uint32_t links = 0; links <= usual[TASKS]; links++) {
            write_planned(NODES, nodes[i]);
            numbers[NEW_LINKS] = links;
            write_task();
            check_length("SEQOPCHI_DESCRIPTION_BYTES", ASK, &task,
                         SEQOPCHI_DESCRIPTION_BYTES(version, nodes[i], links));
            check_length("SEQOPCHI_BOOKING_BYTES", COMMIT, &booking,
                         SEQOPCHI_BOOKING_BYTES(version, nodes[i], links));
        }
}

/* The longest description and booking of each version: a link from each of the most
 * tasks. The job is full then, but they read. */
static void check_longest(void)
{
    static const size_t longest[SEQOPCHI_NEWEST_JOB_VERSION + 1] = {
        0, 584, 588, 588, 588
    };

    write_planned(TASKS, SEQOPCHI_MAX_TASKS);
    numbers[NODES] = SEQOPCHI_MAX_NODES;
    numbers[NEW_LINKS] = SEQOPCHI_MAX_TASKS;
    write_job();
    write_task();
    check_length("the longest description", ASK, &task, longest[version]);
    check_length("the longest booking", COMMIT, &booking, longest[version] + 16);
    expect_kept(ASK, 0, SEQOPCHI_REFUSED_FULL, SEQOPCHI_MAX_TASKS, 0);
    if (version < SEQOPCHI_NEWEST_JOB_VERSION)
        return;
    check_length("SEQOPCHI_MAX_DESCRIPTION_BYTES", ASK, &task,
                 SEQOPCHI_MAX_DESCRIPTION_BYTES);
    check_length("SEQOPCHI_MAX_BOOKING_BYTES", COMMIT, &booking,
                 SEQOPCHI_MAX_BOOKING_BYTES);
}

/* The refusal of a job at its limits, by both calls, or none. */
static void expect_full(uint32_t tasks, uint32_t links, uint32_t new_links, int full)
{
    write_planned(TASKS, tasks);
    numbers[LINKS] = links;
    write_job();
    check(numbers[LINKS] == links, "too few tasks for so many links");
    take_planned();
    numbers[NEW_LINKS] = new_links;
    write_task();
    if (full) {
        expect_kept(ASK, 0, SEQOPCHI_REFUSED_FULL, tasks, 0);
        expect_kept(COMMIT, 0, SEQOPCHI_REFUSED_FULL, tasks, 0);
    } else {
        expect(ASK, 0, SEQOPCHI_DONE, 0, 0);
        expect(COMMIT, ROOM, SEQOPCHI_DONE, 0, 0);
    }
}

static void check_full(void)
{
    about("SEQOPCHI_MAX_TASKS", "tasks", SEQOPCHI_MAX_TASKS);
    expect_full(SEQOPCHI_MAX_TASKS, 0, 0, 1);
    expect_full(SEQOPCHI_MAX_TASKS - 1, 0, SEQOPCHI_MAX_TASKS - 1, 0);
    about("SEQOPCHI_MAX_LINKS", "links", SEQOPCHI_MAX_LINKS);
    expect_full(usual[TASKS], SEQOPCHI_MAX_LINKS, 1, 1);
    expect_full(usual[TASKS], SEQOPCHI_MAX_LINKS, 0, 0);
    expect_full(usual[TASKS], SEQOPCHI_MAX_LINKS - 2, 3, 1);
    expect_full(usual[TASKS], SEQOPCHI_MAX_LINKS - 2, 2, 0);
}

/* The room that a commit needs: 17 for the job first, then for the plan, behind 21. */
static void check_commit_lengths(uint32_t tasks)
{
    size_t job_bytes, plan_bytes = SEQOPCHI_PLAN_BYTES(tasks + 1);

    write_planned(TASKS, tasks);
    if (numbers[NEW_LINKS] > tasks)
        numbers[NEW_LINKS] = tasks;
    write_task();
    job_bytes = SEQOPCHI_JOB_BYTES(version, numbers[NODES], tasks + 1,
                                   numbers[LINKS] + numbers[NEW_LINKS]);
    about("SEQOPCHI_JOB_BYTES and SEQOPCHI_PLAN_BYTES", "tasks", tasks + 1);
    plan_room = plan_bytes - 1;
    expect_kept(COMMIT, job_bytes - 1, SEQOPCHI_REFUSED_SHORT_BUFFER, job_bytes, 0);
    expect_kept(COMMIT, job_bytes, SEQOPCHI_REFUSED_SHORT_BUFFER, plan_bytes, 0);
    plan_room = plan_bytes;
    expect(COMMIT, job_bytes, SEQOPCHI_DONE, 0, 0);
    check(out[0] == version, "the longer job has another version");
    check_written(out, job_bytes);
    check_written(out_plan, plan_bytes);
    plan_room = 0;
    set_number(&booking, NEW_BACKUP, 0);
    expect_kept(COMMIT, 0, SEQOPCHI_REFUSED_STALE, tasks, tasks);
    plan_room = ROOM;
}

/* The refusals that no limit or length gives, and what ask writes. */
static void check_other_refusals(void)
{
    uint32_t last = usual[TASKS];

    about("enum seqopchi_refusal", "task", last);
    write_planned(NEW_RUN, 0);
    expect_kept(ASK, 0, SEQOPCHI_REFUSED_NO_PRIMARY, last, last);
    expect_kept(COMMIT, ROOM, SEQOPCHI_REFUSED_UNABLE, booking.at[NEW_PRIMARY], 0);
    write_planned(NEW_DEADLINE, 1000);
    set_number(&task, NEW_DELAY, 995);
    expect_kept(ASK, 0, SEQOPCHI_REFUSED_NO_BACKUP, last, last);
    write_planned(NEW_LINKS, 2);
    expect(ASK, 0, SEQOPCHI_DONE, 0, 0);
    check(!is_marked(places, sizeof places) && places[0] < usual[NODES]
          && places[2] < usual[NODES] && places[0] != places[2], "no places");
    check(is_marked(out, ROOM) && is_marked(out_plan, ROOM), "ask writes a file");
    set_number(&task, NEW_FROM, 0);
    expect_kept(ASK, 0, SEQOPCHI_REFUSED_LINK_ORDER, task.at[NEW_FROM], 0);
    set_number(&booking, NEW_FROM, 0);
    expect_kept(COMMIT, ROOM, SEQOPCHI_REFUSED_LINK_ORDER, booking.at[NEW_FROM], 0);
}

void check_asking(void)
{
    for (size_t i = 0; i < COUNT_OF(limits); i++)
        check_limit(&limits[i]);
    check_counted_limits();
    check_link_count();
    check_task_lengths();
    check_longest();
    check_full();
    for (uint32_t tasks = SEQOPCHI_MIN_TASKS; tasks < SEQOPCHI_MAX_TASKS; tasks++)
        check_commit_lengths(tasks);
    check_other_refusals();
}
