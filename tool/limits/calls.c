/* Files made of a few numbers, the library's calls on them, and what is expected. */
#include "limits.h"

#include <stdio.h>
#include <stdlib.h>
#include <string.h>

static const char *const call_names[CALLS] = {
    "seqopchi_judge", "seqopchi_trial", "seqopchi_plan", "seqopchi_replay",
    "seqopchi_replay_loss", "seqopchi_replay_times", "seqopchi_replay_times_loss",
    "seqopchi_fault_sets", "seqopchi_ask", "seqopchi_commit", "seqopchi_run_times",
    "seqopchi_renew_job"
};

const char *const field_names[FIELDS] = {
    "version", "nodes", "detect time", "send time", "supply group", "tasks",
    "ready time", "deadline", "run time", "links", "from", "to", "delay", "version of the plan", "rows",
    "primary's node", "primary's start", "backup's node", "backup's start",
    "new ready time", "new deadline", "new run time", "new links", "new from",
    "new delay", "new primary's node", "new primary's start", "new backup's node",
    "new backup's start", "primary's time", "backup's time", "task of a record",
    "node of a record", "ticks of a record"
};

const uint32_t since[FIELDS] = {
    [SEND] = 3, [GROUP] = 4, [READY] = 2, [NEW_READY] = 2
};

const uint32_t usual[FIELDS] = {
    [NODES] = 3, [DETECT] = 1, [TASKS] = 40, [DEADLINE] = 9999, [RUN] = 4,
    [LINKS] = 2, [DELAY] = 2, [PLAN_VERSION] = SEQOPCHI_PLAN_VERSION, [BACKUP] = 1,
    [NEW_DEADLINE] = 9999, [NEW_RUN] = 4, [NEW_LINKS] = 2, [NEW_DELAY] = 2,
    [NEW_PRIMARY_START] = 5000, [NEW_BACKUP] = 1, [NEW_BACKUP_START] = 6000,
    [PRIMARY_TIME] = 1, [BACKUP_TIME] = 1, [LOG_TICKS] = 3
};

uint32_t version;
uint32_t numbers[FIELDS];
struct file job, plan, task, booking, times, history;
uint8_t out[ROOM], out_plan[ROOM];
size_t plan_room = ROOM;
uint32_t places[4];
uint32_t lost_group, lost_moment;
unsigned long calls;

static char subject[120]; /* what is checked, for the message */

void about(const char *name, const char *what, unsigned long number)
{
    snprintf(subject, sizeof subject, "%s, %s %lu, usual job version %lu", name, what,
             number, (unsigned long)version);
}

void check(int fine, const char *fault)
{
    if (fine)
        return;
    fprintf(stderr, "limits: %s: %s\n", subject, fault);
    exit(1);
}

void set_number(struct file *f, enum field field, uint32_t number)
{
    for (int i = 0; i < 4; i++)
        f->data[f->at[field] + i] = (uint8_t)(number >> 8 * i);
}

void set_nodes(enum field field, const uint32_t *values, uint32_t nodes)
{
    for (uint32_t node = 0; node < nodes; node++) {
        job.at[field] = 8 + SEQOPCHI_NODE_BYTES(version) * (size_t)node
            + 4 * (size_t)(field - DETECT);
        set_number(&job, field, values[node]);
    }
}

void put(struct file *f, enum field field, uint32_t number)
{
    check(f->length + 4 < ROOM, "the file is too long for this program");
    f->at[field] = f->length;
    f->length += 4;
    set_number(f, field, number);
}

/* The number of that kind, where the version has it. */
static void put_field(struct file *f, enum field field)
{
    if (numbers[VERSION] >= since[field])
        put(f, field, numbers[field]);
}

static void put_node(uint32_t node)
{
    put_field(&job, DETECT);
    put_field(&job, SEND);
    if (numbers[VERSION] >= since[GROUP])
        put(&job, GROUP, (numbers[GROUP] + node) % (SEQOPCHI_MAX_GROUP + 1));
}

/* Fewer links than asked for where there are fewer pairs of tasks. */
static void write_links(void)
{
    uint32_t tasks = numbers[TASKS], pairs = tasks * (tasks - 1) / 2, left;

    if (numbers[LINKS] > pairs)
        numbers[LINKS] = pairs;
    left = numbers[LINKS];
    put(&job, LINKS, left);
    for (uint32_t from = 0; from < tasks; from++)
        for (uint32_t to = from + 1; to < tasks && left > 0; to++, left--) {
            put(&job, FROM, from);
            put(&job, TO, to);
            put(&job, DELAY, numbers[DELAY]);
        }
}

void write_job(void)
{
    job.length = 0;
    put(&job, VERSION, numbers[VERSION]);
    put(&job, NODES, numbers[NODES]);
    for (uint32_t node = 0; node < numbers[NODES]; node++)
        put_node(node);
    put(&job, TASKS, numbers[TASKS]);
    for (uint32_t t = 0; t < numbers[TASKS]; t++) {
        put_field(&job, READY);
        put_field(&job, DEADLINE);
        for (uint32_t node = 0; node < numbers[NODES]; node++)
            put_field(&job, RUN);
    }
    write_links();
}

static void write_plan(void)
{
    plan.length = 0;
    put(&plan, PLAN_VERSION, numbers[PLAN_VERSION]);
    put(&plan, ROWS, numbers[TASKS]);
    for (uint32_t t = 0; t < numbers[TASKS]; t++)
        for (int field = PRIMARY; field <= BACKUP_START; field++)
            put(&plan, field, numbers[field]);
}

/* Links from the tasks 0, 1 and so on, whether there are so many or not. */
static void write_description(struct file *f)
{
    f->length = 0;
    put_field(f, NEW_READY);
    put_field(f, NEW_DEADLINE);
    for (uint32_t node = 0; node < numbers[NODES]; node++)
        put_field(f, NEW_RUN);
    put(f, NEW_LINKS, numbers[NEW_LINKS]);
    for (uint32_t from = 0; from < numbers[NEW_LINKS]; from++) {
        put(f, NEW_FROM, from);
        put(f, NEW_DELAY, numbers[NEW_DELAY]);
    }
}

void write_task(void)
{
    write_description(&task);
    write_description(&booking);
    for (int field = NEW_PRIMARY; field <= NEW_BACKUP_START; field++)
        put(&booking, field, numbers[field]);
}

void write_times(void)
{
    times.length = 0;
    for (uint32_t t = 0; t < numbers[TASKS]; t++) {
        put(&times, PRIMARY_TIME, numbers[PRIMARY_TIME]);
        put(&times, BACKUP_TIME, numbers[BACKUP_TIME]);
    }
}

void put_record(uint32_t task, uint32_t node, uint32_t ticks)
{
    put(&history, LOG_TASK, task);
    put(&history, LOG_NODE, node);
    put(&history, LOG_TICKS, ticks);
}

/* Of the first task on the first node, then of the last on the last. */
static void write_log(void)
{
    history.length = 0;
    put_record(0, 0, numbers[LOG_TICKS]);
    put_record(numbers[TASKS] - 1, numbers[NODES] - 1, numbers[LOG_TICKS]);
}

void write_files(enum field field, uint32_t number)
{
    memcpy(numbers, usual, sizeof numbers);
    numbers[VERSION] = version;
    numbers[field] = number;
    write_job();
    write_plan();
    write_task();
    write_times();
    write_log();
}

void take_planned(void)
{
    expect(PLAN, ROOM, SEQOPCHI_DONE, 0, 0);
    plan.length = SEQOPCHI_PLAN_BYTES(numbers[TASKS]);
    memcpy(plan.data, out, plan.length);
}

void write_planned(enum field field, uint32_t number)
{
    write_files(field, number);
    take_planned();
}

void write_rows(uint32_t tasks, const uint32_t *rows)
{
    write_files(TASKS, tasks);
    plan.length = SEQOPCHI_PLAN_BYTES(0);
    for (uint32_t k = 0; k < 4 * tasks; k++)
        put(&plan, PRIMARY + k % 4, rows[k]);
}

static void mark_outputs(void)
{
    memset(out, MARK, sizeof out);
    memset(out_plan, MARK, sizeof out_plan);
    memset(places, MARK, sizeof places);
}

static uint64_t result_of_log(enum call call, size_t out_len)
{
    if (call == RENEW)
        return seqopchi_renew_job(job.data, job.length, history.data, history.length,
                                  out, out_len);
    return seqopchi_run_times(job.data, job.length, history.data, history.length,
                              out, out_len);
}

uint64_t result_of(enum call call, size_t out_len)
{
    calls++;
    mark_outputs();
    switch (call) {
    case JUDGE:
        return seqopchi_judge(job.data, job.length, plan.data, plan.length);
    case TRIAL:
        return seqopchi_trial(job.data, job.length, plan.data, plan.length);
    case PLAN:
        return seqopchi_plan(job.data, job.length, out, out_len);
    case REPLAY:
        return seqopchi_replay(job.data, job.length, plan.data, plan.length,
                               out, out_len);
    case LOSS:
        return seqopchi_replay_loss(job.data, job.length, plan.data, plan.length,
                                    lost_group, lost_moment, out, out_len);
    case TIMES:
        return seqopchi_replay_times(job.data, job.length, plan.data, plan.length,
                                     times.data, times.length, out, out_len);
    case TIMES_LOSS:
        return seqopchi_replay_times_loss(job.data, job.length, plan.data, plan.length,
                                          lost_group, lost_moment,
                                          times.data, times.length, out, out_len);
    case SETS:
        return seqopchi_fault_sets(job.data, job.length, plan.data, plan.length,
                                   out, out_len);
    case ASK:
        return seqopchi_ask(job.data, job.length, plan.data, plan.length,
                            task.data, task.length, places);
    case RUN_TIMES:
    case RENEW:
        return result_of_log(call, out_len);
    default:
        return seqopchi_commit(job.data, job.length, plan.data, plan.length,
                               booking.data, booking.length, out, out_len,
                               out_plan, plan_room);
    }
}

void check_result(int fine, enum call call, uint64_t r, const char *wanted)
{
    char fault[160];
    unsigned number = seqopchi_number(r);

    snprintf(fault, sizeof fault, "%s gives %u (%s) %lu / %lu, not %s",
             call_names[call], number, seqopchi_word(number),
             (unsigned long)seqopchi_first(r), (unsigned long)seqopchi_second(r),
             wanted);
    check(fine, fault);
}

void expect(enum call call, size_t out_len, unsigned number,
            size_t first, size_t second)
{
    uint64_t r = result_of(call, out_len);
    int same = seqopchi_number(r) == number && seqopchi_first(r) == first
        && seqopchi_second(r) == second;
    char wanted[80];

    snprintf(wanted, sizeof wanted, "%u (%s) %lu / %lu", number, seqopchi_word(number),
             (unsigned long)first, (unsigned long)second);
    check_result(same, call, r, wanted);
}

void expect_outcomes(enum call call, uint32_t task, uint8_t primary, uint8_t backup)
{
    const uint8_t *row = out + SEQOPCHI_REPLAY_BYTES(task);

    expect(call, ROOM, SEQOPCHI_DONE, 0, 0);
    check(row[0] == primary, "another outcome of the primary");
    check(row[4] == backup, "another outcome of the backup");
}

int is_marked(const void *output, size_t length)
{
    const uint8_t *bytes = output;

    for (size_t i = 0; i < length; i++)
        if (bytes[i] != MARK)
            return 0;
    return 1;
}

void expect_kept(enum call call, size_t out_len, unsigned number,
                 size_t first, size_t second)
{
    expect(call, out_len, number, first, second);
    check(is_marked(out, ROOM), "a refusal writes to out");
    check(is_marked(out_plan, ROOM), "a refusal writes the plan");
    check(is_marked(places, sizeof places), "a refusal writes the places");
}

void check_written(const uint8_t *output, size_t length)
{
    check(output[length - 1] != MARK, "the last byte is not written");
    check(is_marked(output + length, ROOM - length),
          "a byte behind the output is written");
}

void check_output(const char *macro, enum call call, size_t length)
{
    about(macro, "length", length);
    expect_kept(call, length - 1, SEQOPCHI_REFUSED_SHORT_BUFFER, length, 0);
    expect(call, length, SEQOPCHI_DONE, 0, 0);
    check_written(out, length);
}
