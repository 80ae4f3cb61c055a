/* Logs: limits, lengths, the order of refusals, the window, and the run times. */
#include "limits.h"

#include <string.h>

enum { RECORD = SEQOPCHI_LOG_RECORD_BYTES, WINDOW = SEQOPCHI_LOG_WINDOW };

static const enum call logged[] = { RUN_TIMES, RENEW };

/* How many bytes a call writes. */
static size_t needed(enum call call)
{
    return call == RENEW ? job.length
        : SEQOPCHI_RUN_TIMES_BYTES(numbers[NODES], numbers[TASKS]);
}

static uint32_t number_in(const uint8_t *bytes)
{
    return bytes[0] | (uint32_t)bytes[1] << 8 | (uint32_t)bytes[2] << 16
        | (uint32_t)bytes[3] << 24;
}

/* Where the job has the run time of a task on a node: the last one is known. */
static size_t run_at(uint32_t t, uint32_t node)
{
    return job.at[RUN] - 4 * (numbers[NODES] - 1 - node)
        - SEQOPCHI_TASK_BYTES(version, numbers[NODES]) * (numbers[TASKS] - 1 - t);
}

/* The largest ticks of the newest records, or the job's run time: worked out afresh. */
static uint32_t time_of(uint32_t t, uint32_t node)
{
    size_t records = history.length / RECORD, k = records > WINDOW ? records - WINDOW : 0;
    uint32_t most = 0;

    for (; k < records; k++) {
        const uint8_t *record = history.data + RECORD * k;

        if (number_in(record) == t && number_in(record + 4) == node
            && number_in(record + 8) > most)
            most = number_in(record + 8);
    }
    return most ? most : number_in(job.data + run_at(t, node));
}

/* Both calls, with room: the table, and the job with its numbers in place of its own. */
static void expect_run_times(void)
{
    struct file renewed = job;

    expect(RUN_TIMES, ROOM, SEQOPCHI_DONE, 0, 0);
    for (uint32_t t = 0; t < numbers[TASKS]; t++)
        for (uint32_t node = 0; node < numbers[NODES]; node++) {
            renewed.at[RUN] = run_at(t, node);
            set_number(&renewed, RUN, time_of(t, node));
            check(memcmp(out + 4 * (t * numbers[NODES] + node),
                         renewed.data + renewed.at[RUN], 4) == 0, "another run time");
        }
    check(is_marked(out + needed(RUN_TIMES), ROOM - needed(RUN_TIMES)),
          "a byte behind the table is written");
    expect(RENEW, ROOM, SEQOPCHI_DONE, 0, 0);
    check(memcmp(out, renewed.data, job.length) == 0, "another job");
    check(is_marked(out + job.length, ROOM - job.length),
          "a byte behind the job is written");
}

/* Both calls, with just enough room: this fault of the log. */
static void expect_fault(unsigned number, size_t offset)
{
    for (int i = 0; i < 2; i++)
        expect_kept(logged[i], needed(logged[i]), number, offset, 0);
}

/* The last number of its kind within its limits and past them. */
static void check_limits(enum field field, uint32_t least, uint32_t most)
{
    const uint32_t past[] = { least - 1, most + 1, most + 256, most + 65536, UINT32_MAX };

    about("the limits of a log", field_names[field], most);
    write_files(TASKS, usual[TASKS]);
    set_number(&history, field, least);
    expect_run_times();
    set_number(&history, field, most);
    expect_run_times();
    for (size_t i = 0; i < COUNT_OF(past); i++) {
        set_number(&history, field, past[i]);
        expect_fault(SEQOPCHI_REFUSED_VALUE, history.at[field]);
    }
}

/* It has so many records; cut within one it is short in that number, and there is no
 * tail: a byte more begins another. */
static void check_records(void)
{
    size_t length = 2 * RECORD;

    about("SEQOPCHI_LOG_RECORD_BYTES", "length", length);
    write_files(TASKS, 1);
    check(history.length == length, "the log of two records has another length");
    put(&history, LOG_TASK, 0);
    put(&history, LOG_NODE, 0);
    for (size_t bytes = 0; bytes < length + RECORD - 4; bytes++) {
        history.length = bytes;
        if (bytes % RECORD == 0)
            expect_run_times();
        else
            expect_fault(SEQOPCHI_REFUSED_SHORT, bytes / 4 * 4);
    }
}

/* Each corner of the shapes: a byte less is too little, for the table and for the job. */
static void check_lengths(void)
{
    static const uint32_t nodes[] = { SEQOPCHI_MIN_NODES, SEQOPCHI_MAX_NODES };
    static const uint32_t tasks[] = { SEQOPCHI_MIN_TASKS, 7, SEQOPCHI_MAX_TASKS };

    for (int i = 0; i < 6; i++) {
        write_files(TASKS, tasks[i % 3]);
        numbers[NODES] = nodes[i / 3];
        write_job();
        set_number(&history, LOG_NODE, numbers[NODES] - 1);
        check_output("SEQOPCHI_RUN_TIMES_BYTES", RUN_TIMES,
                     SEQOPCHI_RUN_TIMES_BYTES(numbers[NODES], numbers[TASKS]));
        check_output("SEQOPCHI_JOB_BYTES", RENEW,
                     SEQOPCHI_JOB_BYTES(version, numbers[NODES], numbers[TASKS],
                                        numbers[LINKS]));
        expect_run_times();
    }
    check_output("SEQOPCHI_MAX_RUN_TIMES_BYTES", RUN_TIMES,
                 SEQOPCHI_MAX_RUN_TIMES_BYTES);
}

/* The job, then room, then the log; there the task, the node, whether that can run the
 * task, which is found before the ticks are read, and the ticks. */
static void check_order(void)
{
    about("seqopchi_run_times and seqopchi_renew_job", "refusals, with room", 0);
    write_files(TASKS, 2);
    set_number(&job, RUN, 0);
    set_number(&history, LOG_TASK, 2);
    set_number(&history, LOG_NODE, 3);
    set_number(&history, LOG_TICKS, 0);
    job.length++;
    for (int i = 0; i < 2; i++)
        expect_kept(logged[i], 0, SEQOPCHI_REFUSED_TAIL, job.length - 1, 0);
    job.length--;
    for (int i = 0; i < 2; i++)
        expect_kept(logged[i], needed(logged[i]) - 1, SEQOPCHI_REFUSED_SHORT_BUFFER,
                    needed(logged[i]), 0);
    expect_fault(SEQOPCHI_REFUSED_VALUE, history.at[LOG_TASK]);
    set_number(&history, LOG_TASK, 1);
    expect_fault(SEQOPCHI_REFUSED_VALUE, history.at[LOG_NODE]);
    set_number(&history, LOG_NODE, 2);
    expect_fault(SEQOPCHI_REFUSED_UNABLE, history.at[LOG_NODE]);
    history.length -= 4;
    expect_fault(SEQOPCHI_REFUSED_UNABLE, history.at[LOG_NODE]);
    history.length += 4;
    set_number(&history, LOG_NODE, 1);
    expect_fault(SEQOPCHI_REFUSED_VALUE, history.at[LOG_TICKS]);
    set_number(&history, LOG_TICKS, SEQOPCHI_MAX_TIME);
    expect_run_times();
}

/* So many records of 2 ticks behind one of this task, of 9. */
static void write_window(uint32_t t, uint32_t behind)
{
    about("SEQOPCHI_LOG_WINDOW", "records", behind + 1);
    write_files(TASKS, 2);
    history.length = 0;
    put_record(t, 0, 9);
    for (uint32_t k = 0; k < behind; k++)
        put_record(1, 0, 2);
}

/* The oldest of the window counts, the one before it does not: the largest ticks of
 * others, or the job's run time, come in its place. A fault there is found all the
 * same. */
static void check_window(uint32_t t)
{
    uint8_t *oldest = out + SEQOPCHI_RUN_TIMES_BYTES(3, t);

    write_window(t, WINDOW - 1);
    expect_run_times();
    expect(RUN_TIMES, ROOM, SEQOPCHI_DONE, 0, 0);
    check(*oldest == 9, "the oldest of the window does not count");
    write_window(t, WINDOW);
    expect_run_times();
    expect(RUN_TIMES, ROOM, SEQOPCHI_DONE, 0, 0);
    check(*oldest == (t ? 2 : usual[RUN]), "one before the window counts");
    history.at[LOG_TICKS] = 8;
    set_number(&history, LOG_TICKS, 0);
    expect_fault(SEQOPCHI_REFUSED_VALUE, 8);
}

/* As records come in, after each: a window that moves on is that of a log which ends
 * there. */
static void check_moving(void)
{
    size_t length;

    about("the moving window", "records", 2 * WINDOW + 50);
    write_files(TASKS, 2);
    history.length = 0;
    for (uint32_t k = 0; k < 2 * WINDOW + 50; k++)
        put_record(k / 5 % 2, k * k % 3, 1 + k * 7919 % 1000);
    length = history.length;
    for (history.length = 0; history.length < length; history.length += RECORD)
        expect_run_times();
    expect_run_times();
}

void check_log(void)
{
    check_limits(LOG_TASK, 0, usual[TASKS] - 1);
    check_limits(LOG_NODE, 0, usual[NODES] - 1);
    check_limits(LOG_TICKS, SEQOPCHI_MIN_ACTUAL_TIME, SEQOPCHI_MAX_TIME);
    check_records();
    check_lengths();
    check_order();
    check_window(0);
    check_window(1);
    check_moving();
}
