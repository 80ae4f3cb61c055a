/* Files made of a few numbers, the library's calls on them, and what is expected. */
#ifndef LIMITS_H
#define LIMITS_H

#include "seqopchi.h"

#define ROOM 65536 /* for any file or output here; no limit of the library */
#define MARK 0xa5  /* what an output holds before a call, in each byte */
#define COUNT_OF(array) (sizeof (array) / sizeof (array)[0])

#define OLDEST_JOB_VERSION 1

enum call {
    JUDGE, TRIAL, PLAN, REPLAY, LOSS, TIMES, TIMES_LOSS, SETS, ASK, COMMIT,
    RUN_TIMES, RENEW, CALLS
};

/* The numbers of a job, of a plan, of a description, of a booking's place, of a list of
 * times and of a log. */
enum field {
    VERSION, NODES, DETECT, SEND, GROUP, TASKS,
    READY, DEADLINE, RUN, LINKS, FROM, TO, DELAY,
    PLAN_VERSION, ROWS, PRIMARY, PRIMARY_START, BACKUP, BACKUP_START,
    NEW_READY, NEW_DEADLINE, NEW_RUN, NEW_LINKS, NEW_FROM, NEW_DELAY,
    NEW_PRIMARY, NEW_PRIMARY_START, NEW_BACKUP, NEW_BACKUP_START,
    PRIMARY_TIME, BACKUP_TIME, LOG_TASK, LOG_NODE, LOG_TICKS, FIELDS
};

extern const char *const field_names[FIELDS];
extern const uint32_t since[FIELDS]; /* the first job version that has it */

/* Well inside all limits, with tasks enough for the most links. The rows of the plan
 * are alike and their backups early, so that a rule refuses a plan that reads well. The
 * groups of the nodes go round from that of node 0. */
extern const uint32_t usual[FIELDS];

struct file {
    size_t length;
    size_t at[FIELDS]; /* where the last number of each kind stands */
    uint8_t data[ROOM];
};

extern uint32_t version;         /* the usual one of a job */
extern uint32_t numbers[FIELDS]; /* what the files are made of */
extern struct file job, plan, task, booking, times, history; /* the last is a log */
extern uint8_t out[ROOM], out_plan[ROOM]; /* of a commit: longer job, longer plan */
extern size_t plan_room;                  /* how much of out_plan a commit is given */
extern uint32_t places[4];
extern uint32_t lost_group, lost_moment; /* the group of a node, or its number */
extern unsigned long calls;

/* Ends the program with the subject and the fault, unless it is fine. */
void about(const char *name, const char *what, unsigned long number);
void check(int fine, const char *fault);

void set_number(struct file *f, enum field field, uint32_t number);
/* A field of the first nodes of the job. */
void set_nodes(enum field field, const uint32_t *values, uint32_t nodes);
void put(struct file *f, enum field field, uint32_t number);
void write_job(void);
void write_task(void); /* and the booking */
void write_times(void);
void put_record(uint32_t task, uint32_t node, uint32_t ticks); /* the newest of the log */
/* The usual files with one number changed. */
void write_files(enum field field, uint32_t number);
/* The same, and the planner's plan of the job. */
void write_planned(enum field field, uint32_t number);
void take_planned(void); /* of the job as it is now */
/* So many tasks, task 0 linked to the next one or two, and a plan: node and start of
 * primary and backup of each. */
void write_rows(uint32_t tasks, const uint32_t *rows);

/* One call, with so many bytes of out. */
uint64_t result_of(enum call call, size_t out_len);
void check_result(int fine, enum call call, uint64_t r, const char *wanted);
void expect(enum call call, size_t out_len, unsigned number,
            size_t first, size_t second);

/* Whether a call has left all these bytes as they were. */
int is_marked(const void *output, size_t length);
/* In a run with room, what became of the copies of a task. */
void expect_outcomes(enum call call, uint32_t task, uint8_t primary, uint8_t backup);
/* These fault sets and nothing behind them, with more room than that. */
void expect_sets(uint32_t tasks, const uint32_t *sets);
/* The new task is asked for, its place is this one, and it is booked there, in a job of
 * three nodes, which are the job's still. */
void expect_booked(const uint32_t wanted[4]);
/* A refusal, by which nothing is written. */
void expect_kept(enum call call, size_t out_len, unsigned number,
                 size_t first, size_t second);
/* One output: all its bytes are written, and none behind them. */
void check_written(const uint8_t *output, size_t length);
/* With a byte less there is too little room; with that length all of it is written. */
void check_output(const char *macro, enum call call, size_t length);

/* Descriptions and bookings: limits, lengths, and what ask and commit write. */
void check_asking(void);

/* Send times, in a version that has them. */
void check_sending(void);

/* Which groups there are to lose, in each version; then groups of several nodes, in a
 * version that has them. */
void check_losses(void);
void check_groups(void);

/* Fault sets: lengths, what is written, and the order of refusals. */
void check_sets(void);

/* The trial: its answers beside the judge's, and the order of refusals; then groups, in
 * a version that has them. */
void check_trial(void);
void check_trial_groups(void);

/* Lists of times: limits, lengths, the order of refusals, and what they change. */
void check_times(void);

/* Logs: limits, lengths, the order of refusals, the window, and the run times. */
void check_log(void);

/* Sentences: lengths, the numbers that have one, words, and reading back. These are the
 * same in all job versions. */
void check_sentences(void);

#endif
