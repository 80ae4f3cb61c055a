/* The commands of the tool. Each gives the exit status. */
#ifndef TOOL_COMMANDS_H
#define TOOL_COMMANDS_H

#include "layout.h"
#include "source.h"

/* What stood on the command line behind the command's name. */
struct options {
    const char *path[3];
    int paths;
    const char *output;        /* "-" where none was given */
    const char *second_output; /* of a command that has two, else null */
    const char *job, *plan;    /* beside a text; null where none was given */
    const char *times, *log;   /* a list of times, a log, or null */
    const char *new_job;       /* to compare with, or null */
    bool lose;
    uint32_t group, tick; /* of the loss */
};

int run_plan(const struct options *o);
int run_judge(const struct options *o);
int run_trial(const struct options *o);
int run_replay(const struct options *o);
int run_list(const struct options *o);
int run_show(const struct options *o);
int run_trace(const struct options *o);
int run_pack(const struct options *o);
int run_unpack(const struct options *o);
int run_chart(const struct options *o);
int run_ask(const struct options *o);
int run_commit(const struct options *o);
int run_times(const struct options *o);
int run_explain(const struct options *o);

/* A job, and a plan and a list of times where there are, as they stand in the files. */
struct input {
    struct file job, plan;
    struct source times;
    bool planned, timed; /* whether a plan was given, and a list */
};

/* Reads the files named on the command line: 0, or 2 after a message. */
int read_input(struct input *in, const struct options *o);
/* The same, then asks the library whether job and plan read well: 1 after a refusal. */
int read_readable(struct input *in, const struct options *o);
void free_input(struct input *in);

/* A passed plan with its job, and one more task. */
struct request {
    struct input in;
    struct source task;
};

/* Reads the three files, has the plan judged and packs a text: 0, 1 after a refusal,
 * or 2 after a message. */
int read_request(struct request *r, const struct options *o);
void free_request(struct request *r);

/* The run of a plan, from replay: three numbers for each task. 0, or 1 after a
 * refusal. */
int replayed(struct file *run, const struct input *in, const struct options *o);
const char *outcome_word(uint32_t outcome);
uint32_t copy_outcome(const struct file *run, const struct copy *copy);
bool is_started(const struct file *run, const struct copy *copy);
uint32_t task_finish(const struct file *run, uint32_t task); /* 0 if it is not done */

/* The line that says which run it is: the loss, with the nodes that it takes where
 * groups are said, and whether the copies took their own times. */
void add_cause(struct buffer *b, const struct input *in, const struct options *o);

/* The line that tells the judge's answer to a readable plan. */
void add_verdict(struct buffer *b, const struct input *in);

/* Writes the text, frees it, and gives the exit status. */
int finish_output(const struct options *o, struct buffer *text);

#endif
