/* The library's answers, and a refusal as a sentence. */
#ifndef TOOL_REFUSAL_H
#define TOOL_REFUSAL_H

#include "files.h"
#include "seqopchi.h"

/* Whether a job reads well, and whether job and plan do: 0 or the refusal. */
uint64_t ask_job(const struct file *job);
uint64_t ask_files(const struct file *job, const struct file *plan);

/* Whether a description or booking does beside a passed plan. */
uint64_t ask_new_task(const struct file *job, const struct file *plan,
                      const struct file *task);

/* Whether job, plan and a list of times do. */
uint64_t ask_times(const struct file *job, const struct file *plan,
                   const struct file *times);

/* Whether job and log do. */
uint64_t ask_log(const struct file *job, const struct file *log);

/* The judge's answer to a plan, "passed" or "refused 4 (value): byte 12 of ..", without
 * a line end. */
void verdict_text(struct buffer *b, const struct file *job, const struct file *plan);

/* A refusal on standard error; gives the exit status 1. plan is null where only a job
 * was given. */
int refused(uint64_t result, const struct file *job, const struct file *plan);

/* The same where one more task was given too. */
int refused_task(uint64_t result, const struct file *job, const struct file *plan,
                 const struct file *task);

/* The same where a list of times was given too, or null. */
int refused_times(uint64_t result, const struct file *job, const struct file *plan,
                  const struct file *times);

/* The same where a job and a log were given. */
int refused_log(uint64_t result, const struct file *job, const struct file *log);

#endif
