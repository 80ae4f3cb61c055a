/* seqopchi.h: judge, trial, planner and replay of rack plans, the fault sets of their
 * tasks, the booking of one more task, run times from the last runs, and refusals as
 * sentences, on byte buffers.
 *
 * A job file lists nodes, tasks and links. A plan file gives each task a
 * primary and a backup copy. Each number in a file is 4 bytes, unsigned, low
 * byte first; N is the job's task count and P its node count. From version 2 on each
 * task of a job has a ready time, before its deadline in the file, and from version 3
 * on each node has a send time, behind its detect time; in older versions these count
 * as 0. From version 4 on each node has a supply group, behind its send time: the nodes
 * of one group are lost together. In older versions each node is a group by itself,
 * whose number is the node's. A plan has version 1 for each job.
 * The description of one more task is its entry as the job's version has it, a link
 * count, and from and delay of each link to it, rising strictly by from. A booking is
 * a description with four numbers behind it: primary node, primary start, backup
 * node, backup start. A list of times says how many ticks each copy of a plan took:
 * for each task in turn its primary's, then its backup's, 8 N bytes. A log has a record
 * for each copy that ran to its end, the newest last: task, node, and how many ticks it
 * took. It has no count and may be of any length, also empty. None of these four has a
 * version of its own.
 *
 * POINTERS. These are the only conditions that a caller has to keep:
 * - A pointer is valid for reading (job, plan, task, booking, times, log, text) or for
 *   reading and writing (out, out_job, out_plan) of as many bytes as the length behind it
 *   says. The length of one buffer is at most PTRDIFF_MAX, as for any object in C.
 * - places is valid for reading and writing of four numbers and aligned as a
 *   uint32_t is; parts of three numbers, and aligned as a uint64_t is.
 * - No pointer is null. With length 0 it may be any pointer that is not null;
 *   nothing is read or written through it.
 * - What is written (out, places, parts, out_job, out_plan) overlaps no buffer that is
 *   read, and out_job and out_plan do not overlap each other. Buffers that are only
 *   read may overlap.
 * - No other thread writes to a buffer during the call.
 * No pointer but places and parts needs an alignment, and none is kept after the call. The
 * functions keep no state, so calls from several threads need no lock.
 *
 * RESULTS. Every function returns one 8-byte number for every content of its
 * buffers: 0 for success, otherwise a refusal with its number in the lowest 8
 * bits, its first place in the next 32 and its second place in the top 24. One result
 * is neither: the no of seqopchi_trial, which has number 0 and first place 1. The
 * first fault in the order given at each function is the one returned. What is
 * read is never written. On a refusal every byte of each output keeps its value;
 * on success every byte behind what is written there keeps its value.
 *
 * READING. "The faults of the job", "of the plan", "of the description", "of the
 * booking", "of the list" and "of the log" below are these, in file order, each with its
 * byte offset from the start of that buffer as the first place and 0 as the second. The
 * result does not say which buffer is meant. An offset in a log from 4 GiB on is given
 * modulo 2 to the power 32. seqopchi_plan with out_len 0 tells whether a job reads
 * well; where seqopchi_judge gives 0, job and plan have no fault.
 *   1 short       fewer than 4 bytes are left for a number
 *   2 version     a job's version is none of 1 to 4, or a plan's is not 1
 *   3 count       a count is outside its limits, or the plan's count is not N
 *   4 value       any other number is outside its limits; also a link's to
 *                 that is not above its from. A from in a description is below N.
 *                 A time in a list is from 1 to the listed run time of that copy's
 *                 task on the node where the plan has that copy. In a log a task is
 *                 below N, a node below P, and the ticks are from 1 to 1,000,000
 *   5 link order  a link is not above the one before (offset of its from), by from
 *                 and to in a job, by from in a description or booking; found
 *                 after the link's delay
 *   6 tail        bytes follow the last number (offset of the first)
 *   7 unable      a copy is placed on a node where its task has run time 0, or ran
 *                 there by a log (offset of that node); only in a plan, booking or log
 * 2 arises in neither description nor booking. More links than tasks are no count
 * fault there: up to 512 may be said, and the links then end in 1, 4 or 5. A list has
 * no other faults than 1, 4 and 6, and a log none but 1, 4 and 7: where bytes are left
 * behind a record, another is due.
 *
 * SENTENCES. The sentence of number N with first place A and second place B is
 * "Refused N, ", the word of N, ": ", what stands here behind the word, and a full stop,
 * as in "Refused 13, common loss: one loss can stop both copies of task 10."
 *    1 short           the file ends before the number at byte A is whole
 *    2 version         the version at byte A is not known here
 *    3 count           the count at byte A is outside its limits
 *    4 value           the number at byte A is outside its limits
 *    5 link order      the link at byte A is not above the one before
 *    6 tail            the file goes on at byte A, where it should end
 *    7 unable          the node at byte A cannot run its task
 *    8 same node       both copies of task A are on one node or supply
 *    9 early           the backup of task A starts before a loss is noticed
 *   10 late            the backup of task A ends after the deadline
 *   11 primary unfed   the result of task A is late for the primary of task B
 *   12 backup unfed    a result of task A is late for the backup of task B
 *   13 common loss     one loss can stop both copies of task A
 *   14 overlap         one node is held at the same time by copies of tasks A and B
 *   15 no primary      no node has a place for the primary of task A
 *   16 no backup       no node has a place for the backup of task A
 *   17 short buffer    the output needs room for A bytes
 *   18 no such node    the loss of A takes no node of the job
 *   19 too soon        the primary of task A starts before it is ready
 *   20 full            the job has no room for task A or its links
 *   21 stale           the place for task A now breaks a rule; ask again
 *   22 not a sentence  no refusal has it; its length or number: A
 * Where no B stands, it goes without saying: it is A in 8 to 10, 13, 15, 16, 19 and 21,
 * else 0. If it is another, ", second B" stands before the full stop; no call refuses so.
 * N, A and B are in base ten, with no zeros in front. There is no other full stop, and no
 * byte but these: no line end. No two refusals, number and both places, share a sentence.
 */
#ifndef SEQOPCHI_H
#define SEQOPCHI_H

#include <stddef.h>
#include <stdint.h>

#ifdef __cplusplus
extern "C" {
#endif

/* Versions and limits of both files. Job versions count from 1. */
#define SEQOPCHI_NEWEST_JOB_VERSION 4
#define SEQOPCHI_PLAN_VERSION 1
#define SEQOPCHI_MIN_NODES 2
#define SEQOPCHI_MAX_NODES 16
#define SEQOPCHI_MIN_TASKS 1
#define SEQOPCHI_MAX_TASKS 64
#define SEQOPCHI_MAX_LINKS 512
#define SEQOPCHI_MAX_DETECT 1000
#define SEQOPCHI_MAX_SEND 1000
#define SEQOPCHI_MAX_GROUP 15
#define SEQOPCHI_MIN_DEADLINE 1
/* Ready times, deadlines, run times, delays and starts. */
#define SEQOPCHI_MAX_TIME 1000000
/* A copy's time in a list, which has its listed run time as the other limit, and in a
 * log, where that is SEQOPCHI_MAX_TIME. */
#define SEQOPCHI_MIN_ACTUAL_TIME 1
/* Of the records of a log so many of the newest count. */
#define SEQOPCHI_LOG_WINDOW 256

/* Lengths in bytes of what is read and written. Those of a job, a description and a
 * booking go by the job's version: the entry of a node (detect time; send time, from
 * version 3 on; group, from version 4 on) and of a task (ready time, from version 2 on;
 * deadline; run times), then all. */
#define SEQOPCHI_NODE_BYTES(version) \
    ((version) >= 4 ? 12 : (version) >= 3 ? 8 : 4)
#define SEQOPCHI_TASK_BYTES(version, nodes) \
    (((version) >= 2 ? 8 : 4) + 4 * (nodes))
#define SEQOPCHI_JOB_BYTES(version, nodes, tasks, links) \
    (16 + SEQOPCHI_NODE_BYTES(version) * (nodes) \
     + SEQOPCHI_TASK_BYTES(version, nodes) * (tasks) + 12 * (links))
#define SEQOPCHI_PLAN_BYTES(tasks) (8 + 16 * (tasks))
#define SEQOPCHI_TIMES_BYTES(tasks) (8 * (tasks))
#define SEQOPCHI_REPLAY_BYTES(tasks) (12 * (tasks))
#define SEQOPCHI_FAULT_SETS_BYTES(tasks) (4 * (tasks))
#define SEQOPCHI_LOG_RECORD_BYTES 12
#define SEQOPCHI_RUN_TIMES_BYTES(nodes, tasks) (4 * (nodes) * (tasks))
#define SEQOPCHI_DESCRIPTION_BYTES(version, nodes, links) \
    (SEQOPCHI_TASK_BYTES(version, nodes) + 4 + 8 * (links))
#define SEQOPCHI_BOOKING_BYTES(version, nodes, links) \
    (SEQOPCHI_DESCRIPTION_BYTES(version, nodes, links) + 16)
#define SEQOPCHI_MAX_JOB_BYTES 10960 /* of the newest version */
#define SEQOPCHI_MAX_PLAN_BYTES SEQOPCHI_PLAN_BYTES(SEQOPCHI_MAX_TASKS)
#define SEQOPCHI_MAX_TIMES_BYTES SEQOPCHI_TIMES_BYTES(SEQOPCHI_MAX_TASKS)
#define SEQOPCHI_MAX_REPLAY_BYTES SEQOPCHI_REPLAY_BYTES(SEQOPCHI_MAX_TASKS)
#define SEQOPCHI_MAX_FAULT_SETS_BYTES SEQOPCHI_FAULT_SETS_BYTES(SEQOPCHI_MAX_TASKS)
#define SEQOPCHI_MAX_RUN_TIMES_BYTES \
    SEQOPCHI_RUN_TIMES_BYTES(SEQOPCHI_MAX_NODES, SEQOPCHI_MAX_TASKS)
/* The longest that read well, of the newest version: with a link from each task. */
#define SEQOPCHI_MAX_DESCRIPTION_BYTES \
    SEQOPCHI_DESCRIPTION_BYTES(SEQOPCHI_NEWEST_JOB_VERSION, SEQOPCHI_MAX_NODES, \
                               SEQOPCHI_MAX_TASKS)
#define SEQOPCHI_MAX_BOOKING_BYTES \
    SEQOPCHI_BOOKING_BYTES(SEQOPCHI_NEWEST_JOB_VERSION, SEQOPCHI_MAX_NODES, \
                           SEQOPCHI_MAX_TASKS)
/* The longest sentence, with two places of twenty digits. */
#define SEQOPCHI_MAX_SENTENCE_BYTES 120

/* The number of a refusal, with its word and its places (first / second). */
enum seqopchi_refusal {
    SEQOPCHI_DONE = 0,                    /* success; 0 / 0. A trial's no; 1 / 0 */
    SEQOPCHI_REFUSED_SHORT = 1,           /* short; offset / 0 */
    SEQOPCHI_REFUSED_VERSION = 2,         /* version; offset / 0 */
    SEQOPCHI_REFUSED_COUNT = 3,           /* count; offset / 0 */
    SEQOPCHI_REFUSED_VALUE = 4,           /* value; offset / 0 */
    SEQOPCHI_REFUSED_LINK_ORDER = 5,      /* link order; offset / 0 */
    SEQOPCHI_REFUSED_TAIL = 6,            /* tail; offset / 0 */
    SEQOPCHI_REFUSED_UNABLE = 7,          /* unable; offset / 0 */
    SEQOPCHI_REFUSED_SAME_NODE = 8,       /* same node; task / task */
    SEQOPCHI_REFUSED_EARLY = 9,           /* early; task / task */
    SEQOPCHI_REFUSED_LATE = 10,           /* late; task / task */
    SEQOPCHI_REFUSED_PRIMARY_UNFED = 11,  /* primary unfed; from / to */
    SEQOPCHI_REFUSED_BACKUP_UNFED = 12,   /* backup unfed; from / to */
    SEQOPCHI_REFUSED_COMMON_LOSS = 13,    /* common loss; task / task */
    SEQOPCHI_REFUSED_OVERLAP = 14,        /* overlap; lower task / higher task */
    SEQOPCHI_REFUSED_NO_PRIMARY = 15,     /* no primary; task / task */
    SEQOPCHI_REFUSED_NO_BACKUP = 16,      /* no backup; task / task */
    SEQOPCHI_REFUSED_SHORT_BUFFER = 17,   /* short buffer; bytes needed / 0 */
    SEQOPCHI_REFUSED_NO_SUCH_NODE = 18,   /* no such node; that group / 0 */
    SEQOPCHI_REFUSED_TOO_SOON = 19,       /* too soon; task / task */
    SEQOPCHI_REFUSED_FULL = 20,           /* full; new task number / 0 */
    SEQOPCHI_REFUSED_STALE = 21,          /* stale; task / task */
    SEQOPCHI_REFUSED_NOT_A_SENTENCE = 22  /* not a sentence; length or number / 0 */
};

/* The result of a trial that says no: 256. */
#define SEQOPCHI_TRIAL_NO ((uint64_t)1 << 8)

/* What became of a copy, as replay writes it. */
enum seqopchi_outcome {
    SEQOPCHI_NOT_STARTED = 0,
    SEQOPCHI_CUT = 1,
    SEQOPCHI_FINISHED = 2
};

/* Whether plan keeps rules A to G and the ready times of job. The delay from a copy
 * of i to a copy of j, for planner and replay too, is 0 on one node, else the link's
 * plus the send time of the node that the copy of i is on. A link i to j is strong if
 * backup i's finish plus delay is at most primary j's start, else weak. The fault
 * set of a task, which document 01 calls its peril, is the groups of the nodes that
 * hold its primary or the primary of a task from which a path of weak links leads to
 * it. In this order:
 *   1 to 6          the faults of the job
 *   1 to 4, 6, 7    the faults of the plan
 *   8, 19, 9 to 14  the first broken rule: A, the ready times, B to G in turn,
 *                   each over all tasks (links, pairs) in rising order
 *   0               the plan is passed
 *  8 same node      A: primary and backup in different groups, so on different nodes;
 *                   task / task
 * 19 too soon       a primary starts no sooner than its task's ready time, which
 *                   is 0 in a job of version 1; no backup is held to it; task / task
 *  9 early          B: a backup starts no sooner than its primary's finish plus
 *                   the detect time of the primary's node; task / task
 * 10 late           C: the backup finishes by the deadline; task / task
 * 11 primary unfed  D: primary i's finish plus delay is at most primary j's
 *                   start; link i / j
 * 12 backup unfed   E: primary i's finish plus delay is at most backup j's start,
 *                   and so is backup i's where the fault sets of i and j have
 *                   a common group; link i / j
 * 13 common loss    F: the backup's group is not in the task's fault set; task / task
 * 14 overlap        G: copies on one node do not overlap, except two backups
 *                   whose fault sets have no common group; lower / higher task
 */
uint64_t seqopchi_judge(const uint8_t *job, size_t job_len,
                        const uint8_t *plan, size_t plan_len);

/* Whether plan outlives each loss in the runs of seqopchi_replay and
 * seqopchi_replay_loss, so by the listed run times: a yes is no promise for copies that
 * end sooner. A primary and a backup may share time where no run has both started.
 * Nothing is written. In this order:
 *   1 to 6        the faults of the job
 *   1 to 4, 6, 7  the faults of the plan
 *   0             yes: without loss every primary finishes; and with no loss, and with
 *                 each group that some node of the job has lost at any moment, each
 *                 task has a copy that is finished at or before its deadline, and no
 *                 two copies that started, a task's own two included, overlap on one
 *                 node
 *   256           no (SEQOPCHI_TRIAL_NO): number 0, first place 1, second place 0
 * Each refusal is the one that seqopchi_judge gives. Where that passes the plan this
 * says yes; where this says yes, that passes the plan or refuses it with 14. If no
 * primary overlaps a backup on the same node, a task's own two included, it says yes
 * exactly if seqopchi_judge passes the plan. A no is shown by the run without loss, or
 * by the loss of the group of some primary's node at the tick before that primary's
 * finish.
 */
uint64_t seqopchi_trial(const uint8_t *job, size_t job_len,
                        const uint8_t *plan, size_t plan_len);

/* Plans job, task by task: each copy where it finishes earliest under the
 * rules, then on the lowest node. A primary starts no sooner than its task's ready
 * time (0 in a job of version 1). In this order:
 *   1 to 6  the faults of the job
 *   17      out_len is below 8 + 16 N; 8 + 16 N / 0
 *   15      no place for the primary of the first task that has none; task / task
 *   16      no place for the backup of the first task that has none; task / task
 *   0       the first 8 + 16 N bytes of out are a plan file, which
 *           seqopchi_judge passes for this job
 * With out_len 0 the result is thus 17 for each job that reads well, and the
 * job's first fault for any other.
 */
uint64_t seqopchi_plan(const uint8_t *job, size_t job_len,
                       uint8_t *out, size_t out_len);

/* The run of plan with no loss, also where the judge would refuse the plan. A
 * primary whose start is before its task's ready time (0 in a job of version 1)
 * does not start. In this order:
 *   1 to 6        the faults of the job
 *   1 to 4, 6, 7  the faults of the plan
 *   17            out_len is below 12 N; 12 N / 0
 *   0             the first 12 N bytes of out are three numbers for each task:
 *                 the outcome of its primary, the outcome of its backup (enum
 *                 seqopchi_outcome), and the finish of the finished copy (0
 *                 if there is none)
 */
uint64_t seqopchi_replay(const uint8_t *job, size_t job_len,
                         const uint8_t *plan, size_t plan_len,
                         uint8_t *out, size_t out_len);

/* The run of plan with every node of group lost at moment; group and moment are any
 * numbers. In a job of versions 1 to 3 group is the number of a node.
 * As seqopchi_replay, and between the faults of the plan and 17:
 *   18  no node of the job is in group; group / 0
 * For a passed plan and a result of 0 each task has exactly one finished copy,
 * with a finish from 1 to its deadline.
 */
uint64_t seqopchi_replay_loss(const uint8_t *job, size_t job_len,
                              const uint8_t *plan, size_t plan_len,
                              uint32_t group, uint32_t moment,
                              uint8_t *out, size_t out_len);

/* The run of plan with no loss, as seqopchi_replay has it, but each copy takes the time
 * that the list has for it. It starts when plan says, its result leaves when it ends,
 * and a backup is still held to its primary's listed finish (rule B). A copy that does
 * not run has a time in the list too: any within its limits will do. In this order:
 *   1 to 6        the faults of the job
 *   1 to 4, 6, 7  the faults of the plan
 *   1, 4, 6       the faults of the list
 *   17            out_len is below 12 N; 12 N / 0
 *   0             the first 12 N bytes of out are three numbers for each task, as
 *                 seqopchi_replay writes them; a finish is start plus time
 * With the listed run times as the list it gives what seqopchi_replay gives.
 */
uint64_t seqopchi_replay_times(const uint8_t *job, size_t job_len,
                               const uint8_t *plan, size_t plan_len,
                               const uint8_t *times, size_t times_len,
                               uint8_t *out, size_t out_len);

/* The same with every node of group lost at moment, as seqopchi_replay_loss has it: a
 * copy that started there before moment is cut if its time ends after moment.
 * As seqopchi_replay_times, and between the faults of the plan and those of the list:
 *   18  no node of the job is in group; group / 0
 * For a passed plan and a result of 0 each task has exactly one finished copy,
 * with a finish from 1 to its deadline, whatever the list.
 */
uint64_t seqopchi_replay_times_loss(const uint8_t *job, size_t job_len,
                                    const uint8_t *plan, size_t plan_len,
                                    uint32_t group, uint32_t moment,
                                    const uint8_t *times, size_t times_len,
                                    uint8_t *out, size_t out_len);

/* The fault sets of the tasks of plan, as seqopchi_judge has them, also where it would
 * refuse the plan. They are worked out task by task, all links that arrive at one task
 * before the next. In this order:
 *   1 to 6        the faults of the job
 *   1 to 4, 6, 7  the faults of the plan
 *   17            out_len is below 4 N; 4 N / 0
 *   0             the first 4 N bytes of out are a number for each task, its fault
 *                 set: bit q (worth 2 to the power q) is 1 if group q is in it, else
 *                 0. In a job of versions 1 to 3 that is node q
 */
uint64_t seqopchi_fault_sets(const uint8_t *job, size_t job_len,
                             const uint8_t *plan, size_t plan_len,
                             uint8_t *out, size_t out_len);

/* Where one more task would go, as task N beside the copies of plan: the places that
 * the planner would give it. Nothing is booked. In this order:
 *   1 to 6          the faults of the job
 *   1 to 4, 6, 7    the faults of the plan
 *   8, 19, 9 to 14  the first broken rule, as seqopchi_judge gives it
 *   1, 3 to 6       the faults of the description
 *   20              full: N is 64, or the job's links and the new ones are more
 *                   than 512; N / 0
 *   15              no place for its primary; N / N
 *   16              no place for its backup; N / N
 *   0               places is primary node, primary start, backup node, backup start
 * A booking of these places is then taken by seqopchi_commit with the same job and
 * plan.
 */
uint64_t seqopchi_ask(const uint8_t *job, size_t job_len,
                      const uint8_t *plan, size_t plan_len,
                      const uint8_t *task, size_t task_len,
                      uint32_t places[4]);

/* Books one more task as task N, at the places of booking. In this order:
 *   1 to 6          the faults of the job
 *   1 to 4, 6, 7    the faults of the plan
 *   8, 19, 9 to 14  the first broken rule, as seqopchi_judge gives it
 *   1, 3 to 7       the faults of the booking
 *   20              full: N is 64, or the job's links and the new ones are more
 *                   than 512; N / 0
 *   21              stale: a proposed copy breaks a rule beside the copies of plan;
 *                   N / N
 *   17              out_job_len is below the length of the longer job; that length / 0
 *   17              out_plan_len is below 8 + 16 (N + 1); 8 + 16 (N + 1) / 0
 *   0               out_job begins with the longer job, a file of the job's version
 *                   with the new task last and all links in order; out_plan begins with
 *                   the longer plan, 8 + 16 (N + 1) bytes, which seqopchi_judge
 *                   passes for the longer job
 * The longer job has SEQOPCHI_JOB_BYTES of the job's version and nodes, N + 1 tasks,
 * and the job's links with the new ones. If plan is what seqopchi_plan writes for job
 * and the places are those of seqopchi_ask, the longer plan is what it writes for the
 * longer job.
 */
uint64_t seqopchi_commit(const uint8_t *job, size_t job_len,
                         const uint8_t *plan, size_t plan_len,
                         const uint8_t *booking, size_t booking_len,
                         uint8_t *out_job, size_t out_job_len,
                         uint8_t *out_plan, size_t out_plan_len);

/* Run times from the last runs, as a table. Of the newest 256 records of the log, or all
 * if there are fewer, the time of a task on a node is the largest ticks of its records
 * on that node; where there is none it is the job's run time. The whole log is read, the
 * older records too, in one pass and in memory that does not grow with it. In this
 * order:
 *   1 to 6   the faults of the job
 *   17       out_len is below 4 N P; 4 N P / 0
 *   1, 4, 7  the faults of the log
 *   0        the first 4 N P bytes of out are a number for each task and node: task by
 *            task, in each by node
 */
uint64_t seqopchi_run_times(const uint8_t *job, size_t job_len,
                            const uint8_t *log, size_t log_len,
                            uint8_t *out, size_t out_len);

/* The job with these run times in place of its own: all else stays as it is, its version
 * and length too, and a node that cannot run a task cannot in the new job either. In
 * this order:
 *   1 to 6   the faults of the job
 *   17       out_len is below job_len; job_len / 0
 *   1, 4, 7  the faults of the log
 *   0        the first job_len bytes of out are a job that reads well
 */
uint64_t seqopchi_renew_job(const uint8_t *job, size_t job_len,
                            const uint8_t *log, size_t log_len,
                            uint8_t *out, size_t out_len);

/* The sentence of a refusal, for people; any two places may be told with any number of
 * the tables. In this order:
 *   22  number is none of 1 to 22; number / 0
 *   17  out_len is below the length of the sentence; that length / 0
 *   0   out begins with the sentence, at most 120 bytes, the last of which is its only
 *       full stop
 * Nothing is written behind it: in a buffer of 121 zeros, with 120 as out_len, it is a
 * string of C.
 */
uint64_t seqopchi_sentence(uint32_t number, uint64_t first, uint64_t second,
                           uint8_t *out, size_t out_len);

/* Reads a sentence back. In this order:
 *   22  text is no refusal's sentence; text_len / 0, from 4 GiB on modulo 2 to the
 *       power 32
 *   0   parts is the number of the refusal, its first place and its second place
 * The sentence of a refusal 22 is read as any other, with the result 0.
 */
uint64_t seqopchi_read_sentence(const uint8_t *text, size_t text_len,
                                uint64_t parts[3]);

/* The parts of a result. */
static inline unsigned seqopchi_number(uint64_t result)
{
    return (unsigned)(result & 0xff);
}

static inline uint32_t seqopchi_first(uint64_t result)
{
    return (uint32_t)(result >> 8 & 0xffffffff);
}

static inline uint32_t seqopchi_second(uint64_t result)
{
    return (uint32_t)(result >> 40);
}

/* The word of a refusal number, "done" for 0, "unknown" for any other number. */
static inline const char *seqopchi_word(unsigned number)
{
    static const char *const words[] = {
        "done", "short", "version", "count", "value", "link order", "tail",
        "unable", "same node", "early", "late", "primary unfed",
        "backup unfed", "common loss", "overlap", "no primary", "no backup",
        "short buffer", "no such node", "too soon", "full", "stale", "not a sentence"
    };
    return number < sizeof words / sizeof words[0] ? words[number] : "unknown";
}

#ifdef __cplusplus
}
#endif

#endif
