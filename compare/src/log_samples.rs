//! Samples for request (x): run times of job J and others from logs, jobs renewed by them, and logs
//! with their faults.

use crate::console::table_bytes;
use crate::files::{bytes_of as numbers, write_job, Job, Task, MAX_TIME};
use crate::logs::{renewed, write_log, Record, Table, RECORD, WINDOW};
use crate::refusal::{
    Refusal, COUNT, NO_BACKUP, SHORT, SHORT_BUFFER, TAIL, UNABLE, VALUE, VERSION,
};
use crate::samples::{
    job, nodes_of, with_deadline, with_groups, with_ready, with_send, Check, FILL, SPARE,
};

/// J's table where the log says nothing.
const AS_LISTED: [[u64; 3]; 2] = [[4; 3], [3; 3]];

fn record(task: usize, node: usize, ticks: u64) -> Record {
    Record { task, node, ticks }
}

/// So many records of task 0 on node 0.
fn many(ticks: u64, records: usize) -> Vec<Record> {
    vec![record(0, 0, ticks); records]
}

impl Check<'_> {
    /// With room for more than the table, and than the job with that table.
    fn logged<const P: usize>(
        &mut self,
        sample: &str,
        job: &Job,
        log: &[Record],
        expected: &[[u64; P]],
    ) {
        let sample = format!("(x), {sample}");
        let (bytes, log) = (write_job(job), write_log(log));
        let mut out = vec![FILL; 4 * expected.as_flattened().len() + SPARE];
        let got = (self.console.run_times)(&bytes, &log, &mut out);
        self.expect(&sample, got, Ok(()));
        self.expect_bytes(&sample, &out, Some(numbers(expected.as_flattened())));
        let table: Table = expected.iter().map(|times| times.to_vec()).collect();
        let mut out = vec![FILL; bytes.len() + SPARE];
        let got = (self.console.renew_job)(&bytes, &log, &mut out);
        self.expect(&format!("{sample}, renewed"), got, Ok(()));
        self.expect_bytes(&sample, &out, Some(write_job(&renewed(job, &table))));
    }

    /// Both calls, into buffers with just the room that they need.
    fn log_refused(&mut self, sample: &str, job: &Job, log: &[u8], refusal: Refusal) {
        let rooms = (table_bytes(job.nodes.len(), job.tasks.len()), write_job(job).len());
        self.file_refused(sample, &write_job(job), log, rooms, [refusal; 2]);
    }

    fn file_refused(
        &mut self,
        sample: &str,
        job: &[u8],
        log: &[u8],
        rooms: (usize, usize),
        refusals: [Refusal; 2],
    ) {
        let sample = format!("(x), {sample}");
        let calls = [(self.console.run_times, rooms.0), (self.console.renew_job, rooms.1)];
        for ((call, room), refusal) in calls.into_iter().zip(refusals) {
            let mut out = vec![FILL; room];
            let got = call(job, log, &mut out);
            self.expect(&sample, got, Err(refusal));
            self.expect_bytes(&sample, &out, None);
        }
    }
}

pub fn run(check: &mut Check) {
    few_records(check);
    moved_window(check);
    moved_on(check);
    of_each_version(check);
    planned(check);
    at_limits(check);
    greatest(check);
    short_logs(check);
    wrong_numbers(check);
    first_faults(check);
    older_faults(check);
    ordered(check);
}

fn few_records(check: &mut Check) {
    let mut log = |sample: &str, log: &[Record], expected: [[u64; 3]; 2]| {
        check.logged(sample, &job(), log, &expected);
    };
    log("no record", &[], AS_LISTED);
    log("one record", &[record(0, 1, 9)], [[4, 9, 4], [3; 3]]);
    log("below the job's time", &[record(1, 2, 1)], [[4; 3], [3, 3, 1]]);
    let two = [record(0, 1, 9), record(0, 1, 6)];
    log("the largest first", &two, [[4, 9, 4], [3; 3]]);
    log("the largest last", &[two[1], two[0]], [[4, 9, 4], [3; 3]]);
    let apart = [record(0, 2, 7), record(1, 0, 5), record(0, 0, 2), record(1, 0, 4)];
    log("each its own", &apart, [[2, 4, 7], [5, 3, 3]]);
    // A node that cannot run a task cannot in the new job either.
    let mut lame = job();
    lame.tasks[0].run[1] = 0;
    check.logged("a lame node", &lame, &[record(1, 1, 8)], &[[4, 0, 4], [3, 8, 3]]);
}

/// The oldest record is the largest. With 257 it counts no more.
fn moved_window(check: &mut Check) {
    for (rest, listed) in [(5, "above"), (4, "at"), (2, "below")] {
        let log = [many(9, 1), many(rest, WINDOW)].concat();
        let expected = |time: u64| [[time, 4, 4], [3; 3]];
        for (records, time) in [(255, 9), (256, 9), (257, rest)] {
            let sample = format!("{records} records, {listed} the job's time");
            check.logged(&sample, &job(), &log[..records], &expected(time));
        }
    }
    // The only one of its task on that node: the job's time is back.
    let log = [vec![record(1, 1, 9)], many(5, WINDOW)].concat();
    check.logged("256, one of its own", &job(), &log[..WINDOW], &[[5, 4, 4], [3, 9, 3]]);
    check.logged("257, one of its own", &job(), &log, &[[5, 4, 4], [3; 3]]);
}

/// Through more than two windows: 9 once, 7 a hundred records later, then fives.
fn moved_on(check: &mut Check) {
    let fives = |records: usize| many(5, records);
    let log = [many(9, 1), fives(99), many(7, 1), fives(600), many(6, 1)].concat();
    let mut expect = |records: usize, time: u64| {
        let sample = format!("the first {records}");
        check.logged(&sample, &job(), &log[..records], &[[time, 4, 4], [3; 3]]);
    };
    for (records, time) in [(100, 9), (101, 9), (256, 9), (257, 7), (356, 7), (357, 5)] {
        expect(records, time);
    }
    for (records, time) in [(512, 5), (513, 5), (612, 5), (701, 5), (702, 6)] {
        expect(records, time);
    }
}

/// All but the run times stays, what only newer versions have too.
fn of_each_version(check: &mut Check) {
    let log = [record(0, 1, 9), record(1, 2, 1)];
    let mut newest = with_groups([5, 5, 9]);
    newest.tasks[0].ready = 7;
    newest.nodes[2].send = 1_000;
    let jobs = [job(), with_ready(7, 8), with_send([7, 8, 9]), newest];
    for job in jobs {
        let sample = format!("version {}", job.version);
        check.logged(&sample, &job, &log, &[[4, 9, 4], [3, 3, 1]]);
        check.logged(&format!("{sample}, no record"), &job, &[], &AS_LISTED);
    }
}

/// J renewed, and planned by its new times.
fn planned(check: &mut Check) {
    let renew = |job: &Job, log: [Record; 1]| {
        let mut job = job.clone();
        log.iter().for_each(|r| job.tasks[r.task].run[r.node] = r.ticks);
        (job, log)
    };
    let (slow, log) = renew(&job(), [record(0, 0, 9)]);
    check.logged("slow on node 0", &job(), &log, &[[9, 4, 4], [3; 3]]);
    check.planned("(x), slow on node 0", &slow, Ok([[1, 0, 2, 5], [1, 4, 2, 9]]));
    // Backup 1 ends at 13, if at all.
    let (late, log) = renew(&with_deadline(12), [record(1, 1, 4)]);
    check.logged("slow on node 1", &with_deadline(12), &log, &[[4; 3], [3, 4, 3]]);
    check.planned("(x), slow on node 1", &late, Err(Refusal::of_task(NO_BACKUP, 1)));
}

fn at_limits(check: &mut Check) {
    let mut job = job();
    job.tasks[0].run = vec![MAX_TIME, 1, MAX_TIME];
    let log = [record(0, 0, 1), record(0, 1, MAX_TIME), record(1, 2, MAX_TIME)];
    check.logged("1 and 1,000,000", &job, &log, &[[1, MAX_TIME, MAX_TIME], [3, 3, MAX_TIME]]);
}

/// 64 tasks on 16 nodes: a table of 4,096 bytes.
fn greatest(check: &mut Check) {
    let task = Task { ready: 0, deadline: 1000, run: vec![2; 16] };
    let job = Job { version: 1, nodes: nodes_of(0, [0; 16]), tasks: vec![task; 64], links: vec![] };
    let mut expected = [[2; 16]; 64];
    let corners = [(0, 0, 3), (0, 15, 4), (63, 0, 5), (63, 15, 6), (31, 7, 1)];
    let log = corners.map(|(task, node, ticks)| record(task, node, ticks));
    corners.iter().for_each(|&(task, node, ticks)| expected[task][node] = ticks);
    check.logged("64 tasks on 16 nodes", &job, &log, &expected);
    // Each of the 1,024 once: the last 256 are those of tasks 48 to 63.
    let cells = (0..64).flat_map(|task| (0..16).map(move |node| record(task, node, 9)));
    let mut expected = [[2; 16]; 64];
    expected[48..].iter_mut().for_each(|times| *times = [9; 16]);
    check.logged("1,024 records", &job, &cells.collect::<Vec<_>>(), &expected);
    check.log_refused("task 64", &job, &numbers(&[64, 0, 1]), Refusal::at(VALUE, 0));
    check.log_refused("node 16", &job, &numbers(&[63, 16, 1]), Refusal::at(VALUE, 4));
}

/// A number is due while bytes are left. There is no tail.
fn short_logs(check: &mut Check) {
    let log = write_log(&[record(0, 1, 9), record(1, 2, 1), record(0, 0, 5)]);
    for length in (0..log.len()).filter(|length| length % RECORD != 0) {
        let refusal = Refusal::at(SHORT, length as u64 / 4 * 4);
        check.log_refused(&format!("{length} bytes"), &job(), &log[..length], refusal);
    }
    let log = write_log(&[many(9, 1), many(5, WINDOW + 44)].concat());
    for (length, at) in [(3_071, 3_068), (3_073, 3_072), (3_076, 3_076), (3_611, 3_608)] {
        let refusal = Refusal::at(SHORT, at);
        check.log_refused(&format!("{length} bytes"), &job(), &log[..length], refusal);
    }
}

/// Each number within its limits, in the first record and in the second.
fn wrong_numbers(check: &mut Check) {
    let far = [256, 1 << 31, u64::from(u32::MAX)];
    let limits: [(usize, &[u64]); 3] = [(0, &[2, 3]), (1, &[3, 16]), (2, &[0, MAX_TIME + 1])];
    for (at, wrong) in limits {
        let far = far.into_iter().filter(|&far| at < 2 || far > MAX_TIME);
        for wrong in wrong.iter().copied().chain(far) {
            for first in [0, 3] {
                let mut log = [1; 6];
                log[first + at] = wrong;
                let refusal = Refusal::at(VALUE, 4 * (first + at) as u64);
                check.log_refused(&format!("{log:?}"), &job(), &numbers(&log), refusal);
            }
        }
    }
}

/// Number by number. Node 2 cannot run task 0; its ticks are not read.
fn first_faults(check: &mut Check) {
    let mut lame = job();
    lame.tasks[0].run[2] = 0;
    let mut refuse = |log: &[u64], cut: usize, refusal| {
        let (sample, log) = (format!("{log:?}, {cut} cut"), numbers(log));
        check.log_refused(&sample, &lame, &log[..log.len() - cut], refusal);
    };
    refuse(&[0, 2, 5], 0, Refusal::at(UNABLE, 4));
    refuse(&[0, 2, 0], 0, Refusal::at(UNABLE, 4));
    refuse(&[0, 2, MAX_TIME + 1], 0, Refusal::at(UNABLE, 4));
    refuse(&[0, 2, 1], 4, Refusal::at(UNABLE, 4));
    refuse(&[0, 2, 1], 5, Refusal::at(SHORT, 4));
    refuse(&[0, 3, 0], 0, Refusal::at(VALUE, 4));
    refuse(&[2, 2, 0], 0, Refusal::at(VALUE, 0));
    refuse(&[0, 1, 0, 2, 2, 0], 0, Refusal::at(VALUE, 8));
    refuse(&[0, 1, 1, 2, 2, 0], 0, Refusal::at(VALUE, 12));
    refuse(&[1, 2, 1, 0, 2, 0], 0, Refusal::at(UNABLE, 16));
    refuse(&[0, 1, 1, 2], 0, Refusal::at(VALUE, 12));
    refuse(&[0, 1, 1, 2], 1, Refusal::at(SHORT, 12));
}

/// Of 300 records the oldest count no more, but they are read.
fn older_faults(check: &mut Check) {
    let mut lame = job();
    lame.tasks[0].run[2] = 0;
    for at in [0, 43, 44, 299] {
        let mut refuse = |wrong: [u64; 3], number: usize, refusal: u8| {
            let mut log = numbers(&[0, 1, 5].repeat(300));
            log[RECORD * at..RECORD * (at + 1)].copy_from_slice(&numbers(&wrong));
            let refusal = Refusal::at(refusal, (RECORD * at + 4 * number) as u64);
            check.log_refused(&format!("record {at} of 300, {wrong:?}"), &lame, &log, refusal);
        };
        refuse([2, 1, 5], 0, VALUE);
        refuse([0, 3, 5], 1, VALUE);
        refuse([0, 2, 5], 1, UNABLE);
        refuse([0, 1, 0], 2, VALUE);
        refuse([0, 1, MAX_TIME + 1], 2, VALUE);
    }
}

/// The job's faults, 17, then the log's. J has 72 bytes, its table 24.
fn ordered(check: &mut Check) {
    let job = write_job(&job());
    let (good, bad) = (numbers(&[0, 1, 9]), numbers(&[0, 1, 0]));
    let newer = [&[5], &job[1..]].concat();
    let tail = [&job[..], &[0]].concat();
    let mut refuse = |sample: &str, job: &[u8], log: &[u8], rooms, refusals| {
        check.file_refused(sample, job, log, rooms, refusals);
    };
    refuse("version 5", &newer, &bad, (0, 0), [Refusal::at(VERSION, 0); 2]);
    refuse("a job cut", &job[..71], &bad, (0, 0), [Refusal::at(SHORT, 68); 2]);
    refuse("a job with a tail", &tail, &bad, (24, 73), [Refusal::at(TAIL, 72); 2]);
    refuse("no job", &[], &good, (24, 72), [Refusal::at(SHORT, 0); 2]);
    let one_node = write_job(&crate::samples::job_on(1));
    refuse("one node", &one_node, &bad, (0, 0), [Refusal::at(COUNT, 4); 2]);
    let short = [Refusal::at(SHORT_BUFFER, 24), Refusal::at(SHORT_BUFFER, 72)];
    for log in [&good[..], &bad, &[], &good[..5]] {
        for rooms in [(23, 71), (0, 0), (12, 24)] {
            refuse("short by one or more", &job, log, rooms, short);
        }
    }
    refuse("room enough", &job, &bad, (24, 72), [Refusal::at(VALUE, 8); 2]);
}
