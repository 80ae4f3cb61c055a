//! Samples for request (vii): copies that a search in order of time may miss, name wrongly or lose;
//! and nodes that hold as many copies as can be.

use std::array::from_fn;

use crate::asked_samples::{third, Pair};
use crate::bookings::{write_booking, write_description, NewTask};
use crate::console::plan_bytes;
use crate::files::{write_job, write_plan, Job, Plan, Task};
use crate::refusal::{Refusal, FULL, OVERLAP, SAME_NODE, STALE};
use crate::replay::Loss;
use crate::samples::{
    bytes_of, job, nodes_of, plan_of, with_ready, without_link, Check, Listed, FILL, SAMPLE_1,
    SPARE,
};

pub fn run(check: &mut Check) {
    missed_by_neighbours(check);
    first_by_tasks(check);
    begun_at_once(check);
    planned_into_gaps(check);
    planned_beside_shared(check);
    full_node(check);
    full_nodes(check);
    asked(check);
    stale(check);
}

impl Check<'_> {
    fn plan_found<const N: usize>(&mut self, sample: &str, job: &Job, rows: [Listed; N]) {
        let mut out = vec![FILL; plan_bytes(N) + SPARE];
        let got = (self.console.plan)(&write_job(job), &mut out);
        self.expect(sample, got, Ok(()));
        self.expect_bytes(sample, &out, Some(bytes_of(rows)));
    }
}

/// Detect time 0, no links; the run times of each task.
fn job_of<const N: usize, const P: usize>(runs: [[u64; P]; N]) -> Job {
    let task = |run: [u64; P]| Task { ready: 0, deadline: 1000, run: run.to_vec() };
    Job { version: 1, nodes: nodes_of(0, [0; P]), tasks: runs.map(task).to_vec(), links: vec![] }
}

fn overlap(lower: usize, higher: usize) -> Result<(), Refusal> {
    Err(Refusal::of_tasks(OVERLAP, lower, higher))
}

/// The backup of task 0 is a long one on node 3, the others are short.
pub fn long_and_short() -> Job {
    job_of([[4, 4, 4, 10], [2; 4], [2; 4]])
}

/// On node 3 backup 0 holds 4 to 14 and backup 1, of a primary elsewhere, shares 5 to 7 of that.
/// The primary of task 2 is on a node of a choice, its backup on node 3 at 8, or another start.
pub fn nested(node: u64, start: u64) -> [Listed; 3] {
    [[0, 0, 3, 4], [1, 0, 3, 5], [node, 4, 3, start]]
}

fn missed_by_neighbours(check: &mut Check) {
    let job = long_and_short();
    let mut judge = |sample: &str, rows, expected| {
        check.judged(&format!("(vii), {sample}"), &job, rows, expected);
    };
    // Node 0 calls for backups 0 and 2. Between them stands backup 1, over at 7.
    judge("behind a short copy", nested(0, 8), overlap(0, 2));
    judge("behind one that it shares time with", nested(0, 6), overlap(0, 2));
    judge("behind the long copy", nested(0, 14), Ok(()));
    judge("one tick before its end", nested(0, 13), overlap(0, 2));
    judge("called for elsewhere", nested(2, 8), Ok(()));
    // Nodes 1 and 1 call for backups 1 and 2, which are neighbours.
    judge("neighbours", nested(1, 6), overlap(1, 2));
    judge("neighbours apart", nested(1, 7), Ok(()));
    // A primary shares no time.
    judge("a primary behind", [[0, 0, 3, 4], [1, 0, 3, 5], [3, 8, 2, 10]], overlap(0, 2));
    judge("a primary at the end", [[0, 0, 3, 4], [1, 0, 3, 5], [3, 14, 2, 16]], Ok(()));
}

/// Four tasks of 2 ticks. Tasks 1 and 2 overlap first, at 1; tasks 0 and 3 at 11.
fn first_by_tasks(check: &mut Check) {
    let job = job_of([[2; 3]; 4]);
    let rows = |node: u64, start: u64| {
        [[node, 10, 2, 20], [0, 0, 2, 22], [0, start, 2, 24], [node, 11, 2, 26]]
    };
    check.judged("(vii), two overlaps of a node", &job, rows(0, 1), overlap(0, 3));
    check.judged("(vii), on two nodes", &job, rows(1, 1), overlap(0, 3));
    let one = [[1, 9, 2, 20], [0, 0, 2, 22], [0, 1, 2, 24], [1, 11, 2, 26]];
    check.judged("(vii), one overlap", &job, one, overlap(1, 2));
    // In order of time task 0 meets task 3 first.
    let both = [[0, 4, 2, 20], [0, 5, 2, 22], [0, 5, 2, 24], [0, 3, 2, 26]];
    check.judged("(vii), one with three", &job, both, overlap(0, 1));
}

/// Three tasks of 2 ticks.
pub fn alike() -> Job {
    job_of([[2; 4]; 3])
}

/// Node 0 calls for backups 0 and 2, and node 1 for backup 1; all start at 4 on node 2.
pub const BEGUN_AT_ONCE: [Listed; 3] = [[0, 0, 2, 4], [1, 0, 2, 4], [0, 2, 2, 4]];

fn begun_at_once(check: &mut Check) {
    let job = alike();
    let mut judge = |sample: &str, rows, expected| {
        check.judged(&format!("(vii), at once, {sample}"), &job, rows, expected);
    };
    let [of_0, of_1, _] = BEGUN_AT_ONCE;
    judge("three called for apart", [of_0, of_1, [3, 2, 2, 4]], Ok(()));
    // Each shares time with the one between.
    judge("first and last", BEGUN_AT_ONCE, overlap(0, 2));
    judge("the last two", [of_0, of_1, [1, 2, 2, 4]], overlap(1, 2));
    let of_1 = [1, 0, 3, 4];
    judge("backup 0 and primary 2", [of_0, of_1, [2, 4, 0, 6]], overlap(0, 2));
    judge("primary 0 and backup 1", [[2, 4, 0, 6], [1, 0, 2, 4], [3, 0, 0, 8]], overlap(0, 1));
    judge("primaries", [of_0, [1, 6, 3, 8], [1, 6, 0, 8]], overlap(1, 2));
    // Both copies of a task: rule A comes first.
    let same = Err(Refusal::of_task(SAME_NODE, 1));
    judge("both of a task", [of_0, [3, 4, 3, 4], [1, 0, 0, 4]], same);
}

/// J without link: task 0 has to wait, and task 1 goes before it where it fits.
fn planned_into_gaps(check: &mut Check) {
    let mut plan = |ready: u64, rows| {
        let job = Job { links: vec![], ..with_ready(ready, 0) };
        check.plan_found(&format!("(vii), task 0 ready at {ready}"), &job, rows);
    };
    plan(5, [[0, 5, 1, 10], [0, 0, 1, 4]]);
    plan(3, [[0, 3, 1, 8], [0, 0, 1, 4]]);
    // From 0 to 3 would end behind the start of task 0; node 1 has room.
    plan(2, [[0, 2, 1, 7], [1, 0, 2, 4]]);
}

/// Tasks 0 and 1 have nodes of their own for their primaries; their backups start at 2 on node 2,
/// called for apart. Task 2 takes 10 on node 1, so that it rather waits for node 2.
pub fn beside_shared(first: u64, second: u64, third: u64) -> Job {
    job_of([[2, 0, first], [0, 2, second], [0, 10, third]])
}

/// Whichever of the backups is the longer one, it ends at 8.
pub const BESIDE_SHARED: [Listed; 3] = [[0, 0, 2, 2], [1, 0, 2, 2], [2, 8, 1, 11]];

fn planned_beside_shared(check: &mut Check) {
    check.plan_found("(vii), the first lasts", &beside_shared(6, 3, 3), BESIDE_SHARED);
    check.plan_found("(vii), the second lasts", &beside_shared(3, 6, 3), BESIDE_SHARED);
    // It takes 2 and fits before both.
    let before = [[0, 0, 2, 2], [1, 0, 2, 2], [2, 0, 1, 2]];
    check.plan_found("(vii), before both", &beside_shared(6, 3, 2), before);
}

/// 128 copies of one tick on node 0.
fn full_node(check: &mut Check) {
    let job = job_of([[1; 2]; 64]);
    let in_turn: [Listed; 64] = from_fn(|task| [0, 2 * task as u64, 0, 2 * task as u64 + 1]);
    let at_once = [[0; 4]; 64];
    let same = || Err(Refusal::of_task(SAME_NODE, 0));
    let lost = |group: u32| Some(Loss { group, moment: 64 });
    let pair = |rows| -> Pair { (write_job(&job), bytes_of(rows)) };
    let task = write_description(1, &one_tick());
    for (rows, sample) in [(in_turn, "in turn"), (at_once, "at once")] {
        let sample = format!("(vii), 128 copies {sample}");
        check.judged(&sample, &job, rows, same());
        check.sets_of(&sample, &job, rows, [1; 64]);
        check.asked(&sample, &pair(rows), &task, Err(Refusal::of_task(SAME_NODE, 0)));
        let done = from_fn(|task| [2, 0, rows[task][1] as u32 + 1]);
        check.plan_replayed(&sample, &job, rows, None, done);
        check.plan_replayed(&sample, &job, rows, lost(1), done);
    }
    // From 64 on the node is gone: of 64 copies 32 are primaries.
    let half = from_fn(|task| if task < 32 { [2, 0, 2 * task as u32 + 1] } else { [0; 3] });
    check.plan_replayed("(vii), 128 copies, 0 lost", &job, in_turn, lost(0), half);
}

/// A new task of one tick on each of two nodes, without links.
fn one_tick() -> NewTask {
    NewTask { task: Task { ready: 0, deadline: 1000, run: vec![1; 2] }, inputs: vec![] }
}

/// 64 primaries on node 0, from 0 on, and 64 backups on node 1, from 64 on.
fn full_nodes(check: &mut Check) {
    let job = job_of([[1; 2]; 64]);
    let rows: [Listed; 64] = from_fn(|task| [0, task as u64, 1, 64 + task as u64]);
    check.judged("(vii), 64 and 64 copies", &job, rows, Ok(()));
    let full = Err(Refusal::at(FULL, 64));
    let pair = (write_job(&job), bytes_of(rows));
    check.asked("(vii), 64 and 64 copies", &pair, &write_description(1, &one_tick()), full);
    let mut met = rows;
    met[1][3] = 69;
    check.judged("(vii), backups 1 and 5 meet", &job, met, overlap(1, 5));
    met[0][3] = 127;
    check.judged("(vii), and 0 and 63", &job, met, overlap(0, 63));
    // With 63 tasks and a tick left out: the primary goes before the backups of node 1, and the
    // backup to node 0 into that tick.
    let later = |task: usize| (task + usize::from(task >= 30)) as u64;
    let rows: [Listed; 63] = from_fn(|task| [0, later(task), 1, 64 + later(task)]);
    let pair = (write_job(&job_of([[1; 2]; 63])), bytes_of(rows));
    let task = write_description(1, &one_tick());
    check.asked("(vii), the 64th task", &pair, &task, Ok([1, 0, 0, 30]));
}

/// J and sample 1, with so many tasks more of run time 2, without links.
fn longer(tasks: usize, rows: &[Listed]) -> Pair {
    let mut longer = job();
    longer.tasks.extend(vec![third(30).task; tasks]);
    let rows = rows.iter().map(|&row| plan_of([row]).rows[0]).collect();
    (write_job(&longer), write_plan(&Plan { rows }))
}

/// After a commit far behind, two more tasks go before what it booked.
fn asked(check: &mut Check) {
    let new = NewTask { inputs: vec![], ..third(30) };
    let task = write_description(1, &new);
    let booking = |row: Listed| write_booking(1, &new, &plan_of([row]).rows[0]);
    let mut rows = SAMPLE_1.to_vec();
    for (tasks, row) in [[2, 20, 1, 25], [1, 0, 2, 3], [2, 0, 1, 3]].into_iter().enumerate() {
        let pair = longer(tasks, &rows);
        let sample = format!("(vii), {tasks} booked");
        if tasks > 0 {
            check.asked(&sample, &pair, &task, Ok(row));
        }
        rows.push(row);
        let booked = longer(tasks + 1, &rows);
        let rooms = (booked.0.len(), booked.1.len());
        check.committed(&sample, &pair, &booking(row), rooms, Ok(booked));
    }
    let planned = (write_job(&without_link()), bytes_of([[0, 0, 1, 5], [1, 0, 0, 4]]));
    // On node 1 there is just room between the primary, up to 3, and the backup from 5 on.
    check.asked("(vii), beside sample 10", &planned, &task, Ok([2, 0, 1, 3]));
}

/// Beside the long backup and the short one a third is booked where no other calls for it.
fn stale(check: &mut Check) {
    let mut held = long_and_short();
    let new = NewTask { task: held.tasks.pop().expect("the third"), inputs: vec![] };
    let longer = long_and_short();
    let mut book = |sample: &str, rows: [Listed; 3], is_stale: bool| {
        let pair = (write_job(&held), bytes_of([rows[0], rows[1]]));
        let booked = (write_job(&longer), bytes_of(rows));
        let rooms = (booked.0.len(), booked.1.len());
        let booking = write_booking(1, &new, &plan_of(rows).rows[2]);
        let expected = if is_stale { Err(Refusal::of_task(STALE, 2)) } else { Ok(booked) };
        check.committed(&format!("(vii), {sample}"), &pair, &booking, rooms, expected);
    };
    book("stale behind a short copy", nested(0, 8), true);
    book("booked behind the long one", nested(0, 14), false);
    book("booked among both", nested(2, 6), false);
}
