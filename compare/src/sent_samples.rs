//! Samples for request (iv): job J in version 3, with send times, and two small jobs of their own.

use crate::asked_samples::{longer, third, Pair, ASKED};
use crate::bookings::{write_booking, write_description};
use crate::files::{bytes_of as numbers, write_job, Job, Link, Task, MAX_DETECT, MAX_SEND};
use crate::refusal::{
    Refusal, BACKUP_UNFED, COMMON_LOSS, COUNT, NO_BACKUP, PRIMARY_UNFED, SHORT, STALE, VALUE,
};
use crate::samples::{
    bytes_of, job, lost, nodes_of, plan_of, with_ready, with_send, Check, Listed, SAMPLE_1,
};

/// The primary of task 1 stands where the result of task 0 has to be sent to.
const APART: [Listed; 2] = [[0, 0, 1, 5], [2, 9, 1, 13]];

pub fn run(check: &mut Check) {
    planned(check);
    judged(check);
    weakened(check);
    replayed(check);
    asked(check);
    booked(check);
    by_shortcut(check);
    unread(check);
    misread(check);
    read_in_two_versions(check);
}

/// Task 0 finishes at 4 on node 0 and at 9 on node 1. The backup of task 1 is on node 1 too: it
/// waits for the primary's result alone.
fn planned(check: &mut Check) {
    check.planned("(iv), all send at once", &with_send([0, 0, 0]), Ok(SAMPLE_1));
    check.planned("(iv), node 0 takes 3", &with_send([3, 0, 0]), Ok(SAMPLE_1));
    let later = [[0, 0, 1, 5], [0, 4, 1, 10]];
    check.planned("(iv), node 0 takes 4", &with_send([4, 0, 0]), Ok(later));
    check.planned("(iv), slow receivers", &with_send([3, 1000, 1000]), Ok(SAMPLE_1));
    // On its own node the primary of task 1 starts at 4 still; deadline 1,009, then 1,008.
    let mut slow = with_send([1000; 3]);
    slow.tasks[1].deadline = 1_009;
    let latest = [[0, 0, 1, 5], [0, 4, 1, 1_006]];
    check.planned("(iv), as slow as can be", &slow, Ok(latest));
    slow.tasks[1].deadline = 1_008;
    check.planned("(iv), too slow", &slow, Err(Refusal::of_task(NO_BACKUP, 1)));
}

/// Rules D and E: just in time, and one tick too early.
fn judged(check: &mut Check) {
    let primary_unfed = Err(Refusal::of_tasks(PRIMARY_UNFED, 0, 1));
    let backup_unfed = Err(Refusal::of_tasks(BACKUP_UNFED, 0, 1));
    check.judged("(iv), D just in time", &with_send([3, 0, 0]), APART, Ok(()));
    check.judged("(iv), D one tick late", &with_send([4, 0, 0]), APART, primary_unfed);
    let sooner = [[0, 0, 1, 5], [2, 8, 1, 13]];
    check.judged("(iv), D one tick early", &with_send([3, 0, 0]), sooner, primary_unfed);
    check.judged("(iv), D in time again", &with_send([2, 0, 0]), sooner, Ok(()));
    check.judged("(iv), D, slow receivers", &with_send([3, 1000, 1000]), APART, Ok(()));
    check.judged("(iv), E just in time", &with_send([3, 0, 0]), SAMPLE_1, Ok(()));
    check.judged("(iv), E one tick late", &with_send([4, 0, 0]), SAMPLE_1, backup_unfed);
    check.judged("(iv), E, slow receivers", &with_send([3, 1000, 1000]), SAMPLE_1, Ok(()));
    // From the backup on node 1 to that on node 2: 9 and 2 and 1.
    let elsewhere = |start| [[0, 0, 1, 5], [0, 4, 2, start]];
    check.judged("(iv), E, backup's node", &with_send([0, 1, 0]), elsewhere(12), Ok(()));
    check.judged("(iv), E, one tick early", &with_send([0, 1, 0]), elsewhere(11), backup_unfed);
    check.judged("(iv), E, another's", &with_send([0, 0, 1]), elsewhere(11), Ok(()));
}

/// Sample 5: the link is strong, 9 and 2 being 11. A send time of the backup's node makes it weak,
/// and node 0 one whose loss stops task 1.
fn weakened(check: &mut Check) {
    let sample_5 = [[0, 0, 1, 5], [2, 11, 0, 15]];
    let common_loss = Err(Refusal::of_task(COMMON_LOSS, 1));
    check.judged("(iv), strong", &with_send([0, 0, 0]), sample_5, Ok(()));
    check.judged("(iv), weak by one tick", &with_send([0, 1, 0]), sample_5, common_loss);
    check.judged("(iv), strong, others slow", &with_send([5, 0, 1000]), sample_5, Ok(()));
    let later = [[0, 0, 1, 5], [2, 12, 0, 16]];
    check.judged("(iv), strong again", &with_send([0, 1, 0]), later, Ok(()));
    // Ready at 11 and quick on node 2, task 1 is planned so; its backup has to leave node 0.
    let mut job = with_send([0, 0, 0]);
    job.tasks[1] = Task { ready: 11, deadline: 30, run: vec![4, 4, 3] };
    check.planned("(iv), planned strong", &job, Ok(sample_5));
    job.nodes[1].send = 1;
    check.planned("(iv), planned weak", &job, Ok([[0, 0, 1, 5], [2, 11, 1, 15]]));
}

fn replayed(check: &mut Check) {
    let (three, four) = (with_send([3, 0, 0]), with_send([4, 0, 0]));
    check.replayed("(iv), no loss", &four, None, [[2, 0, 4], [2, 0, 7]]);
    check.replayed("(iv), backup fed", &three, lost(5), [[2, 0, 4], [1, 2, 12]]);
    check.replayed("(iv), backup not fed", &four, lost(5), [[2, 0, 4], [1, 0, 0]]);
    // Both backups are on node 1.
    let slow = with_send([4, 1000, 1000]);
    check.replayed("(iv), on one node", &slow, lost(3), [[1, 2, 9], [0, 2, 12]]);
    check.plan_replayed("(iv), primary fed", &three, APART, None, [[2, 0, 4], [2, 0, 12]]);
    check.plan_replayed("(iv), primary not fed", &four, APART, None, [[2, 0, 4], [0, 2, 16]]);
}

/// J with send times, and sample 1.
fn pair(send: [u64; 3]) -> Pair {
    (write_job(&with_send(send)), bytes_of(SAMPLE_1))
}

/// The third task of request (iii): its backup stands where both backups before it do, and waits
/// for the primary of task 1, which finishes at 7, with delay 3.
const ASKED_LATER: Listed = [0, 7, 1, 13];

fn asked(check: &mut Check) {
    let task = write_description(3, &third(30));
    check.asked("(iv), asked, node 0 takes 2", &pair([2, 0, 0]), &task, Ok(ASKED));
    check.asked("(iv), asked, node 0 takes 3", &pair([3, 0, 0]), &task, Ok(ASKED_LATER));
    check.asked("(iv), asked, slow receivers", &pair([2, 1000, 1000]), &task, Ok(ASKED));
    let no_backup = Err(Refusal::of_task(NO_BACKUP, 2));
    let near = write_description(3, &third(14));
    check.asked("(iv), asked, deadline 14", &pair([3, 0, 0]), &near, no_backup);
    let unfed = Err(Refusal::of_tasks(BACKUP_UNFED, 0, 1));
    check.asked("(iv), asked, node 0 takes 4", &pair([4, 0, 0]), &task, unfed);
}

fn booked(check: &mut Check) {
    let [first, second] = SAMPLE_1;
    let longer = |send| write_job(&longer(with_send(send)));
    let booking = |row| write_booking(3, &third(30), &plan_of([row]).rows[0]);
    let booked = |send, row| Ok((longer(send), bytes_of([first, second, row])));
    let mut commit = |sample: &str, send, row, expected| {
        check.committed(sample, &pair(send), &booking(row), (136, 56), expected);
    };
    commit("(iv), booked", [2, 0, 0], ASKED, booked([2, 0, 0], ASKED));
    commit("(iv), booked later", [3, 0, 0], ASKED_LATER, booked([3, 0, 0], ASKED_LATER));
    commit("(iv), stale", [3, 0, 0], ASKED, Err(Refusal::of_task(STALE, 2)));
}

/// Two nodes that detect at once; node 0 sends in 2 ticks. Task 1 is slow on node 0.
pub fn two_nodes() -> Job {
    let task = |run: [u64; 2]| Task { ready: 0, deadline: 9, run: run.to_vec() };
    Job {
        version: 3,
        nodes: nodes_of(0, [2, 0]),
        tasks: vec![task([1, 1]), task([3, 1])],
        links: vec![Link { from: 0, to: 1, delay: 0 }],
    }
}

/// J without task 1 on node 1. Its backup waits for the primary of task 0, sent at 10, and not for
/// the backup, which finishes later than that primary but is sent at 9.
pub fn sent_latest() -> Job {
    let mut job = with_send([6, 0, 0]);
    job.tasks[1].run[1] = 0;
    job
}

/// What a planner gives that forgets the send time of the latest arrival (`forgetful.rs`).
pub const TWO_NODES_FORGOTTEN: [Listed; 2] = [[0, 0, 1, 1], [1, 2, 0, 3]];
pub const SENT_LATEST_FORGOTTEN: [Listed; 2] = [[0, 0, 1, 5], [0, 4, 2, 11]];

fn by_shortcut(check: &mut Check) {
    let job = two_nodes();
    check.planned("(iv), two nodes", &job, Ok([[0, 0, 1, 1], [0, 1, 1, 4]]));
    let unfed = |number| Err(Refusal::of_tasks(number, 0, 1));
    check.judged("(iv), forgotten", &job, TWO_NODES_FORGOTTEN, unfed(PRIMARY_UNFED));
    let job = sent_latest();
    check.planned("(iv), sent latest", &job, Ok([[0, 0, 1, 5], [0, 4, 2, 12]]));
    check.judged("(iv), forgotten too", &job, SENT_LATEST_FORGOTTEN, unfed(BACKUP_UNFED));
}

/// A send time beyond its limit, of each node; a detect time behind the first send time; the file
/// cut among the nodes.
fn unread(check: &mut Check) {
    for (node, offset) in [(0, 12), (1, 20), (2, 28)] {
        let mut send = [MAX_SEND; 3];
        send[node] = MAX_SEND + 1;
        let file = write_job(&with_send(send));
        check.unread(&format!("(iv), node {node} takes 1,001"), &file, Refusal::at(VALUE, offset));
    }
    let mut late = with_send([MAX_SEND; 3]);
    late.nodes[1].detect = MAX_DETECT + 1;
    check.unread("(iv), detect time 1,001", &write_job(&late), Refusal::at(VALUE, 16));
    let file = write_job(&with_send([0; 3]));
    for (length, offset) in [(12, 12), (15, 12), (31, 28), (32, 32)] {
        let sample = format!("(iv), {length} bytes");
        check.unread(&sample, &file[..length], Refusal::at(SHORT, offset));
    }
}

/// J of one version under the number of another.
fn misread(check: &mut Check) {
    let mut unread = |job: &Job, number: u8, refusal: Refusal| {
        let mut file = write_job(job);
        file[0] = number;
        check.unread(&format!("(iv), {} as {number}", job.version), &file, refusal);
    };
    // Node 1's send time is where the task count would be.
    unread(&with_send([3, 0, 0]), 2, Refusal::at(COUNT, 20));
    unread(&with_send([3, 0, 0]), 1, Refusal::at(COUNT, 20));
    // The task count, 2, is the second send time, and a run time of 4 the task count.
    unread(&job(), 3, Refusal::at(VALUE, 60));
    unread(&with_ready(0, 0), 3, Refusal::at(SHORT, 80));
}

/// The same numbers behind the version, planned in versions 3 and 2. In 3 no task waits for another
/// and node 2 sends in 30 ticks; in 2 the last four numbers are the link section.
fn read_in_two_versions(check: &mut Check) {
    let behind = [3, 1, 1, 1, 2, 0, 30, 2, 4, 30, 1, 30, 3, 3, 30, 1, 0, 1, 0];
    for (version, rows) in [(3, [[0, 4, 2, 6], [0, 3, 2, 5]]), (2, [[0, 0, 1, 3], [0, 2, 1, 7]])] {
        let file = numbers(&[&[version], &behind[..]].concat());
        check.file_planned(&format!("(iv), read as {version}"), &file, Ok(rows));
    }
}
