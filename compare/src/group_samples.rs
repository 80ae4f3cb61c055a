//! Samples for request (vi): job J in version 4, with supply groups, and two other small jobs.

use crate::asked_samples::{third, Pair};
use crate::bookings::{write_booking, write_description, NewTask};
use crate::console::replay_bytes;
use crate::files::{write_job, Job, Link, Task, MAX_GROUP, MAX_SEND};
use crate::refusal::{
    Refusal, BACKUP_UNFED, COMMON_LOSS, EARLY, NO_BACKUP, NO_PRIMARY, NO_SUCH_NODE, OVERLAP,
    PRIMARY_UNFED, SAME_NODE, SHORT, SHORT_BUFFER, STALE, VALUE, VERSION,
};
use crate::replay::Loss;
use crate::samples::{
    bytes_of, job_on, nodes_of, plan_of, with_groups, with_send, Check, Listed, FILL, SAMPLE_1,
};
use crate::set_samples::{chain, CHAINED};

/// Nodes 0 and 1 are in one drawer.
const PAIR: [u64; 3] = [5, 5, 9];

/// J planned with that drawer: the backups have to go to node 2, the second as the first ends.
const PLANNED: [Listed; 2] = [[0, 0, 2, 5], [0, 4, 2, 9]];

pub fn run(check: &mut Check) {
    planned(check);
    judged(check);
    fed(check);
    met(check);
    waited_for(check);
    replayed(check);
    unknown(check);
    gathered(check);
    asked(check);
    unread(check);
    misread(check);
}

/// A job in version 4 with other groups.
fn grouped<const N: usize>(job: Job, groups: [u64; N]) -> Job {
    let mut job = Job { version: 4, ..job };
    job.nodes.iter_mut().zip(groups).for_each(|(node, group)| node.group = group);
    job
}

fn without_link(groups: [u64; 3]) -> Job {
    Job { links: vec![], ..with_groups(groups) }
}

fn planned(check: &mut Check) {
    let mut plan = |sample: &str, job: &Job, expected| {
        check.planned(&format!("(vi), {sample}"), job, expected);
    };
    // What the groups are called is no matter.
    plan("each its own", &with_groups([0, 1, 2]), Ok(SAMPLE_1));
    plan("other numbers", &with_groups([15, 0, 7]), Ok(SAMPLE_1));
    plan("a drawer of two", &with_groups(PAIR), Ok(PLANNED));
    // Both primaries are on node 0, both backups on node 1: who else is beside either is no matter.
    plan("backups in a drawer", &with_groups([5, 9, 9]), Ok(SAMPLE_1));
    plan("nodes apart in a drawer", &with_groups([5, 9, 5]), Ok(SAMPLE_1));
    // Task 1's backup goes to node 2. From node 1, of the same drawer, backup 0 is there at 11.
    let mut lame = with_groups([5, 9, 9]);
    lame.tasks[1].run[1] = 0;
    plan("a delay in a drawer", &lame, Ok([[0, 0, 1, 5], [0, 4, 2, 11]]));
    // Nothing is outside the only drawer; but a primary that is late comes first.
    let mut one = with_groups([5, 5, 5]);
    plan("one drawer", &one, Err(Refusal::of_task(NO_BACKUP, 0)));
    one.tasks[0].deadline = 3;
    plan("one drawer, deadline 3", &one, Err(Refusal::of_task(NO_PRIMARY, 0)));
}

/// Rules A, B and F.
fn judged(check: &mut Check) {
    let same = |task: usize| Err(Refusal::of_task(SAME_NODE, task));
    let pair = with_groups(PAIR);
    check.judged("(vi), planned", &pair, PLANNED, Ok(()));
    // Nodes 0 and 1 are two nodes but one group.
    check.judged("(vi), A, task 0", &pair, SAMPLE_1, same(0));
    check.judged("(vi), A, task 1", &pair, [PLANNED[0], [0, 4, 1, 9]], same(1));
    check.judged("(vi), A, apart", &with_groups([5, 6, 9]), SAMPLE_1, Ok(()));
    // B goes by the primary's own node: 4 and 1 on node 0, 4 and 4 on node 1.
    let mut slow = pair.clone();
    slow.nodes[1].detect = 4;
    check.judged("(vi), B, node 0", &slow, PLANNED, Ok(()));
    let early = Err(Refusal::of_task(EARLY, 0));
    check.judged("(vi), B, node 1", &slow, [[1, 0, 2, 7], [1, 4, 2, 15]], early);
    check.judged("(vi), B, later", &slow, [[1, 0, 2, 8], [1, 4, 2, 15]], Ok(()));
    // Sample 4 with the second backup on a node of its own, in the drawer of node 0: backup 0 is on
    // node 2 at 11, so that the link is weak up to 10, and task 1 in peril of group 5.
    let four = |groups: [u64; 4]| grouped(job_on(4), groups);
    let (weak, strong) = ([[0, 0, 1, 5], [2, 10, 3, 15]], [[0, 0, 1, 5], [2, 11, 3, 15]]);
    let common_loss = Err(Refusal::of_task(COMMON_LOSS, 1));
    check.judged("(vi), F, weak", &four([5, 9, 3, 5]), weak, common_loss);
    check.judged("(vi), F, strong", &four([5, 9, 3, 5]), strong, Ok(()));
    check.judged("(vi), F, apart", &four([5, 9, 3, 4]), weak, Ok(()));
    // Groups are no node numbers: the backup is on node 3, and what is in the peril is group 3.
    check.judged("(vi), F, numbers", &four([5, 9, 3, 0]), weak, Ok(()));
}

/// Rule D from node 0 to node 1, of one drawer: the result is there at 4 and 2.
fn fed(check: &mut Check) {
    let mut job = with_groups(PAIR);
    let beside = |start| [[0, 0, 2, 5], [1, start, 2, start + 4]];
    let unfed = Err(Refusal::of_tasks(PRIMARY_UNFED, 0, 1));
    check.judged("(vi), D just in time", &job, beside(6), Ok(()));
    check.judged("(vi), D one tick early", &job, beside(5), unfed);
    // The send time counts there too.
    job.nodes[0].send = 1;
    check.judged("(vi), D, sent in 1", &job, beside(6), unfed);
    check.judged("(vi), D, in time again", &job, beside(7), Ok(()));
    // On one node there is no delay, whatever it takes to send.
    job.nodes[0].send = MAX_SEND;
    let latest = [[0, 0, 2, 5], [0, 4, 2, 1006]];
    job.tasks[1].deadline = 1009;
    check.judged("(vi), D on one node", &job, latest, Ok(()));
}

/// Rule G, without link.
fn met(check: &mut Check) {
    let sample_6 = [[0, 0, 2, 5], [1, 0, 2, 4]];
    let overlap = Err(Refusal::of_tasks(OVERLAP, 0, 1));
    // Two backups share time on node 2, unless their primaries go together.
    check.judged("(vi), G, apart", &without_link([5, 6, 9]), sample_6, Ok(()));
    check.judged("(vi), G, together", &without_link(PAIR), sample_6, overlap);
    // The primaries are on two nodes of a drawer at the same ticks, which is no overlap.
    let beside = [[0, 0, 2, 5], [1, 0, 2, 9]];
    check.judged("(vi), G, two nodes", &without_link(PAIR), beside, Ok(()));
    // A backup beside a primary, on nodes 1 and 2 of one drawer, at 5 to 7.
    let mixed = [[0, 0, 1, 5], [2, 4, 0, 8]];
    check.judged("(vi), G, mixed", &without_link([5, 9, 9]), mixed, Ok(()));
    // Apart, node 0 takes the second backup as it gets free; in one drawer it goes with node 1.
    let expected = Ok([[0, 0, 2, 5], [1, 0, 2, 9]]);
    check.planned("(vi), G, planned", &without_link(PAIR), expected);
    check.planned(
        "(vi), G, planned apart",
        &without_link([5, 6, 9]),
        Ok([[0, 0, 1, 5], [1, 0, 0, 4]]),
    );
}

/// Rule E. Tasks 0 and 1 send to task 2, with delays 14 and 10. Its primary stands on node 2,
/// where the backup of task 1 stood: a strong link, but its result is on node 3 only at 24. Backup
/// 0 is there at 22, too late for that primary: task 2 is in peril of the group of node 0.
fn waited_for(check: &mut Check) {
    let link = |from, delay| Link { from, to: 2, delay };
    let task = |run: u64| Task { ready: 0, deadline: 100, run: vec![run; 5] };
    let job = Job {
        version: 4,
        nodes: nodes_of(0, [0; 5]),
        tasks: vec![task(4), task(4), task(1)],
        links: vec![link(0, 14), link(1, 10)],
    };
    let plan = |start| [[0, 0, 1, 4], [4, 4, 2, 10], [2, 18, 3, start]];
    let unfed = |from| Err(Refusal::of_tasks(BACKUP_UNFED, from, 2));
    // Task 1 is in peril of node 4's group alone, which is another one, or that of node 0.
    check.judged("(vi), E, apart", &job, plan(22), Ok(()));
    check.judged("(vi), E, one tick early", &job, plan(21), unfed(0));
    let together = grouped(job, [7, 1, 2, 3, 7]);
    check.judged("(vi), E, together", &together, plan(23), unfed(1));
    check.judged("(vi), E, in time", &together, plan(24), Ok(()));
}

fn lost(group: u32, moment: u32) -> Option<Loss> {
    Some(Loss { group, moment })
}

fn replayed(check: &mut Check) {
    let mut replay = |sample: &str, job: &Job, rows, loss, expected| {
        check.plan_replayed(&format!("(vi), {sample}"), job, rows, loss, expected);
    };
    let pair = with_groups(PAIR);
    replay("no loss", &pair, PLANNED, None, [[2, 0, 4], [2, 0, 7]]);
    replay("5 lost at 3", &pair, PLANNED, lost(5, 3), [[1, 2, 9], [0, 2, 12]]);
    // Only unused backups are in group 9.
    replay("9 lost at 3", &pair, PLANNED, lost(9, 3), [[2, 0, 4], [2, 0, 7]]);
    // Sample 1 does not pass here: the backups on node 1 go with node 0.
    replay("both copies lost", &pair, SAMPLE_1, lost(5, 3), [[1, 0, 0], [0, 0, 0]]);
    replay("lost at 6", &pair, SAMPLE_1, lost(5, 6), [[2, 0, 4], [1, 0, 0]]);
    // At 7 both primaries are done, and what is lost later is no matter.
    replay("lost at 7", &pair, SAMPLE_1, lost(5, 7), [[2, 0, 4], [2, 0, 7]]);
    // Two primaries on two nodes are cut at once, by the loss of one group.
    let beside = [[0, 0, 2, 5], [1, 0, 2, 9]];
    let free = without_link(PAIR);
    replay("two nodes cut", &free, beside, lost(5, 2), [[1, 2, 9], [1, 2, 12]]);
    replay("one cut, one done", &free, beside, lost(5, 3), [[1, 2, 9], [2, 0, 3]]);
    // From node 0 to node 1 the result takes 2: at 5 the primary of task 1 lacks it, at 6 not.
    let beside = |start| [[0, 0, 2, 5], [1, start, 2, 10]];
    replay("primary not fed", &pair, beside(5), None, [[2, 0, 4], [0, 2, 13]]);
    replay("primary fed", &pair, beside(6), None, [[2, 0, 4], [2, 0, 9]]);
}

/// 18 is for a group that no node has, before 17.
fn unknown(check: &mut Check) {
    let plan = bytes_of(SAMPLE_1);
    let mut lose = |sample: &str, job: &Job, group: u32, room, refusal| {
        let mut out = vec![FILL; room];
        let got = (check.console.replay)(&write_job(job), &plan, lost(group, 3), &mut out);
        let sample = format!("(vi), {sample}, {group} lost");
        check.expect(&sample, got, Err(refusal));
        check.expect_bytes(&sample, &out, None);
    };
    let none = |group: u32| Refusal::at(NO_SUCH_NODE, u64::from(group));
    let short = Refusal::at(SHORT_BUFFER, 24);
    // With groups 5 and 5, there is no group 0 or 1, though nodes 0 and 1 are there; 5 there is,
    // though no node 5.
    let twice = grouped(job_on(2), [5, 5]);
    for group in [0, 1, 2, 4, 6, 15, 16, u32::MAX] {
        lose("groups 5, 5", &twice, group, 0, none(group));
        lose("groups 5, 5, with room", &twice, group, replay_bytes(2), none(group));
    }
    lose("groups 5, 5, no room", &twice, 5, 23, short);
    check.plan_replayed("(vi), 5, 5", &twice, SAMPLE_1, lost(5, 3), [[1, 0, 0], [0, 0, 0]]);
    // In older versions the groups are the nodes' numbers, whatever a value holds beside them.
    let older = Job { version: 3, ..twice };
    check.plan_replayed("(vi), 3, group 0", &older, SAMPLE_1, lost(0, 3), [[1, 2, 9], [0, 2, 12]]);
    let mut out = [FILL; 24];
    let got = (check.console.replay)(&write_job(&older), &bytes_of(SAMPLE_1), lost(5, 3), &mut out);
    check.expect("(vi), 3, group 5", got, Err(none(5)));
}

/// Fault sets, bit q for group q.
fn gathered(check: &mut Check) {
    // Weak: backup 0 is on node 0 at 11.
    check.sets_of("(vi), a drawer", &with_groups(PAIR), PLANNED, [0x20, 0x20]);
    // Two weak links in a chain, on nodes 0, 1 and 2; the first and the last are in one drawer.
    let chained = grouped(chain(), [15, 0, 15, 7]);
    check.judged("(vi), a chain, judged", &chained, CHAINED, Ok(()));
    check.sets_of("(vi), a chain", &chained, CHAINED, [0x8000, 0x8001, 0x8001]);
    check.sets_of("(vi), one group", &grouped(chain(), [2; 4]), CHAINED, [4; 3]);
    let own = grouped(chain(), [3, 2, 1, 0]);
    check.sets_of("(vi), other numbers", &own, CHAINED, [0b1000, 0b1100, 0b1110]);
}

/// A third task of run time 2 without links, beside sample 1: its primary is on node 1 from 0 to
/// 2, the backup at 3 on node 2, if that is not in the drawer of node 1; else on node 0 from 7 on.
fn asked(check: &mut Check) {
    let new = NewTask { inputs: vec![], ..third(30) };
    let pair = |groups| -> Pair { (write_job(&with_groups(groups)), bytes_of(SAMPLE_1)) };
    let task = write_description(4, &new);
    let (near, far) = ([1, 0, 2, 3], [1, 0, 0, 7]);
    check.asked("(vi), asked", &pair([5, 9, 5]), &task, Ok(near));
    check.asked("(vi), asked, a drawer", &pair([5, 9, 9]), &task, Ok(far));
    let refused = Err(Refusal::of_task(SAME_NODE, 0));
    check.asked("(vi), asked, not passed", &pair(PAIR), &task, refused);
    let mut hasty = new.clone();
    hasty.task.deadline = 8;
    let no_backup = Err(Refusal::of_task(NO_BACKUP, 2));
    check.asked(
        "(vi), asked, deadline 8",
        &pair([5, 9, 9]),
        &write_description(4, &hasty),
        no_backup,
    );
    let [first, second] = SAMPLE_1;
    let longer = |groups| {
        let mut job = with_groups(groups);
        job.tasks.push(new.task.clone());
        write_job(&job)
    };
    let mut book = |sample: &str, groups, row: Listed, expected| {
        let booking = write_booking(4, &new, &plan_of([row]).rows[0]);
        check.committed(&format!("(vi), {sample}"), &pair(groups), &booking, (124, 56), expected);
    };
    let booked = |groups, row| Ok((longer(groups), bytes_of([first, second, row])));
    // The longer job has version 4 and its groups: 104 bytes, and 20 for the task.
    book("booked", [5, 9, 5], near, booked([5, 9, 5], near));
    book("booked, a drawer", [5, 9, 9], far, booked([5, 9, 9], far));
    book("stale", [5, 9, 9], near, Err(Refusal::of_task(STALE, 2)));
}

/// A group beyond its limit, of each node; the file cut among the nodes.
fn unread(check: &mut Check) {
    check.planned("(vi), groups 15", &with_groups([MAX_GROUP, 0, MAX_GROUP]), Ok(SAMPLE_1));
    for (node, offset) in [(0, 16), (1, 28), (2, 40)] {
        for group in [MAX_GROUP + 1, u64::from(u32::MAX)] {
            let mut groups = [MAX_GROUP; 3];
            groups[node] = group;
            let sample = format!("(vi), node {node} in group {group}");
            let file = write_job(&with_groups(groups));
            check.unread(&sample, &file, Refusal::at(VALUE, offset));
        }
    }
    let file = write_job(&with_groups(PAIR));
    for (length, offset) in [(16, 16), (19, 16), (43, 40), (44, 44)] {
        let sample = format!("(vi), {length} bytes");
        check.unread(&sample, &file[..length], Refusal::at(SHORT, offset));
    }
}

/// J of one version under the number of another.
fn misread(check: &mut Check) {
    let mut unread = |job: &Job, number: u8, refusal: Refusal| {
        let mut file = write_job(job);
        file[0] = number;
        check.unread(&format!("(vi), {} as {number}", job.version), &file, refusal);
    };
    let pair = with_groups(PAIR);
    unread(&pair, 5, Refusal::at(VERSION, 0));
    unread(&pair, 0, Refusal::at(VERSION, 0));
    // As 3, node 2's detect time 1 is the task count, and the first run time 4 the link count: the
    // next one, 4, is no task that could send.
    unread(&pair, 3, Refusal::at(VALUE, 60));
    // As 2, node 1's detect time 1 is the task count, and the task count 2 the link count: with
    // task 0 alone, deadline 30 is no task to send to.
    unread(&pair, 2, Refusal::at(VALUE, 52));
    // The deadline 30 would be the group of node 2.
    unread(&with_send([3, 0, 0]), 4, Refusal::at(VALUE, 40));
}
