//! Samples for request (ix): plans of job J and others, each put to the trial and to the judge, and
//! files that do not read well.

use crate::files::{write_job, Job, Link, Node, Task, MAX_TIME};
use crate::refusal::{
    Refusal, BACKUP_UNFED, COMMON_LOSS, COUNT, LATE, NO, OVERLAP, PRIMARY_UNFED, SAME_NODE, SHORT,
    TAIL, TOO_SOON, UNABLE, VALUE, VERSION,
};
use crate::replay::Loss;
use crate::samples::{
    bytes_of, job, nodes_of, with_deadline, with_delay, with_groups, with_ready, with_send,
    without_link, Check, Listed, SAMPLE_1,
};

/// What the trial says.
#[derive(Clone, Copy, PartialEq, Eq)]
enum Said {
    Yes,
    No,
}

use Said::{No, Yes};

const PASSED: Result<(), Refusal> = Ok(());

impl Check<'_> {
    /// A plan that reads well, with the judge's answer to it.
    fn tried<const N: usize>(
        &mut self,
        sample: &str,
        job: &Job,
        rows: [Listed; N],
        said: Said,
        judged: Result<(), Refusal>,
    ) {
        let sample = format!("(ix), {sample}");
        let got = (self.console.trial)(&write_job(job), &bytes_of(rows));
        self.expect_code(&sample, got, if said == Yes { 0 } else { NO });
        self.judged(&format!("{sample}, judged"), job, rows, judged);
    }

    /// Files of which one does not read well: the judge's refusal.
    fn untried(&mut self, sample: &str, job: &[u8], plan: &[u8], refusal: Refusal) {
        let sample = format!("(ix), {sample}");
        for call in [self.console.trial, self.console.judge] {
            self.expect(&sample, call(job, plan), Err(refusal));
        }
    }
}

pub fn run(check: &mut Check) {
    known_plans(check);
    shared(check);
    shared_by_send(check);
    in_a_drawer(check);
    by_a_backup(check);
    in_the_last_tick(check);
    own_copies(check);
    at_limits(check);
    unread(check);
}

fn overlap() -> Result<(), Refusal> {
    Err(Refusal::of_tasks(OVERLAP, 0, 1))
}

/// The plans of document 01's samples share no time between a primary and a backup.
fn known_plans(check: &mut Check) {
    let (plain, free) = (job(), without_link());
    check.tried("sample 1", &plain, SAMPLE_1, Yes, PASSED);
    let common = Err(Refusal::of_task(COMMON_LOSS, 1));
    check.tried("sample 4", &plain, [[0, 0, 1, 5], [2, 10, 0, 15]], No, common);
    check.tried("sample 5", &plain, [[0, 0, 1, 5], [2, 11, 0, 15]], Yes, PASSED);
    check.tried("sample 6", &free, [[0, 0, 2, 5], [1, 0, 2, 4]], Yes, PASSED);
    check.tried("sample 7", &free, [[0, 0, 2, 8], [0, 4, 2, 8]], No, overlap());
    check.tried("sample 7, 5 and 9", &free, [[0, 0, 2, 5], [0, 4, 2, 9]], Yes, PASSED);
    let slow = [[0, 0, 1, 5], [1, 10, 0, 14]];
    check.tried("sample 8", &with_delay(6), slow, Yes, PASSED);
    check.tried("deadline 12", &with_deadline(12), SAMPLE_1, Yes, PASSED);
    let late = Err(Refusal::of_task(LATE, 1));
    check.tried("deadline 11", &with_deadline(11), SAMPLE_1, No, late);
}

/// Primary 1 is on node 1 from 6 to 9, and so is backup 0 from 5 to 9. With the link, what calls for
/// backup 0 leaves primary 1 without its input.
fn shared(check: &mut Check) {
    let rows = |start: u64, backup: u64| [[0, 0, 1, 5], [1, start, 2, backup]];
    check.tried("linked", &job(), rows(6, 11), Yes, overlap());
    check.tried("not linked", &without_link(), rows(6, 11), No, overlap());
    let lost = Some(Loss { group: 0, moment: 3 });
    let runs = [(job(), [[1, 2, 9], [0, 2, 14]]), (without_link(), [[1, 2, 9], [2, 0, 9]])];
    for (job, expected) in runs {
        check.plan_replayed("(ix), lost at 3", &job, rows(6, 11), lost, expected);
    }
    // From 8 to 11 they share the last tick of backup 0; from 9 on none.
    check.tried("linked, one tick", &job(), rows(8, 12), Yes, overlap());
    check.tried("not linked, one tick", &without_link(), rows(8, 12), No, overlap());
    check.tried("not linked, no tick", &without_link(), rows(9, 13), Yes, PASSED);
    // The first backup's result is on node 2 at 11: a tick sooner the second has no input.
    let unfed = Err(Refusal::of_tasks(BACKUP_UNFED, 0, 1));
    check.tried("linked, a backup unfed", &job(), rows(6, 10), No, unfed);
}

/// Without the send time of node 0 the primary's result is on node 1 at 6.
fn shared_by_send(check: &mut Check) {
    let rows = [[0, 0, 1, 5], [1, 6, 2, 11]];
    check.tried("sent at once", &with_send([0; 3]), rows, Yes, overlap());
    let unfed = Err(Refusal::of_tasks(PRIMARY_UNFED, 0, 1));
    check.tried("sent too late", &with_send([1, 0, 0]), rows, No, unfed);
    check.tried("in drawers of one", &with_groups([5, 6, 9]), rows, Yes, overlap());
    // Node 2, which has the second backup, goes with node 0.
    let common = Err(Refusal::of_task(COMMON_LOSS, 1));
    check.tried("in a drawer", &with_groups([5, 6, 5]), rows, No, common);
}

/// Five nodes, the first two in one drawer; task 1 sends to task 2, over 2 ticks.
fn drawer_job(first: u64, second: u64) -> Job {
    let group = |group: u64| Node { detect: 1, send: 0, group };
    let task = |run: u64| Task { ready: 0, deadline: 30, run: vec![run; 5] };
    Job {
        version: 4,
        nodes: [5, 5, 1, 2, 3].map(group).to_vec(),
        tasks: [first, second, 3].map(task).to_vec(),
        links: vec![Link { from: 1, to: 2, delay: 2 }],
    }
}

/// Both primaries in the drawer start at 0, and nothing else there. Primary 2 runs at a time of
/// backup 0 if primary 1 is done. So all is well where both are cut, but not where the first is cut
/// and the second is done, at 4 and 5: no start shows that.
fn in_a_drawer(check: &mut Check) {
    let rows = |first: u64, second: u64| [[first, 0, 2, 7], [second, 0, 3, 5], [2, 7, 4, 11]];
    let shares = || Err(Refusal::of_tasks(OVERLAP, 0, 2));
    let (job, plan) = (drawer_job(6, 4), rows(0, 1));
    check.tried("one after the other", &job, plan, No, shares());
    let mut replay = |group: u32, moment: u32, expected| {
        let loss = Some(Loss { group, moment });
        check.plan_replayed("(ix), drawer", &job, plan, loss, expected);
    };
    let (both, first) = ([[1, 2, 13], [1, 2, 9], [0, 2, 14]], [[1, 2, 13], [2, 0, 4], [2, 0, 10]]);
    replay(5, 0, [[0, 2, 13], [0, 2, 9], [0, 2, 14]]);
    replay(5, 3, both);
    replay(5, 4, first);
    replay(5, 5, first);
    replay(5, 6, [[2, 0, 6], [2, 0, 4], [2, 0, 10]]);
    // What starts elsewhere: backup 0 and primary 2 on node 2, and the other backups.
    replay(1, 7, [[2, 0, 6], [2, 0, 4], [0, 2, 14]]);
    replay(2, 5, [[2, 0, 6], [2, 0, 4], [2, 0, 10]]);
    replay(3, 11, [[2, 0, 6], [2, 0, 4], [2, 0, 10]]);
    // Now the primary that is cut there is on the second node of the drawer.
    check.tried("the other about", &drawer_job(6, 4), rows(1, 0), No, shares());
    check.tried("at once", &drawer_job(4, 4), rows(0, 1), Yes, shares());
    check.tried("a tick apart", &drawer_job(5, 4), rows(0, 1), No, shares());
    check.tried("the sender last", &drawer_job(4, 5), rows_later(), Yes, shares());
}

/// Backup 1 from 6 to 11, whose result is on node 4 at 13.
fn rows_later() -> [Listed; 3] {
    [[0, 0, 2, 5], [1, 0, 3, 6], [2, 7, 4, 13]]
}

/// The primary of task 1 does not start, and its backup does the work: without loss each task is
/// done, and with the loss of any primary's node too, but not with that of the backup's.
fn by_a_backup(check: &mut Check) {
    let soon = Err(Refusal::of_task(TOO_SOON, 1));
    let late = with_ready(0, 5);
    check.plan_replayed("(ix), not ready", &late, SAMPLE_1, None, [[2, 0, 4], [0, 2, 12]]);
    check.tried("not ready", &late, SAMPLE_1, No, soon);
    check.tried("just ready", &with_ready(0, 4), SAMPLE_1, Yes, PASSED);
    let rows = [[0, 0, 1, 5], [2, 4, 1, 9]];
    let unfed = Err(Refusal::of_tasks(PRIMARY_UNFED, 0, 1));
    check.plan_replayed("(ix), unfed", &job(), rows, None, [[2, 0, 4], [0, 2, 12]]);
    check.tried("unfed", &job(), rows, No, unfed);
}

/// Both primaries are on node 0 and have only tick 3 in common, the last of both: where the node is
/// lost then, the second has not started. The run without loss shows it.
fn in_the_last_tick(check: &mut Check) {
    let task = |run: u64| Task { ready: 0, deadline: 30, run: vec![run; 3] };
    let job = |second: u64| Job { tasks: vec![task(4), task(second)], ..without_link() };
    let rows = |start: u64| [[0, 0, 1, 5], [0, start, 2, 8]];
    check.tried("the last tick", &job(1), rows(3), No, overlap());
    let lost = Some(Loss { group: 0, moment: 3 });
    check.plan_replayed("(ix), at it", &job(1), rows(3), lost, [[1, 2, 9], [0, 2, 9]]);
    check.tried("a tick later", &job(1), rows(4), Yes, PASSED);
    check.tried("two ticks from it on", &job(2), rows(3), No, overlap());
}

/// A backup that meets its own primary never starts.
fn own_copies(check: &mut Check) {
    let same = Err(Refusal::of_task(SAME_NODE, 0));
    check.tried("its own", &without_link(), [[0, 0, 0, 3], [1, 0, 2, 4]], No, same);
    check.tried("behind its own", &without_link(), [[0, 0, 0, 5], [1, 0, 2, 4]], No, same);
}

/// The latest finish that a deadline lets be, and the latest that can be planned.
fn at_limits(check: &mut Check) {
    let task = Task { ready: 0, deadline: MAX_TIME, run: vec![500_000, 499_999] };
    let job = Job { version: 1, nodes: nodes_of(1, [0; 2]), tasks: vec![task], links: vec![] };
    check.tried("1,000,000", &job, [[0, 0, 1, 500_001]], Yes, PASSED);
    let late = Err(Refusal::of_task(LATE, 0));
    check.tried("1,000,001", &job, [[0, 0, 1, 500_002]], No, late);
    let mut last = job.clone();
    last.tasks[0].run = vec![1, MAX_TIME];
    check.tried("2,000,000", &last, [[0, 0, 1, MAX_TIME]], No, late);
}

/// The faults of the job, then those of the plan.
fn unread(check: &mut Check) {
    let (good, plan) = (write_job(&job()), bytes_of(SAMPLE_1));
    let newer = [&[5], &good[1..]].concat();
    check.untried("version 5", &newer, &plan[..9], Refusal::at(VERSION, 0));
    check.untried("a job cut", &good[..30], &plan[..9], Refusal::at(SHORT, 28));
    check.untried("no files", &[], &[], Refusal::at(SHORT, 0));
    for length in 0..plan.len() {
        let refusal = Refusal::at(SHORT, length as u64 / 4 * 4);
        check.untried("a plan cut", &good, &plan[..length], refusal);
    }
    let tail = [&plan[..], &[0]].concat();
    check.untried("a tail", &good, &tail, Refusal::at(TAIL, 40));
    check.untried("one task", &good, &bytes_of([SAMPLE_1[0]]), Refusal::at(COUNT, 4));
    let far = bytes_of([[0, 0, 3, 5], SAMPLE_1[1]]);
    check.untried("node 3", &good, &far, Refusal::at(VALUE, 16));
    let mut lame = job();
    lame.tasks[1].run[1] = 0;
    check.untried("unable", &write_job(&lame), &plan, Refusal::at(UNABLE, 32));
}
