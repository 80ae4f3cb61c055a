//! Samples for request (viii): sample 1 and other plans of job J with copies that finish early, and
//! lists of actual times with their faults.

use crate::console::replay_bytes;
use crate::files::{bytes_of as numbers, write_job, Job, Task, MAX_TIME};
use crate::refusal::{
    Refusal, COUNT, EARLY, NO_SUCH_NODE, PRIMARY_UNFED, SHORT, SHORT_BUFFER, TAIL, UNABLE, VALUE,
    VERSION,
};
use crate::replay::Loss;
use crate::samples::{
    bytes_of, job, lost, nodes_of, with_groups, with_ready, with_send, without_link, Check, Listed,
    Written, FILL, SAMPLE_1, SPARE,
};

/// What a list says of a task: the ticks of its primary and of its backup.
type Taken = [u64; 2];

/// Both copies of task 0 take 2 of 4 ticks, those of task 1 one of 3.
const EARLY_ENDS: [Taken; 2] = [[2, 2], [1, 1]];

const AS_LISTED: [Taken; 2] = [[4, 4], [3, 3]];

impl Check<'_> {
    /// With room for more than the rows. The plan need not pass.
    fn timed<const N: usize>(
        &mut self,
        sample: &str,
        (job, rows): (&Job, [Listed; N]),
        loss: Option<Loss>,
        times: [Taken; N],
        expected: [Written; N],
    ) {
        let list = numbers(times.as_flattened());
        let mut out = vec![FILL; replay_bytes(N) + SPARE];
        let (job, plan) = (write_job(job), bytes_of(rows));
        let got = (self.console.replay_times)(&job, &plan, loss, &list, &mut out);
        let sample = format!("(viii), {sample}");
        self.expect(&sample, got, Ok(()));
        let rows = expected.iter().flatten().flat_map(|number| number.to_le_bytes());
        self.expect_bytes(&sample, &out, Some(rows.collect()));
    }

    /// With no loss and with group 0 lost, into a buffer that is empty: 17 comes later.
    fn list_refused(&mut self, sample: &str, pair: (&[u8], &[u8]), list: &[u8], refusal: Refusal) {
        for loss in [None, lost(3)] {
            self.refused(sample, pair, loss, list, 0, refusal);
        }
    }

    fn refused(
        &mut self,
        sample: &str,
        (job, plan): (&[u8], &[u8]),
        loss: Option<Loss>,
        list: &[u8],
        room: usize,
        refusal: Refusal,
    ) {
        let mut out = vec![FILL; room];
        let got = (self.console.replay_times)(job, plan, loss, list, &mut out);
        let sample = format!("(viii), {sample}");
        self.expect(&sample, got, Err(refusal));
        self.expect_bytes(&sample, &out, None);
    }
}

pub fn run(check: &mut Check) {
    as_listed(check);
    ended_early(check);
    each_its_own(check);
    kept_back(check);
    fed(check);
    sent(check);
    grouped(check);
    at_limits(check);
    short_lists(check);
    wrong_numbers(check);
    first_faults(check);
    by_node(check);
    ordered(check);
    longest(check);
}

/// Samples 2 and 3 again: a list of the listed times changes nothing.
fn as_listed(check: &mut Check) {
    let job = job();
    let mut replay = |sample: &str, loss, expected| {
        check.timed(sample, (&job, SAMPLE_1), loss, AS_LISTED, expected);
        check.plan_replayed(&format!("(viii), {sample}, no list"), &job, SAMPLE_1, loss, expected);
    };
    replay("as listed, lost at 3", lost(3), [[1, 2, 9], [0, 2, 12]]);
    replay("as listed, lost at 4", lost(4), [[2, 0, 4], [0, 2, 12]]);
    replay("as listed, lost at 5", lost(5), [[2, 0, 4], [1, 2, 12]]);
    replay("as listed, no loss", None, [[2, 0, 4], [2, 0, 7]]);
}

/// Primary 0 runs from 0 to 2 and primary 1 from 4 to 5; the backups from 5 to 7 and 9 to 10.
fn ended_early(check: &mut Check) {
    let job = job();
    let mut replay = |sample: &str, loss, expected| {
        check.timed(sample, (&job, SAMPLE_1), loss, EARLY_ENDS, expected);
    };
    // The second primary starts as planned, not when the first ends.
    replay("no loss", None, [[2, 0, 2], [2, 0, 5]]);
    replay("lost at 0", lost(0), [[0, 2, 7], [0, 2, 10]]);
    replay("lost at 1", lost(1), [[1, 2, 7], [0, 2, 10]]);
    replay("lost at 2", lost(2), [[2, 0, 2], [0, 2, 10]]);
    // As listed, primary 0 would be cut.
    replay("lost at 3", lost(3), [[2, 0, 2], [0, 2, 10]]);
    replay("lost at 4", lost(4), [[2, 0, 2], [0, 2, 10]]);
    // As listed, primary 1 would be cut.
    replay("lost at 5", lost(5), [[2, 0, 2], [2, 0, 5]]);
    replay("lost at 4,294,967,295", lost(u32::MAX), [[2, 0, 2], [2, 0, 5]]);
    let backups_lost = Some(Loss { group: 1, moment: 6 });
    replay("backups lost", backups_lost, [[2, 0, 2], [2, 0, 5]]);
    // Held back by its ready time, the primary does not start, however early the list lets it end.
    let ready = with_ready(0, 5);
    check.timed("not ready", (&ready, SAMPLE_1), None, EARLY_ENDS, [[2, 0, 2], [0, 2, 10]]);
}

/// Each copy has its own number, the primary's first.
fn each_its_own(check: &mut Check) {
    let job = job();
    let mut replay = |sample: &str, loss, times, expected| {
        check.timed(sample, (&job, SAMPLE_1), loss, times, expected);
    };
    let (times, swapped) = ([[2, 3], [1, 2]], [[3, 2], [2, 1]]);
    replay("backups take longer, lost at 1", lost(1), times, [[1, 2, 8], [0, 2, 11]]);
    replay("backups take longer, lost at 2", lost(2), times, [[2, 0, 2], [0, 2, 11]]);
    replay("primaries take longer, lost at 2", lost(2), swapped, [[1, 2, 7], [0, 2, 10]]);
    replay("primaries take longer, lost at 5", lost(5), swapped, [[2, 0, 3], [1, 2, 10]]);
    replay("primaries take longer, no loss", None, swapped, [[2, 0, 3], [2, 0, 6]]);
}

/// Rule B goes by the listed finish, 4, and the detect time, 1: a backup from 5 on is called in
/// time, whenever the primary would have ended.
fn kept_back(check: &mut Check) {
    let job = without_link();
    let plan = |start: u64| [[0, 0, 1, start], [2, 0, 1, 20]];
    let early = Err(Refusal::of_task(EARLY, 0));
    check.judged("(viii), a backup at 3, judged", &job, plan(3), early);
    let mut replay = |sample: &str, start, ticks, expected| {
        let times = [[ticks, 3], [2, 2]];
        check.timed(sample, (&job, plan(start)), lost(1), times, [expected, [2, 0, 2]]);
    };
    // The primary, cut at 1, would have ended at 2.
    replay("a backup at 3, soon enough for the end", 3, 2, [1, 0, 0]);
    replay("a backup at 4", 4, 2, [1, 0, 0]);
    replay("a backup at 5", 5, 2, [1, 2, 8]);
    replay("a backup at 5, all of 4 ticks", 5, 4, [1, 2, 8]);
    // If the primary ends by the loss, no backup is called on.
    replay("a backup at 3, not called on", 3, 1, [2, 0, 1]);
}

/// Primary 1 is on node 2 at 4, where the result of primary 0 is 2 after its end.
fn fed(check: &mut Check) {
    let (job, plan) = (job(), [[0, 0, 1, 5], [2, 4, 1, 9]]);
    let unfed = Err(Refusal::of_tasks(PRIMARY_UNFED, 0, 1));
    check.judged("(viii), fed by an early end, judged", &job, plan, unfed);
    check.plan_replayed("(viii), as listed", &job, plan, None, [[2, 0, 4], [0, 2, 12]]);
    let mut replay = |sample: &str, plan, loss, times, expected| {
        check.timed(sample, (&job, plan), loss, times, expected);
    };
    replay("fed by an early end", plan, None, [[2, 4], [3, 3]], [[2, 0, 2], [2, 0, 7]]);
    replay("one tick late", plan, None, [[3, 4], [3, 3]], [[2, 0, 3], [0, 2, 12]]);
    // Backup 0 is there at 7 and 2; backup 1 waits for it on node 2, at 9 or one tick too early.
    let beside = |start: u64| [[0, 0, 1, 5], [0, 4, 2, start]];
    let times = [[2, 2], [3, 3]];
    replay("a backup fed", beside(9), lost(1), times, [[1, 2, 7], [0, 2, 12]]);
    replay("a backup unfed", beside(8), lost(1), times, [[1, 2, 7], [0, 0, 0]]);
    replay("a backup unfed as listed", beside(9), lost(1), AS_LISTED, [[1, 2, 9], [0, 0, 0]]);
}

/// The send time counts from the end on, and only on the way to another node.
fn sent(check: &mut Check) {
    let plan = [[0, 0, 1, 5], [2, 4, 1, 9]];
    let job = with_send([1, 0, 0]);
    let mut replay = |sample: &str, plan, times, expected| {
        check.timed(sample, (&job, plan), None, times, expected);
    };
    replay("sent in 1", plan, [[1, 4], [3, 3]], [[2, 0, 1], [2, 0, 7]]);
    replay("sent in 1, too late", plan, [[2, 4], [3, 3]], [[2, 0, 2], [0, 2, 12]]);
    let one_node = [[0, 0, 1, 5], [0, 2, 1, 9]];
    replay("not sent", one_node, [[2, 4], [3, 3]], [[2, 0, 2], [2, 0, 5]]);
}

/// Nodes 0 and 1 are in one drawer, group 5; both primaries are in it.
fn grouped(check: &mut Check) {
    let job = Job { links: vec![], ..with_groups([5, 5, 9]) };
    let plan = [[0, 0, 2, 5], [1, 0, 2, 9]];
    let lost = |group: u32| Some(Loss { group, moment: 2 });
    let mut replay = |sample: &str, times, expected| {
        check.timed(sample, (&job, plan), lost(5), times, expected);
    };
    replay("a drawer lost at 2", AS_LISTED, [[1, 2, 9], [1, 2, 12]]);
    replay("one done by then", [[2, 4], [3, 1]], [[2, 0, 2], [1, 2, 10]]);
    replay("the other done by then", [[3, 1], [2, 3]], [[1, 2, 6], [2, 0, 2]]);
    replay("both done by then", [[1, 4], [2, 3]], [[2, 0, 1], [2, 0, 2]]);
    let (job, plan, list) = (write_job(&job), bytes_of(plan), numbers(&[4, 4, 3, 3]));
    let none = Refusal::at(NO_SUCH_NODE, 0);
    check.refused("0 lost", (&job, &plan), lost(0), &list, replay_bytes(2), none);
}

/// The longest time that can be listed, from the last start on.
fn at_limits(check: &mut Check) {
    let task = Task { ready: 0, deadline: MAX_TIME, run: vec![MAX_TIME, 1] };
    let job = Job { version: 1, nodes: nodes_of(0, [0; 2]), tasks: vec![task], links: vec![] };
    let rows = [[0, MAX_TIME, 1, MAX_TIME]];
    let mut replay = |sample: &str, ticks, expected| {
        check.timed(sample, (&job, rows), lost(1_500_000), [[ticks, 1]], [expected]);
    };
    replay("1 of 1,000,000", 1, [2, 0, 1_000_001]);
    replay("500,000 of them", 500_000, [2, 0, 1_500_000]);
    // Rule B would have the backup at 2,000,000.
    replay("500,001 of them", 500_001, [1, 0, 0]);
    replay("all of them", MAX_TIME, [1, 0, 0]);
    let (job, plan) = (write_job(&job), bytes_of(rows));
    let mut refuse = |list: [u64; 2], at| {
        let sample = format!("{list:?}");
        check.list_refused(&sample, (&job, &plan), &numbers(&list), Refusal::at(VALUE, at));
    };
    refuse([MAX_TIME + 1, 1], 0);
    refuse([MAX_TIME, 2], 4);
}

/// A list for J has 16 bytes.
fn short_lists(check: &mut Check) {
    let pair = (write_job(&job()), bytes_of(SAMPLE_1));
    let list = [numbers(AS_LISTED.as_flattened()), vec![1; 8]].concat();
    for length in (0..list.len()).filter(|&length| length != 16) {
        let refusal = match length {
            0..=15 => Refusal::at(SHORT, length as u64 / 4 * 4),
            _ => Refusal::at(TAIL, 16),
        };
        let sample = format!("a list of {length} bytes");
        check.list_refused(&sample, (&pair.0, &pair.1), &list[..length], refusal);
    }
}

/// Each number is from 1 to its own limit.
fn wrong_numbers(check: &mut Check) {
    let pair = (write_job(&job()), bytes_of(SAMPLE_1));
    for (at, most) in AS_LISTED.as_flattened().iter().enumerate() {
        for wrong in [0, most + 1, 256, MAX_TIME, 1 << 31, u64::from(u32::MAX)] {
            let mut list = [1; 4];
            list[at] = wrong;
            let (sample, refusal) = (format!("{list:?}"), Refusal::at(VALUE, 4 * at as u64));
            check.list_refused(&sample, (&pair.0, &pair.1), &numbers(&list), refusal);
        }
    }
}

/// Number by number, and what is missing or too much when it is come to.
fn first_faults(check: &mut Check) {
    let pair = (write_job(&job()), bytes_of(SAMPLE_1));
    let mut refuse = |list: &[u64], cut: usize, refusal| {
        let (sample, list) = (format!("{list:?}, {cut} cut"), numbers(list));
        let list = &list[..list.len() - cut];
        check.list_refused(&sample, (&pair.0, &pair.1), list, refusal);
    };
    refuse(&[0, 5, 4, 4], 0, Refusal::at(VALUE, 0));
    refuse(&[1, 5, 0, 4], 0, Refusal::at(VALUE, 4));
    refuse(&[5], 0, Refusal::at(VALUE, 0));
    refuse(&[4, 0, 1], 3, Refusal::at(VALUE, 4));
    refuse(&[4, 0, 1], 5, Refusal::at(SHORT, 4));
    refuse(&[4, 4, 3, 4, 1], 3, Refusal::at(VALUE, 12));
    refuse(&[4, 4, 3, 3, 0], 3, Refusal::at(TAIL, 16));
}

/// Task 0 takes 4, 6 and 9 on the three nodes. A list goes by the planned ones, here 0 and 1.
fn by_node(check: &mut Check) {
    let mut job = job();
    job.tasks[0].run = vec![4, 6, 9];
    let rows = [[0, 0, 1, 5], [0, 4, 1, 11]];
    check.timed("6 on node 1", (&job, rows), lost(1), [[4, 6], [1, 1]], [[1, 2, 11], [0, 2, 12]]);
    check.timed("5 on node 1", (&job, rows), lost(1), [[2, 5], [1, 1]], [[1, 2, 10], [0, 2, 12]]);
    let pair = (write_job(&job), bytes_of(rows));
    let mut refuse = |first: Taken, at| {
        let (sample, list) = (format!("{first:?} by node"), numbers(&[first, [1, 1]].concat()));
        check.list_refused(&sample, (&pair.0, &pair.1), &list, Refusal::at(VALUE, at));
    };
    refuse([5, 6], 0);
    refuse([4, 7], 4);
    refuse([4, 9], 4);
    // The two times swapped.
    refuse([6, 4], 0);
}

/// The job's faults, the plan's, 18, the list's, then 17.
fn ordered(check: &mut Check) {
    let (job, plan) = (write_job(&job()), bytes_of(SAMPLE_1));
    let (good, bad) = (numbers(AS_LISTED.as_flattened()), numbers(&[4, 0]));
    let lost = |group: u32| Some(Loss { group, moment: 3 });
    let mut lame = crate::samples::job();
    lame.tasks[1].run[1] = 0;
    let (newer, lame) = ([&[5], &job[1..]].concat(), write_job(&lame));
    let mut refuse = |sample: &str, job: &[u8], plan: &[u8], loss, list: &[u8], room, refusal| {
        check.refused(sample, (job, plan), loss, list, room, refusal);
    };
    refuse("a job of version 5", &newer, &plan[..9], lost(3), &bad, 0, Refusal::at(VERSION, 0));
    refuse("a plan cut", &job, &plan[..9], lost(3), &bad, 0, Refusal::at(SHORT, 8));
    let one = bytes_of([SAMPLE_1[0]]);
    refuse("a plan of one task", &job, &one, lost(3), &bad[..4], 24, Refusal::at(COUNT, 4));
    refuse("unable", &lame, &plan, lost(3), &bad, 24, Refusal::at(UNABLE, 32));
    for group in [3, 16, u32::MAX] {
        let none = Refusal::at(NO_SUCH_NODE, u64::from(group));
        refuse("no such group, a bad list", &job, &plan, lost(group), &bad, 24, none);
        refuse("no such group, no list", &job, &plan, lost(group), &[], 0, none);
        refuse("no such group, a good list", &job, &plan, lost(group), &good, 0, none);
    }
    for loss in [None, lost(2)] {
        refuse("a bad list", &job, &plan, loss, &bad, 24, Refusal::at(VALUE, 4));
        refuse("a bad list before 17", &job, &plan, loss, &bad, 23, Refusal::at(VALUE, 4));
        for room in [0, 12, 23] {
            refuse("short", &job, &plan, loss, &good, room, Refusal::at(SHORT_BUFFER, 24));
        }
    }
}

/// A list of 64 tasks has 512 bytes. Each task takes 2 ticks on either node.
fn longest(check: &mut Check) {
    let task = Task { ready: 0, deadline: 1000, run: vec![2; 2] };
    let job = Job { version: 1, nodes: nodes_of(0, [0; 2]), tasks: vec![task; 64], links: vec![] };
    let rows: [Listed; 64] =
        std::array::from_fn(|task| [0, 2 * task as u64, 1, 2 * (64 + task as u64)]);
    let ends = |task: usize| [2, 0, 2 * task as u32 + 1];
    check.timed("64 tasks", (&job, rows), None, [[1, 2]; 64], std::array::from_fn(ends));
    let pair = (write_job(&job), bytes_of(rows));
    let mut list = [vec![1; 127], vec![3]].concat();
    check.list_refused(
        "the last of 128",
        (&pair.0, &pair.1),
        &numbers(&list),
        Refusal::at(VALUE, 508),
    );
    list[127] = 2;
    list.push(1);
    check.list_refused("a 129th", (&pair.0, &pair.1), &numbers(&list), Refusal::at(TAIL, 512));
}
