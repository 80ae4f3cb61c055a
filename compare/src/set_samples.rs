//! Samples for request (v): the fault sets of small plans, worked out by hand.

use crate::asked_samples::Pair;
use crate::console::sets_bytes;
use crate::files::{write_job, Job, Link, Task, MAX_SEND};
use crate::refusal::{
    Refusal, COMMON_LOSS, COUNT, PRIMARY_UNFED, SHORT, SHORT_BUFFER, TAIL, UNABLE,
};
use crate::samples::{
    bytes_of, job, job_on, nodes_of, with_send, Check, Listed, FILL, SAMPLE_1, SPARE,
};

/// Nodes with detect 1, tasks that take 2 on each of them, and links with delay 1.
fn job_of(nodes: usize, tasks: usize, links: &[(usize, usize)]) -> Job {
    Job {
        version: 1,
        nodes: nodes_of(1, vec![0; nodes]),
        tasks: vec![Task { ready: 0, deadline: 30, run: vec![2; nodes] }; tasks],
        links: links.iter().map(|&(from, to)| Link { from, to, delay: 1 }).collect(),
    }
}

pub fn chain() -> Job {
    job_of(4, 3, &[(0, 1), (1, 2)])
}

/// The chain on nodes 0, 1 and 2, each primary as soon as it is fed, the backups on node 3: both
/// links are weak.
pub const CHAINED: [Listed; 3] = [[0, 0, 3, 3], [1, 3, 3, 6], [2, 6, 3, 9]];

impl Check<'_> {
    /// With room for more than the sets. A plan need not pass.
    pub fn sets_of<const N: usize>(
        &mut self,
        sample: &str,
        job: &Job,
        rows: [Listed; N],
        sets: [u32; N],
    ) {
        let pair = (write_job(job), bytes_of(rows));
        self.sets_found(sample, &pair, sets_bytes(N) + SPARE, Ok(sets.to_vec()));
    }

    fn sets_found(
        &mut self,
        sample: &str,
        pair: &Pair,
        room: usize,
        expected: Result<Vec<u32>, Refusal>,
    ) {
        let mut out = vec![FILL; room];
        let got = (self.console.fault_sets)(&pair.0, &pair.1, &mut out);
        self.expect(sample, got, expected.as_ref().map(|_| ()).map_err(|refusal| *refusal));
        let sets = expected.ok();
        let bytes = sets.map(|sets| sets.into_iter().flat_map(u32::to_le_bytes).collect());
        self.expect_bytes(sample, &out, bytes);
    }
}

pub fn run(check: &mut Check) {
    passed(check);
    chained(check);
    refused(check);
    sent(check);
    short_buffers(check);
    misread(check);
}

/// Two plans that the judge passes. In the second, tasks 0 and 1 both send to 2, and 2 to 3 to 4,
/// all over weak links.
fn passed(check: &mut Check) {
    check.judged("(v), two weak links, judged", &chain(), CHAINED, Ok(()));
    check.sets_of("(v), two weak links", &chain(), CHAINED, [0b1, 0b11, 0b111]);
    let joined = job_of(6, 5, &[(0, 2), (1, 2), (2, 3), (3, 4)]);
    let rows = [[0, 0, 5, 3], [1, 0, 5, 3], [2, 3, 5, 6], [3, 6, 5, 9], [4, 9, 5, 12]];
    check.judged("(v), paths that join, judged", &joined, rows, Ok(()));
    let sets = [0b1, 0b10, 0b111, 0b1111, 0b11111];
    check.sets_of("(v), paths that join", &joined, rows, sets);
}

/// The backup of task 0 is at 5 on node 3 and at 6 elsewhere; that of task 1 at 8, and at 9.
fn chained(check: &mut Check) {
    let mut later = |sample: &str, second: Listed, third: Listed, sets: [u32; 3]| {
        check.sets_of(&format!("(v), {sample}"), &chain(), [CHAINED[0], second, third], sets);
    };
    later("weak by one tick", CHAINED[1], [2, 8, 3, 11], [0b1, 0b11, 0b111]);
    later("a weak link and a strong one", CHAINED[1], [2, 9, 3, 12], [0b1, 0b11, 0b100]);
    later("a strong link and a weak one", [1, 6, 3, 9], [2, 9, 3, 12], [0b1, 0b10, 0b110]);
    later("two strong links", [1, 6, 3, 9], [2, 12, 3, 15], [0b1, 0b10, 0b100]);
    later("a node twice", CHAINED[1], [0, 6, 3, 9], [0b1, 0b11, 0b11]);
    // Where the sender's backup is, there is no delay.
    later("strong on one node", [3, 5, 2, 8], [2, 7, 0, 10], [0b1, 0b1000, 0b1100]);
    later("weak on one node", [3, 4, 2, 7], [2, 7, 1, 10], [0b1, 0b1001, 0b1101]);
    check.sets_of("(v), sample 1", &job(), SAMPLE_1, [0b1, 0b1]);
    let high = [[15, 0, 0, 5], [14, 10, 1, 15]];
    check.sets_of("(v), the highest nodes", &job_on(16), high, [0x8000, 0xc000]);
}

/// Plans that the judge refuses have fault sets too.
fn refused(check: &mut Check) {
    let sample_4 = [[0, 0, 1, 5], [2, 10, 0, 15]];
    check.judged("(v), refused", &job(), sample_4, Err(Refusal::of_task(COMMON_LOSS, 1)));
    check.sets_of("(v), sample 4", &job(), sample_4, [0b1, 0b101]);
    let unfed = [[0, 0, 1, 5], [2, 0, 1, 9]];
    let refusal = Refusal::of_tasks(PRIMARY_UNFED, 0, 1);
    check.judged("(v), refused before", &job(), unfed, Err(refusal));
    check.sets_of("(v), a primary unfed", &job(), unfed, [0b1, 0b101]);
    check.sets_of("(v), all in one place", &chain(), [[2, 0, 2, 0]; 3], [0b100; 3]);
    // Both backups are before their primaries, and in time.
    let backwards = [[0, 20, 3, 0], [1, 3, 3, 2], [2, 5, 3, 9]];
    check.sets_of("(v), backups first", &chain(), backwards, [0b1, 0b10, 0b100]);
}

/// Sample 5: the backup of task 0 is there at 11, just in time, but for a send time of its node.
fn sent(check: &mut Check) {
    let sample_5 = [[0, 0, 1, 5], [2, 11, 0, 15]];
    let (strong, weak) = ([0b1, 0b100], [0b1, 0b101]);
    check.sets_of("(v), sample 5", &job(), sample_5, strong);
    check.sets_of("(v), sent in 1", &with_send([0, 1, 0]), sample_5, weak);
    check.sets_of("(v), others slow", &with_send([MAX_SEND, 0, MAX_SEND]), sample_5, strong);
    let on_its_node = [[0, 0, 1, 5], [1, 9, 0, 13]];
    check.sets_of("(v), not sent", &with_send([0, MAX_SEND, 0]), on_its_node, [0b1, 0b10]);
}

fn short_buffers(check: &mut Check) {
    let pair = (write_job(&chain()), bytes_of(CHAINED));
    for room in [0, 4, 8, 11] {
        let short = Err(Refusal::at(SHORT_BUFFER, 12));
        check.sets_found(&format!("(v), a buffer of {room}"), &pair, room, short);
    }
    check.sets_found("(v), a buffer of 12", &pair, 12, Ok(vec![0b1, 0b11, 0b111]));
}

/// The job's faults, then the plan's, then 17.
fn misread(check: &mut Check) {
    let (job, plan) = (write_job(&chain()), bytes_of(CHAINED));
    let mut refuse = |sample: &str, job: &[u8], plan: &[u8], room, refusal| {
        let pair = (job.to_vec(), plan.to_vec());
        check.sets_found(&format!("(v), {sample}"), &pair, room, Err(refusal));
    };
    refuse("both cut", &job[..20], &plan[..15], 0, Refusal::at(SHORT, 20));
    refuse("a tail of the job", &[&job[..], &[0]].concat(), &[], 12, Refusal::at(TAIL, 116));
    refuse("no plan", &job, &[], 0, Refusal::at(SHORT, 0));
    refuse("a plan cut", &job, &plan[..55], 12, Refusal::at(SHORT, 52));
    refuse("a plan for two tasks", &job, &bytes_of(SAMPLE_1), 12, Refusal::at(COUNT, 4));
    refuse("a tail of the plan", &job, &[&plan[..], &[0]].concat(), 0, Refusal::at(TAIL, 56));
    let mut lame = chain();
    lame.tasks[2].run[3] = 0;
    refuse("unable", &write_job(&lame), &plan, 12, Refusal::at(UNABLE, 48));
}
