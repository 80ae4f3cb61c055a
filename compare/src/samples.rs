//! The samples of document 01, starred or not, sample 8 as request (i) of document 02 changes it;
//! samples for request (ii), and those for requests (iii) to (xi), which have files of their own.

use crate::asked_samples;
use crate::console::{plan_bytes, replay_bytes, Console};
use crate::files::{write_job, write_plan, Job, Link, Node, Place, Plan, Row, Task, MAX_TIME};
use crate::group_samples;
use crate::log_samples;
use crate::moment_samples;
use crate::order_samples;
use crate::refusal::{
    code_of, describe, Refusal, COMMON_LOSS, COUNT, EARLY, NO_BACKUP, NO_PRIMARY, OVERLAP,
    SAME_NODE, SHORT, TOO_SOON, VALUE, VERSION,
};
use crate::replay::Loss;
use crate::sent_samples;
use crate::sentence_samples;
use crate::sentences::Parts;
use crate::set_samples;
use crate::timed_samples;

/// A plan's row as the samples write it: primary node, start; backup node, start.
pub type Listed = [u64; 4];

/// What replay writes for a task: primary, backup, finish.
pub type Written = [u32; 3];

pub const SAMPLE_1: [Listed; 2] = [[0, 0, 1, 5], [0, 4, 1, 9]];

/// Nodes with one detect time and a send time each; each is its own group.
pub fn nodes_of(detect: u64, send: impl IntoIterator<Item = u64>) -> Vec<Node> {
    let nodes = (0..).zip(send);
    nodes.map(|(group, send)| Node { detect, send, group }).collect()
}

/// The samples' job J, on a number of nodes.
pub fn job_on(nodes: usize) -> Job {
    let task = |run: u64| Task { ready: 0, deadline: 30, run: vec![run; nodes] };
    Job {
        version: 1,
        nodes: nodes_of(1, vec![0; nodes]),
        tasks: vec![task(4), task(3)],
        links: vec![Link { from: 0, to: 1, delay: 2 }],
    }
}

pub fn job() -> Job {
    job_on(3)
}

pub fn without_link() -> Job {
    Job { links: vec![], ..job() }
}

pub fn with_delay(delay: u64) -> Job {
    Job { links: vec![Link { from: 0, to: 1, delay }], ..job() }
}

pub fn with_deadline(deadline: u64) -> Job {
    let mut job = job();
    job.tasks[1].deadline = deadline;
    job
}

/// J in version 2, with a ready time for each task.
pub fn with_ready(first: u64, second: u64) -> Job {
    let mut job = Job { version: 2, ..job() };
    job.tasks[0].ready = first;
    job.tasks[1].ready = second;
    job
}

/// J in version 3, with a send time for each node.
pub fn with_send(send: [u64; 3]) -> Job {
    Job { version: 3, nodes: nodes_of(1, send), ..job() }
}

/// J in version 4, with a supply group for each node.
pub fn with_groups(groups: [u64; 3]) -> Job {
    let nodes = groups.map(|group| Node { detect: 1, send: 0, group }).to_vec();
    Job { version: 4, nodes, ..job() }
}

pub fn plan_of<const N: usize>(rows: [Listed; N]) -> Plan {
    let place = |node: u64, start: u64| Place { node: node as usize, start };
    let rows = rows.map(|r| Row { primary: place(r[0], r[1]), backup: place(r[2], r[3]) });
    Plan { rows: rows.to_vec() }
}

pub fn bytes_of<const N: usize>(rows: [Listed; N]) -> Vec<u8> {
    write_plan(&plan_of(rows))
}

/// The console that the samples are put to, and what differs so far.
pub struct Check<'a> {
    pub console: &'a Console,
    faults: Vec<String>,
    count: usize,
}

/// Buffers are longer than asked for, and begin as this.
pub const FILL: u8 = 0xa5;
pub const SPARE: usize = 8;

impl Check<'_> {
    pub fn expect(&mut self, sample: &str, got: u64, expected: Result<(), Refusal>) {
        self.expect_code(sample, got, code_of(expected));
    }

    pub fn expect_code(&mut self, sample: &str, got: u64, expected: u64) {
        self.count += 1;
        if got != expected {
            let (got, expected) = (describe(got), describe(expected));
            self.faults.push(format!("sample {sample}: answered {got}, expected {expected}"));
        }
    }

    pub fn expect_bytes(&mut self, sample: &str, got: &[u8], expected: Option<Vec<u8>>) {
        let mut expected = expected.unwrap_or_default();
        expected.resize(got.len(), FILL);
        if got != expected {
            self.faults.push(format!("sample {sample}: wrote {got:?}, expected {expected:?}"));
        }
    }

    pub fn expect_parts(&mut self, sample: &str, got: Parts, expected: Parts) {
        if got != expected {
            self.faults.push(format!("sample {sample}: read {got:?}, expected {expected:?}"));
        }
    }

    pub fn judged<const N: usize>(
        &mut self,
        sample: &str,
        job: &Job,
        rows: [Listed; N],
        expected: Result<(), Refusal>,
    ) {
        let got = (self.console.judge)(&write_job(job), &bytes_of(rows));
        self.expect(sample, got, expected);
    }

    pub fn planned(&mut self, sample: &str, job: &Job, expected: Result<[Listed; 2], Refusal>) {
        self.file_planned(sample, &write_job(job), expected);
    }

    pub fn file_planned(
        &mut self,
        sample: &str,
        job: &[u8],
        expected: Result<[Listed; 2], Refusal>,
    ) {
        let mut out = vec![FILL; plan_bytes(2) + SPARE];
        let got = (self.console.plan)(job, &mut out);
        self.expect(sample, got, expected.map(|_| ()));
        self.expect_bytes(sample, &out, expected.ok().map(bytes_of));
    }

    /// Sample 1 on a job, replayed.
    pub fn replayed(
        &mut self,
        sample: &str,
        job: &Job,
        loss: Option<Loss>,
        expected: [Written; 2],
    ) {
        self.plan_replayed(sample, job, SAMPLE_1, loss, expected);
    }

    pub fn plan_replayed<const N: usize>(
        &mut self,
        sample: &str,
        job: &Job,
        rows: [Listed; N],
        loss: Option<Loss>,
        expected: [Written; N],
    ) {
        let mut out = vec![FILL; replay_bytes(N) + SPARE];
        let got = (self.console.replay)(&write_job(job), &bytes_of(rows), loss, &mut out);
        self.expect(sample, got, Ok(()));
        let numbers = expected.iter().flatten().flat_map(|number| number.to_le_bytes());
        self.expect_bytes(sample, &out, Some(numbers.collect()));
    }

    pub fn unread(&mut self, sample: &str, file: &[u8], refusal: Refusal) {
        let mut out = vec![FILL; plan_bytes(2) + SPARE];
        let plan = bytes_of(SAMPLE_1);
        let results = [
            (self.console.judge)(file, &plan),
            (self.console.plan)(file, &mut out),
            (self.console.replay)(file, &plan, None, &mut out),
            (self.console.replay)(file, &plan, lost(3), &mut out),
            (self.console.replay_times)(file, &plan, None, &[], &mut out),
            (self.console.replay_times)(file, &plan, lost(3), &[], &mut out),
            (self.console.fault_sets)(file, &plan, &mut out),
            (self.console.trial)(file, &plan),
            (self.console.run_times)(file, &[], &mut out),
            (self.console.renew_job)(file, &[], &mut out),
        ];
        for got in results {
            self.expect(sample, got, Err(refusal));
        }
        self.expect_bytes(sample, &out, None);
    }
}

/// Runs all samples. Answers how many results were looked at, and what differs.
pub fn run(console: &Console) -> (usize, Vec<String>) {
    let mut check = Check { console, faults: Vec::new(), count: 0 };
    planner_samples(&mut check);
    replay_samples(&mut check);
    judge_samples(&mut check);
    reader_samples(&mut check);
    ready_planned(&mut check);
    ready_judged(&mut check);
    ready_replayed(&mut check);
    ready_unread(&mut check);
    asked_samples::run(&mut check);
    sent_samples::run(&mut check);
    set_samples::run(&mut check);
    group_samples::run(&mut check);
    order_samples::run(&mut check);
    timed_samples::run(&mut check);
    moment_samples::run(&mut check);
    log_samples::run(&mut check);
    sentence_samples::run(&mut check);
    (check.count, check.faults)
}

fn planner_samples(check: &mut Check) {
    check.planned("1", &job(), Ok(SAMPLE_1));
    check.judged("1, judged", &job(), SAMPLE_1, Ok(()));
    check.planned("9, deadline 12", &with_deadline(12), Ok(SAMPLE_1));
    check.planned("9, deadline 11", &with_deadline(11), Err(Refusal::of_task(NO_BACKUP, 1)));
    check.planned("10", &without_link(), Ok([[0, 0, 1, 5], [1, 0, 0, 4]]));
}

/// Group 0 is lost; in older versions that is node 0.
pub fn lost(moment: u32) -> Option<Loss> {
    Some(Loss { group: 0, moment })
}

fn replay_samples(check: &mut Check) {
    check.replayed("2", &job(), lost(3), [[1, 2, 9], [0, 2, 12]]);
    check.replayed("3, lost at 4", &job(), lost(4), [[2, 0, 4], [0, 2, 12]]);
    check.replayed("3, lost at 5", &job(), lost(5), [[2, 0, 4], [1, 2, 12]]);
    check.replayed("3, no loss", &job(), None, [[2, 0, 4], [2, 0, 7]]);
}

fn judge_samples(check: &mut Check) {
    let (plain, free) = (job(), without_link());
    let common_loss = Err(Refusal::of_task(COMMON_LOSS, 1));
    check.judged("4", &plain, [[0, 0, 1, 5], [2, 10, 0, 15]], common_loss);
    check.judged("5", &plain, [[0, 0, 1, 5], [2, 11, 0, 15]], Ok(()));
    check.judged("6", &free, [[0, 0, 2, 5], [1, 0, 2, 4]], Ok(()));
    let overlap = Err(Refusal::of_tasks(OVERLAP, 0, 1));
    check.judged("7", &free, [[0, 0, 2, 8], [0, 4, 2, 8]], overlap);
    check.judged("7, backups at 5 and 9", &free, [[0, 0, 2, 5], [0, 4, 2, 9]], Ok(()));
    check.judged("8", &with_delay(6), [[0, 0, 1, 5], [1, 10, 0, 14]], Ok(()));
}

fn reader_samples(check: &mut Check) {
    for nodes in [1, 17] {
        check.unread(
            &format!("11, P = {nodes}"),
            &write_job(&job_on(nodes)),
            Refusal::at(COUNT, 4),
        );
    }
    for nodes in [2, 16] {
        check.planned(&format!("11, P = {nodes}"), &job_on(nodes), Ok(SAMPLE_1));
    }
    check.unread("11, empty file", &[], Refusal::at(SHORT, 0));
}

fn ready_planned(check: &mut Check) {
    check.planned("(ii), all ready at 0", &with_ready(0, 0), Ok(SAMPLE_1));
    check.planned("(ii), task 1 ready at 4", &with_ready(0, 4), Ok(SAMPLE_1));
    check.planned("(ii), task 1 ready at 5", &with_ready(0, 5), Ok([[0, 0, 1, 5], [0, 5, 1, 9]]));
    check.planned("(ii), task 1 ready at 6", &with_ready(0, 6), Ok([[0, 0, 1, 5], [0, 6, 1, 10]]));
    check.planned("(ii), task 0 ready at 2", &with_ready(2, 0), Ok([[0, 2, 1, 7], [0, 6, 1, 11]]));
    // Deadline 30: the primary may start at 27, the backup then no more; at 28 neither.
    check.planned("(ii), at 27", &with_ready(0, 27), Err(Refusal::of_task(NO_BACKUP, 1)));
    check.planned("(ii), at 28", &with_ready(0, 28), Err(Refusal::of_task(NO_PRIMARY, 1)));
    let never = with_ready(MAX_TIME, 0);
    check.planned("(ii), at 1,000,000", &never, Err(Refusal::of_task(NO_PRIMARY, 0)));
}

fn ready_judged(check: &mut Check) {
    let too_soon = |task: usize| Err(Refusal::of_task(TOO_SOON, task));
    check.judged("(ii), just ready", &with_ready(0, 4), SAMPLE_1, Ok(()));
    check.judged("(ii), one tick early", &with_ready(0, 5), SAMPLE_1, too_soon(1));
    check.judged("(ii), both early", &with_ready(1, 5), SAMPLE_1, too_soon(0));
    check.judged("(ii), the backup early too", &with_ready(0, 20), SAMPLE_1, too_soon(1));
    let same_node = Err(Refusal::of_task(SAME_NODE, 1));
    check.judged("(ii), after 8", &with_ready(1, 0), [[0, 0, 1, 5], [0, 4, 0, 9]], same_node);
    let early = [[0, 0, 1, 4], [0, 4, 1, 9]];
    check.judged("(ii), before 9", &with_ready(0, 5), early, too_soon(1));
    check.judged("(ii), then 9", &with_ready(0, 4), early, Err(Refusal::of_task(EARLY, 0)));
    let backup_early = [[0, 0, 1, 5], [0, 5, 2, 4]];
    let is_early = Err(Refusal::of_task(EARLY, 1));
    check.judged("(ii), only the backup early", &with_ready(0, 5), backup_early, is_early);
}

fn ready_replayed(check: &mut Check) {
    check.replayed("(ii), just ready", &with_ready(0, 4), None, [[2, 0, 4], [2, 0, 7]]);
    check.replayed("(ii), held back", &with_ready(0, 5), None, [[2, 0, 4], [0, 2, 12]]);
    // The backups start at 5 and 9, before their ready times.
    check.replayed("(ii), backups early", &with_ready(6, 20), None, [[0, 2, 9], [0, 2, 12]]);
    check.replayed("(ii), lost at 5", &with_ready(0, 20), lost(5), [[2, 0, 4], [0, 2, 12]]);
}

/// What the reader refuses: other versions, a ready time beyond its limit, a plan in version 2.
fn ready_unread(check: &mut Check) {
    for version in [0, 5] {
        let file = write_job(&Job { version, ..with_ready(0, 0) });
        check.unread(&format!("(ii), version {version}"), &file, Refusal::at(VERSION, 0));
    }
    let beyond = write_job(&with_ready(MAX_TIME + 1, 0));
    check.unread("(ii), ready at 1,000,001", &beyond, Refusal::at(VALUE, 24));
    let mut plan = bytes_of(SAMPLE_1);
    plan[0] = 2;
    let got = (check.console.judge)(&write_job(&with_ready(0, 0)), &plan);
    check.expect("(ii), a plan in version 2", got, Err(Refusal::at(VERSION, 0)));
}
