//! Jobs of a given size that are planned, for the benchmark and the stack; and a task more to ask
//! for.

use crate::bookings::write_description;
use crate::console::plan_bytes;
use crate::descriptions::roomy_task;
use crate::files::{
    read_job, read_plan, write_job, write_plan, Job, Link, Node, Place, Plan, Row, Task, GROUP,
    MAX_TIME, READY, SEND, TASKS,
};
use crate::foreign::PLAIN;
use crate::logs::{write_log, Record};
use crate::random::Random;
use crate::replay::Loss;
use crate::time_lists::random_times;
use crate::times::{listed_times, write_times};

/// Ready times go up to this, so that they hold back some primaries of a large job and not others.
const MOST_READY: u64 = 300;

/// Send times go up to this, half of the longest delay.
const MOST_SEND: u64 = 10;

pub struct PlannedJob {
    pub nodes: usize,
    pub tasks: usize,
    pub links: usize,
    pub job: Vec<u8>,
    /// The planner's plan, or one by hand.
    pub plan: Vec<u8>,
    pub loss: Loss,
    /// A list of actual times at random.
    pub times: Vec<u8>,
    /// A log at random.
    pub log: Vec<u8>,
}

/// The records of a job's log.
const RECORDS: usize = 1_000;

/// The first random job of that version and size that is planned.
pub fn planned(version: u64, nodes: usize, tasks: usize, links: usize) -> PlannedJob {
    let mut plan = vec![0; plan_bytes(tasks)];
    let planned = (0..1000).find_map(|seed| {
        let job = sized_job(&mut Random::new(seed), version, nodes, tasks, links);
        let bytes = write_job(&job);
        ((PLAIN.plan)(&bytes, &mut plan) == 0).then_some((job, bytes))
    });
    let (listed, job) = planned.expect("such jobs are planned more often than not");
    assert_eq!((PLAIN.judge)(&job, &plan), 0);
    let loss = loss_of_first(&listed, &plan);
    let times = some_times(&listed, &plan);
    let log = Kind::AnyCell.log(nodes, tasks, RECORDS);
    PlannedJob { nodes, tasks, links, job, plan, loss, times, log }
}

/// The group of task 0's primary, lost while that runs: mostly much has to be caught up with.
fn loss_of_first(job: &Job, plan: &[u8]) -> Loss {
    let number = |at: usize| u32::from_le_bytes([0, 1, 2, 3].map(|byte| plan[at + byte]));
    let group = job.nodes[number(8) as usize].group as u32;
    Loss { group, moment: number(12) + 3 }
}

/// Each copy takes anything from 1 to its listed time, the same for a plan in every run.
fn some_times(job: &Job, plan: &[u8]) -> Vec<u8> {
    let plan = read_plan(job, plan).expect("it was planned, or written for the job");
    write_times(&random_times(&mut Random::new(0), &listed_times(job, &plan)))
}

/// A job of 64 tasks on two nodes, without links, and a plan by hand: all primaries on one node and
/// all backups on one, which may be the same. No two overlap. The last task comes first, so that in
/// order of time each copy goes before those of lower tasks.
pub fn crowded_on(primaries: usize, backups: usize) -> PlannedJob {
    let (nodes, tasks, links) = (2, TASKS.1 as usize, 0);
    let listed = sized_job(&mut Random::new(0), 1, nodes, tasks, links);
    let mut places = [Vec::new(), Vec::new()];
    let mut start = 0;
    for (node, places) in [primaries, backups].into_iter().zip(&mut places) {
        for task in listed.tasks.iter().rev() {
            places.insert(0, Place { node, start });
            start += task.run[node];
        }
        start += listed.nodes[node].detect;
    }
    let [primaries, backups] = places;
    let rows = primaries.into_iter().zip(backups);
    let rows = rows.map(|(primary, backup)| Row { primary, backup }).collect();
    let plan = write_plan(&Plan { rows });
    let (loss, times) = (loss_of_first(&listed, &plan), some_times(&listed, &plan));
    let log = Kind::AnyCell.log(nodes, tasks, RECORDS);
    PlannedJob { nodes, tasks, links, job: write_job(&listed), plan, loss, times, log }
}

/// What a log is about.
#[derive(Clone, Copy)]
pub enum Kind {
    /// Any task on any node, any ticks.
    AnyCell,
    /// One task on one node, each time a tick less, or a tick more.
    Falling,
    Rising,
    /// One task on eight nodes, any ticks.
    EightCells,
}

impl Kind {
    /// The same log in every run. All nodes can run all tasks.
    pub fn log(self, nodes: usize, tasks: usize, records: usize) -> Vec<u8> {
        let random = &mut Random::new(0);
        let mut record = |at: usize| {
            let ticks = random.between(1, MAX_TIME);
            let (task, node) = (random.below(tasks), random.below(nodes));
            match self {
                Kind::AnyCell => Record { task, node, ticks },
                Kind::Falling => Record { task: 0, node: 0, ticks: (records - at) as u64 },
                Kind::Rising => Record { task: 0, node: 0, ticks: at as u64 + 1 },
                Kind::EightCells => Record { task: 0, node: node % 8, ticks },
            }
        };
        write_log(&(0..records).map(&mut record).collect::<Vec<_>>())
    }
}

/// A planned job, and a task to ask for and to book beside its plan.
pub struct AskedJob {
    pub held: PlannedJob,
    pub task: Vec<u8>,
    pub booking: Vec<u8>,
    /// The bytes of the longer job and of the longer plan.
    pub rooms: (usize, usize),
}

/// The new task has as many links as a task of the job has on average. With 64 tasks there would be
/// no room for it: there the job has a task and those links fewer, and the longer job the size.
pub fn asked(version: u64, nodes: usize, tasks: usize, links: usize) -> AskedJob {
    let added = links / tasks;
    let is_full = tasks == TASKS.1 as usize;
    let held = if is_full {
        planned(version, nodes, tasks - 1, links - added)
    } else {
        planned(version, nodes, tasks, links)
    };
    let job = read_job(&held.job).expect("a planned job reads well");
    let mut places = [0; 4];
    let placed = (0..1000).find_map(|seed| {
        let task = write_description(version, &roomy_task(&mut Random::new(seed), &job, added));
        ((PLAIN.ask)(&held.job, &held.plan, &task, &mut places) == 0).then_some(task)
    });
    let task = placed.expect("such tasks have a place more often than not");
    let booking = [&task[..], &places.map(u32::to_le_bytes).concat()].concat();
    // The link count is in the job already, and a link there has a number more.
    let rooms = (held.job.len() + task.len() - 4 + 4 * added, held.plan.len() + 16);
    AskedJob { held, task, booking, rooms }
}

/// A random job of that version and size.
pub fn sized_job(
    random: &mut Random,
    version: u64,
    nodes: usize,
    tasks: usize,
    links: usize,
) -> Job {
    let mut task = || {
        let run = (0..nodes).map(|_| random.between(5, 20)).collect();
        Task { ready: 0, deadline: MAX_TIME, run }
    };
    let tasks_made = (0..tasks).map(|_| task()).collect();
    let mut node = |group: u64| Node { detect: random.between(1, 5), send: 0, group };
    let mut job = Job {
        version,
        nodes: (0..nodes as u64).map(&mut node).collect(),
        tasks: tasks_made,
        links: sized_links(random, tasks, links),
    };
    set_newer(random, &mut job);
    job
}

/// What newer versions have is drawn last, so that the rest of a job is the same in all of them.
/// In a drawer there are two nodes.
fn set_newer(random: &mut Random, job: &mut Job) {
    if READY.is_in(job.version) {
        job.tasks.iter_mut().for_each(|task| task.ready = random.between(1, MOST_READY));
    }
    if SEND.is_in(job.version) {
        job.nodes.iter_mut().for_each(|node| node.send = random.between(1, MOST_SEND));
    }
    if GROUP.is_in(job.version) {
        job.nodes.iter_mut().for_each(|node| node.group /= 2);
    }
}

fn sized_links(random: &mut Random, tasks: usize, count: usize) -> Vec<Link> {
    let pairs = (0..tasks).flat_map(|from| (from + 1..tasks).map(move |to| (from, to)));
    let mut pairs: Vec<(usize, usize)> = pairs.collect();
    while pairs.len() > count {
        pairs.remove(random.below(pairs.len()));
    }
    let mut link = |(from, to)| Link { from, to, delay: random.between(0, 20) };
    pairs.into_iter().map(&mut link).collect()
}
