//! Random jobs and plans whose copies crowd on few nodes (request (vii)).

use crate::files::{Job, Link, Node, Place, Plan, Row, Task, GROUP, MAX_TIME, NEWEST, READY, SEND};
use crate::random::Random;

/// A job with two nodes that can run every task, in groups of their own.
pub struct Crowded {
    pub job: Job,
    pub standby: [usize; 2],
}

impl Crowded {
    /// The nodes for primaries, if backups are to share time on a standby: all but that, so that
    /// primaries are in many groups.
    pub fn beside(&self, standby: usize) -> Vec<usize> {
        (0..self.job.nodes.len()).filter(|&node| node != standby).collect()
    }
}

/// On the other nodes, each of which can run some tasks, these take less time: the planner puts
/// primaries there, and backups together on the two.
pub fn crowded_job(random: &mut Random, nodes: usize, tasks: usize) -> Crowded {
    let version = random.between(1, NEWEST);
    let first = random.below(nodes);
    let standby = [first, (first + 1 + random.below(nodes - 1)) % nodes];
    let most = random.pick(&[2, 4, 8]);
    let able = random.pick(&[30, 60, 100]);
    let mut run = |node: usize| match standby.contains(&node) {
        true => random.between(2, 3 * most),
        false if random.percent(able) => random.between(1, 2),
        false => 0,
    };
    let runs: Vec<Vec<u64>> = (0..tasks).map(|_| (0..nodes).map(&mut run).collect()).collect();
    let tasks_made = runs.into_iter().map(|run| random_task(random, version, run)).collect();
    let detect = random.between(0, 2);
    let mut node = |group: u64| random_node(random, version, detect, group, &standby);
    let nodes_made = (0..nodes as u64).map(&mut node).collect();
    let links = random_links(random, tasks);
    Crowded { job: Job { version, nodes: nodes_made, tasks: tasks_made, links }, standby }
}

fn random_task(random: &mut Random, version: u64, run: Vec<u64>) -> Task {
    let waits = READY.is_in(version) && random.percent(20);
    Task { ready: if waits { random.between(1, 6) } else { 0 }, deadline: MAX_TIME, run }
}

/// A detect time that most nodes have in common lets backups start at once. In version 4 nodes that
/// are no standby share a drawer now and then.
fn random_node(
    random: &mut Random,
    version: u64,
    detect: u64,
    number: u64,
    standby: &[usize; 2],
) -> Node {
    let mate = number.saturating_sub(1);
    let alone = |number: u64| standby.contains(&(number as usize));
    let shares = GROUP.is_in(version) && random.percent(30) && !alone(number) && !alone(mate);
    let send = if SEND.is_in(version) { random.between(0, 2) } else { 0 };
    Node {
        detect: if random.percent(80) { detect } else { random.between(0, 3) },
        send,
        group: if shares { mate } else { number },
    }
}

/// None in most jobs, so that few rules stand before rule G.
fn random_links(random: &mut Random, tasks: usize) -> Vec<Link> {
    let linked = random.pick(&[0, 0, 0, 20, 50]);
    let mut links = Vec::new();
    for from in 0..tasks - 1 {
        if random.percent(linked) {
            links.push(Link { from, to: from + 1, delay: random.between(0, 3) });
        }
    }
    links
}

/// All copies on one node: in turn, in any order, with gaps or without; at few starts, many of them
/// equal; or anywhere.
pub fn on_one_node(random: &mut Random, job: &Job, node: usize) -> Plan {
    let tasks = job.tasks.len();
    let mut copies: Vec<usize> = (0..2 * tasks).collect();
    random.shuffle(&mut copies);
    let kind = random.between(0, 2);
    let span = if kind == 1 { random.between(1, 4) } else { 20 * tasks as u64 };
    let gap = random.between(0, 2);
    let (mut starts, mut free) = (vec![0; 2 * tasks], 0);
    for copy in copies {
        let next = free + random.between(0, gap);
        starts[copy] = if kind == 0 { next } else { random.between(0, span) };
        free = next + job.tasks[copy / 2].run[node];
    }
    let place = |start: u64| Place { node, start };
    let rows = starts.chunks(2).map(|two| Row { primary: place(two[0]), backup: place(two[1]) });
    Plan { rows: rows.collect() }
}

/// A plan in which backups are put where others of their node are, or primaries where others are:
/// then backups that shared time may not. Most other rules hold still.
pub fn with_meetings(random: &mut Random, job: &Job, plan: &Plan) -> Plan {
    let mut changed = plan.clone();
    for _ in 0..random.pick(&[1, 1, 2, 3]) {
        let task = random.below(plan.rows.len());
        let met = changed.rows[random.below(plan.rows.len())];
        let able = |node: usize| job.tasks[task].run[node] > 0;
        let row = &mut changed.rows[task];
        if random.percent(60) && able(met.backup.node) {
            let start = row.backup.start.max(met.backup.start) + random.between(0, 2);
            row.backup = Place { node: met.backup.node, start };
        } else if able(met.primary.node) {
            row.primary.node = met.primary.node;
        }
    }
    changed
}
