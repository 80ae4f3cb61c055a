//! Small jobs with plans of a pattern that random ones seldom have (request (ix)): primaries that end
//! one after the other in a drawer, and primaries that share their last tick.

use crate::files::{Job, Link, Node, Place, Plan, Task, GROUP, NEWEST, SEND};
use crate::planner::Draft;
use crate::plans::some_backup;
use crate::random::Random;
use crate::rules::copy;
use crate::sharing::primary_onto;

const NODES: usize = 5;

/// Tasks 0 and 1 have their primaries on two nodes of one drawer; task 2, fed by one of them or by
/// both, has its primary at a time of a backup of theirs. It may go wrong just where one of the two
/// is finished and the other is not, and no copy need start there then.
pub fn in_drawer(random: &mut Random) -> Option<(Job, Plan)> {
    let mut nodes: Vec<usize> = (0..NODES).collect();
    random.shuffle(&mut nodes);
    let mut job = small_job(random, NEWEST, 3);
    job.nodes[nodes[0]].group = job.nodes[nodes[1]].group;
    let senders = random.pick(&[&[0][..], &[1], &[0, 1]]);
    let mut link = |&from: &usize| Link { from, to: 2, delay: random.between(0, 2) };
    job.links = senders.iter().map(&mut link).collect();
    let mut draft = Draft::new(&job);
    for task in 0..2 {
        let place = Place { node: nodes[task], start: random.between(0, 3) };
        draft.place_primary(copy(&job, task, place));
        draft.place_backup(some_backup(random, &draft, &nodes[2..], 80)?);
    }
    let met = random.below(2);
    draft.place_primary(primary_onto(random, &draft, met)?);
    draft.place_backup(some_backup(random, &draft, &nodes, 80)?);
    let plan = draft.plan();
    Some((job, plan))
}

/// All primaries are on one node; the last two of them share one tick, which is the last of both. A
/// loss of the node at that tick takes the shorter one before it starts.
pub fn in_last_tick(random: &mut Random) -> Option<(Job, Plan)> {
    let version = random.between(1, NEWEST);
    let tasks = random.between(2, 4) as usize;
    let node = random.below(NODES);
    let others: Vec<usize> = (0..NODES).filter(|&other| other != node).collect();
    let mut job = small_job(random, version, tasks);
    let (short, long) = random.pick(&[(tasks - 2, tasks - 1), (tasks - 1, tasks - 2)]);
    job.tasks[short].run[node] = 1;
    let mut draft = Draft::new(&job);
    let mut free = 0;
    for task in 0..tasks {
        let start = if task == short { free + job.tasks[long].run[node] - 1 } else { free };
        draft.place_primary(copy(&job, task, Place { node, start }));
        draft.place_backup(some_backup(random, &draft, &others, 80)?);
        if task + 2 < tasks {
            free += job.tasks[task].run[node];
        }
    }
    let plan = draft.plan();
    Some((job, plan))
}

/// Without links, each node its own group.
fn small_job(random: &mut Random, version: u64, tasks: usize) -> Job {
    let mut run = || (0..NODES).map(|_| random.between(1, 6)).collect();
    let runs: Vec<Vec<u64>> = (0..tasks).map(|_| run()).collect();
    let task = |run: Vec<u64>| Task { ready: 0, deadline: 200, run };
    let mut node = |group: u64| Node {
        detect: random.between(0, 1),
        send: if SEND.is_in(version) { random.between(0, 1) } else { 0 },
        group,
    };
    let mut nodes: Vec<Node> = (0..NODES as u64).map(&mut node).collect();
    if GROUP.is_in(version) {
        nodes.iter_mut().for_each(|node| node.group += 3);
    }
    Job { version, nodes, tasks: runs.into_iter().map(task).collect(), links: Vec::new() }
}
