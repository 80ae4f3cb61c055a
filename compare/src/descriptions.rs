//! Random descriptions of new tasks, and places moved by hand.

use crate::bookings::{Input, NewTask};
use crate::files::{Job, Place, Plan, Row, Task, MAX_TIME, READY};
use crate::random::Random;

/// A task like those of the job, for a place beside the plan.
pub fn random_new_task(random: &mut Random, job: &Job, plan: &Plan) -> NewTask {
    let like = &job.tasks[random.below(job.tasks.len())].run;
    let run: Vec<u64> = like.iter().map(|_| random.pick(like)).collect();
    let most = run.iter().copied().max().unwrap_or(0);
    let end = last_start(plan) + most;
    let waits = READY.is_in(job.version) && random.percent(50);
    let ready = if waits { random.between(0, end + 2).min(MAX_TIME) } else { 0 };
    let near = random.between(1, ready + end + 3 * most + 2).min(MAX_TIME);
    let deadline = if random.percent(25) { near } else { MAX_TIME };
    let inputs = random_inputs(random, job, 2 * most);
    NewTask { task: Task { ready, deadline, run }, inputs }
}

fn last_start(plan: &Plan) -> u64 {
    plan.rows.iter().map(|row| row.backup.start).max().unwrap_or(0)
}

/// Links from none of the tasks, from some or from all, with delays like those of the job.
fn random_inputs(random: &mut Random, job: &Job, most: u64) -> Vec<Input> {
    let chance = random.pick(&[0, 20, 50, 100]);
    let mut inputs = Vec::new();
    for from in 0..job.tasks.len() {
        if random.percent(chance) {
            let other = random.between(0, most);
            let like = (!job.links.is_empty() && random.percent(70))
                .then(|| job.links[random.below(job.links.len())].delay);
            inputs.push(Input { from, delay: like.unwrap_or(other).min(MAX_TIME) });
        }
    }
    inputs
}

/// A task with no deadline to speak of and so many links, from tasks drawn at random.
pub fn roomy_task(random: &mut Random, job: &Job, links: usize) -> NewTask {
    let run = job.nodes.iter().map(|_| random.between(5, 20)).collect();
    let ready = if READY.is_in(job.version) { random.between(0, 300) } else { 0 };
    let mut senders: Vec<usize> = (0..job.tasks.len()).collect();
    while senders.len() > links {
        senders.remove(random.below(senders.len()));
    }
    let inputs = senders.into_iter().map(|from| Input { from, delay: random.between(0, 20) });
    NewTask { inputs: inputs.collect(), task: Task { ready, deadline: MAX_TIME, run } }
}

/// A row changed by hand: as often as not in time alone, where a later start may keep the rules.
pub fn moved_row(random: &mut Random, task: &Task, row: Row) -> Row {
    let mut moved = row;
    let by = random.between(1, 5);
    match random.between(0, 9) {
        0..=2 => put_off(&mut moved.backup, by),
        3 => put_off(&mut moved.primary, by),
        4 => {
            put_off(&mut moved.primary, by);
            put_off(&mut moved.backup, by);
        }
        5 => moved.primary.start = row.primary.start.saturating_sub(by),
        6 => moved.backup.start = row.backup.start.saturating_sub(by),
        7 => moved.primary.node = able_node(random, task),
        8 => moved.backup.node = able_node(random, task),
        _ => std::mem::swap(&mut moved.primary.node, &mut moved.backup.node),
    }
    moved
}

fn put_off(place: &mut Place, by: u64) {
    place.start = (place.start + by).min(MAX_TIME);
}

fn able_node(random: &mut Random, task: &Task) -> usize {
    let able: Vec<usize> = (0..task.run.len()).filter(|&node| task.run[node] > 0).collect();
    random.pick(&able)
}
