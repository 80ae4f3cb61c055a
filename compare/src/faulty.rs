//! Descriptions and bookings with a fault, or with a number at its limit.

use crate::bookings::{count_offset, write_booking, write_description, Input, NewTask};
use crate::damage::damaged;
use crate::files::{Job, Place, Row, LINKS, MAX_TIME};
use crate::random::Random;

/// The bytes of a description, or of a booking if there is a row.
pub fn written(version: u64, new: &NewTask, row: Option<&Row>) -> Vec<u8> {
    row.map_or_else(|| write_description(version, new), |row| write_booking(version, new, row))
}

/// A description or booking with one fault or a few, or by chance with none.
pub fn faulty(random: &mut Random, job: &Job, new: &NewTask, row: Option<&Row>) -> Vec<u8> {
    match random.between(0, 9) {
        0..=2 => damaged(random, &written(job.version, new, row)),
        3 => miscounted(random, job, new, row),
        4 => written(job.version, &with_many_links(random, job, new), row),
        5 => written(job.version, &disordered(random, new), row),
        6 | 7 if row.is_some() => {
            let row = row.map(|row| at_limit_of_row(random, new, *row));
            written(job.version, new, row.as_ref())
        }
        _ => written(job.version, &at_limit(random, job, new), row),
    }
}

/// A link count that is not that of the links behind it.
fn miscounted(random: &mut Random, job: &Job, new: &NewTask, row: Option<&Row>) -> Vec<u8> {
    let (count, tasks) = (new.inputs.len() as u32, job.tasks.len() as u32);
    let wrong = [count + 1, count.wrapping_sub(1), tasks + 1, 512, 513, u32::MAX];
    let at = count_offset(job.version, new);
    let mut bytes = written(job.version, new, row);
    bytes[at..at + 4].copy_from_slice(&random.pick(&wrong).to_le_bytes());
    bytes
}

/// More links than the job has tasks, which is no fault of the count, up to one beyond its limit.
/// All are sound at first; what is left over is from the last task again, or from none.
fn with_many_links(random: &mut Random, job: &Job, new: &NewTask) -> NewTask {
    let tasks = job.tasks.len();
    let most = LINKS.1 as usize;
    let count = random.pick(&[tasks + 1, tasks + 2, most, most + 1]);
    let rest = random.pick(&[0, tasks - 1, tasks]);
    let from = |at: usize| if at < tasks { at } else { rest };
    let inputs = (0..count).map(|at| Input { from: from(at), delay: 1 }).collect();
    NewTask { inputs, task: new.task.clone() }
}

/// Links that are sound one by one but do not rise, if there are two of them.
fn disordered(random: &mut Random, new: &NewTask) -> NewTask {
    let mut new = new.clone();
    if new.inputs.len() >= 2 {
        let at = random.below(new.inputs.len() - 1);
        if random.percent(50) {
            new.inputs.swap(at, at + 1);
        } else {
            new.inputs[at + 1].from = new.inputs[at].from;
        }
    }
    new
}

/// A number of the description at its limit or one beyond.
fn at_limit(random: &mut Random, job: &Job, new: &NewTask) -> NewTask {
    let mut new = new.clone();
    let greatest = random.pick(&[MAX_TIME, MAX_TIME + 1]);
    let (tasks, node) = (job.tasks.len(), random.below(job.nodes.len()));
    let place = random.between(0, 4);
    let at = random.below(new.inputs.len().max(1));
    match (place, new.inputs.get_mut(at)) {
        (0, Some(input)) => input.delay = greatest,
        (1, Some(input)) => input.from = random.pick(&[tasks - 1, tasks, u32::MAX as usize]),
        (2, _) => new.task.ready = greatest,
        (3, _) => new.task.deadline = random.pick(&[0, 1, greatest]),
        _ => new.task.run[node] = random.pick(&[0, greatest]),
    }
    new
}

/// One of the four numbers at its limit or one beyond, or a node that cannot run the task.
fn at_limit_of_row(random: &mut Random, new: &NewTask, row: Row) -> Row {
    let nodes = new.task.run.len();
    let unable = new.task.run.iter().position(|&run| run == 0).unwrap_or(nodes);
    let mut row = row;
    let place: &mut Place = if random.percent(50) { &mut row.primary } else { &mut row.backup };
    if random.percent(50) {
        place.node = random.pick(&[nodes - 1, nodes, unable, unable, u32::MAX as usize]);
    } else {
        place.start = random.pick(&[0, MAX_TIME, MAX_TIME + 1, u64::from(u32::MAX)]);
    }
    row
}
