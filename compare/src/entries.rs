//! Damaged descriptions and bookings, jobs and plans, put to ask and commit.

use crate::bookings::{write_booking, write_description, NewTask};
use crate::damage::{at_limit, cut_in_nodes, damaged, disordered, renumbered, Newer};
use crate::faulty::faulty;
use crate::files::{write_plan, Row};
use crate::held::Held;
use crate::plans::changed_plan;
use crate::random::Random;
use crate::trial::{Call, Function, Mismatch, Trial};

/// Faults of the description and the booking, with room for all that may be written.
pub fn try_faulty(
    trial: &mut Trial,
    random: &mut Random,
    held: &Held,
    new: &NewTask,
    row: Row,
) -> Result<(), Mismatch> {
    let (job, plan) = held.rooms(new);
    for _ in 0..3 {
        held.ask(trial, &faulty(random, held.job(), new, None))?;
        let booking = faulty(random, held.job(), new, Some(&row));
        held.commit(trial, &booking, (job + 100, plan))?;
    }
    Ok(())
}

/// Cut at every length, and with a tail.
pub fn try_every_length(
    trial: &mut Trial,
    held: &Held,
    new: &NewTask,
    row: Row,
) -> Result<(), Mismatch> {
    let version = held.job().version;
    let longest = |bytes: Vec<u8>| [bytes, vec![0; 9]].concat();
    let description = longest(write_description(version, new));
    let booking = longest(write_booking(version, new, &row));
    for length in 0..=description.len() {
        held.ask(trial, &description[..length])?;
    }
    for length in 0..=booking.len() {
        held.commit(trial, &booking[..length], held.rooms(new))?;
    }
    Ok(())
}

/// Pairs that do not read well or do not pass, most of them, with a good description and booking
/// or with faulty ones, which come second.
pub fn try_unpassed(
    trial: &mut Trial,
    random: &mut Random,
    held: &Held,
    new: &NewTask,
    row: Row,
) -> Result<(), Mismatch> {
    let (given, plan) = (&held.given, &held.plan_bytes);
    let (mut task, mut booking) =
        (write_description(given.job.version, new), write_booking(given.job.version, new, &row));
    if random.percent(30) {
        task = faulty(random, &given.job, new, None);
        booking = faulty(random, &given.job, new, Some(&row));
    }
    for _ in 0..3 {
        let changed = write_plan(&changed_plan(random, &given.job, &held.plan));
        try_both(trial, &given.bytes, &changed, &task, &booking)?;
    }
    let bad_job = match random.between(0, 8) {
        0 => disordered(random, &given.job),
        1 => at_limit(random, &given.job, Newer::Ready),
        2 => at_limit(random, &given.job, Newer::Send),
        3 => at_limit(random, &given.job, Newer::Group),
        4 => Some(cut_in_nodes(random, &given.job)),
        5 => Some(renumbered(random, &given.job)),
        _ => Some(damaged(random, &given.bytes)),
    };
    if let Some(job) = bad_job {
        try_both(trial, &job, plan, &task, &booking)?;
    }
    try_both(trial, &given.bytes, &damaged(random, plan), &task, &booking)
}

/// Ask and commit on any two files.
pub fn try_both(
    trial: &mut Trial,
    job: &[u8],
    plan: &[u8],
    task: &[u8],
    booking: &[u8],
) -> Result<(), Mismatch> {
    let room = job.len() + booking.len() + 100;
    trial.compare(&Call { function: Function::Ask(task), job, plan, room: 0 })?;
    let function = Function::Commit(booking, plan.len() + 20);
    trial.compare(&Call { function, job, plan, room })?;
    Ok(())
}

/// All comparisons on given files, as written after a mismatch, the third read as a description
/// and as a booking.
pub fn entry(trial: &mut Trial, job: &[u8], plan: &[u8], entry: &[u8]) -> Result<(), Mismatch> {
    trial.compare(&Call { function: Function::Ask(entry), job, plan, room: 0 })?;
    let most = job.len() + 2 * entry.len();
    let most_plan = plan.len() + 32;
    let mut commit = |room: usize, plan_room: usize| {
        let function = Function::Commit(entry, plan_room);
        trial.compare(&Call { function, job, plan, room }).map(|_| ())
    };
    for room in (0..9).chain(job.len()..=most) {
        commit(room, most_plan)?;
    }
    (0..=most_plan).try_for_each(|plan_room| commit(most, plan_room))
}
