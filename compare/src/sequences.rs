//! Sequences of asks and commits on random jobs. What is held passes after each of them.

use crate::bookings::{write_booking, write_description, NewTask};
use crate::descriptions::{moved_row, random_new_task};
use crate::entries::{try_every_length, try_faulty, try_unpassed};
use crate::files::{Job, Plan, Row};
use crate::given::some_room;
use crate::held::Held;
use crate::jobs::random_job;
use crate::planner;
use crate::plans::passing_plan;
use crate::random::Random;
use crate::trial::{Mismatch, Trial};

/// Longer jobs are left to those that are filled.
const MOST_TASKS: usize = 14;

/// An asked place that was not booked at once.
struct Asked {
    new: NewTask,
    row: Row,
    /// The number of tasks when it was asked for.
    tasks: usize,
}

pub fn sequence(trial: &mut Trial, random: &mut Random) -> Result<(), Mismatch> {
    let Some((job, plan, planned)) = (0..3).find_map(|_| some_pair(random)) else {
        return Ok(());
    };
    let held = Held::new(trial, job, plan, planned)?;
    sequence_on(trial, random, held)
}

/// The same from a pair that passes.
pub fn sequence_on(trial: &mut Trial, random: &mut Random, mut held: Held) -> Result<(), Mismatch> {
    let mut asked = Vec::new();
    for _ in 0..random.between(1, 5) {
        step(trial, random, &mut held, &mut asked)?;
        if random.percent(40) {
            book_later(trial, random, &mut held, &mut asked)?;
        }
    }
    while !asked.is_empty() {
        book_later(trial, random, &mut held, &mut asked)?;
    }
    if random.percent(5) {
        held.outlives(trial, random)?;
    }
    Ok(())
}

/// A job and a plan that passes, and whether it is the planner's.
fn some_pair(random: &mut Random) -> Option<(Job, Plan, bool)> {
    let job = random_job(random);
    if job.tasks.len() > MOST_TASKS {
        return None;
    }
    let planned = random.percent(60);
    let plan = if planned { planner::plan(&job).ok()? } else { passing_plan(random, &job)? };
    Some((job, plan, planned))
}

/// Asks for a place, and tries what may be done with it.
fn step(
    trial: &mut Trial,
    random: &mut Random,
    held: &mut Held,
    asked: &mut Vec<Asked>,
) -> Result<(), Mismatch> {
    let new = random_new_task(random, held.job(), &held.plan);
    let Some(row) = held.places(trial, &new)? else {
        return Ok(());
    };
    try_entries(trial, random, held, &new, row)?;
    held.try_hasty(trial, &new, row)?;
    let moved = moved_row(random, &new.task, row);
    let booked =
        if moved == row { None } else { try_moved(trial, random, held, &new, row, moved)? };
    let put_off = Asked { new, row, tasks: held.tasks() };
    match (random.between(0, 9), booked) {
        (0..=2, _) => asked.push(put_off),
        (3 | 4, Some(longer)) => {
            *held = longer;
            asked.push(put_off);
        }
        _ => book_now(trial, random, held, &put_off)?,
    }
    Ok(())
}

fn book_now(
    trial: &mut Trial,
    random: &mut Random,
    held: &mut Held,
    asked: &Asked,
) -> Result<(), Mismatch> {
    if random.percent(25) {
        try_rooms(trial, random, held, &asked.new, asked.row)?;
    }
    let mut longer = held.book_at_once(trial, &asked.new, asked.row)?;
    if held.planned {
        longer.check_planned(trial)?;
    }
    *held = longer;
    Ok(())
}

/// Buffers that are too short, or not by much, for either file; now and then of every length.
fn try_rooms(
    trial: &mut Trial,
    random: &mut Random,
    held: &Held,
    new: &NewTask,
    row: Row,
) -> Result<(), Mismatch> {
    let booking = write_booking(held.job().version, new, &row);
    let (job, plan) = held.rooms(new);
    let (some_job, some_plan) = (some_room(random, job), some_room(random, plan));
    for rooms in [(some_job, plan), (job, some_plan), (some_job, some_plan)] {
        held.commit(trial, &booking, rooms)?;
    }
    if random.percent(2) && job < 400 {
        let rooms = (0..job + 17).map(|room| (room, plan));
        for rooms in rooms.chain((0..plan + 17).map(|room| (job, room))) {
            held.commit(trial, &booking, rooms)?;
        }
    }
    Ok(())
}

/// Places changed by hand. Answers what is then held, if they were booked.
fn try_moved(
    trial: &mut Trial,
    random: &mut Random,
    held: &Held,
    new: &NewTask,
    row: Row,
    moved: Row,
) -> Result<Option<Held>, Mismatch> {
    if random.percent(10) {
        try_rooms(trial, random, held, new, moved)?;
    }
    let booked = held.book(trial, new, moved)?;
    let nodes = |row: Row| (row.primary.node, row.backup.node);
    trial.tally.moved_booked += u64::from(booked.is_some() && nodes(row) == nodes(moved));
    trial.tally.moved_stale += u64::from(booked.is_none());
    Ok(booked)
}

/// Books a place that was asked for earlier, if it still keeps the rules.
fn book_later(
    trial: &mut Trial,
    random: &mut Random,
    held: &mut Held,
    asked: &mut Vec<Asked>,
) -> Result<(), Mismatch> {
    if asked.is_empty() {
        return Ok(());
    }
    let next = asked.swap_remove(random.below(asked.len()));
    if next.tasks == held.tasks() {
        return book_now(trial, random, held, &next);
    }
    match held.book(trial, &next.new, next.row)? {
        Some(longer) => {
            trial.tally.booked_later += 1;
            *held = longer;
        }
        None => trial.tally.stale_later += 1,
    }
    Ok(())
}

/// Other descriptions, bookings and pairs around what was asked for.
fn try_entries(
    trial: &mut Trial,
    random: &mut Random,
    held: &Held,
    new: &NewTask,
    row: Row,
) -> Result<(), Mismatch> {
    if random.percent(30) {
        try_deadlines(trial, held, new, row)?;
    }
    try_faulty(trial, random, held, new, row)?;
    try_unpassed(trial, random, held, new, row)?;
    if random.percent(2) && write_description(held.job().version, new).len() < 150 {
        try_every_length(trial, held, new, row)?;
    }
    Ok(())
}

/// The deadline set to a finish and to one tick less: there is a place or there is none.
fn try_deadlines(trial: &mut Trial, held: &Held, new: &NewTask, row: Row) -> Result<(), Mismatch> {
    for place in [row.primary, row.backup] {
        let finish = place.start + new.task.run[place.node];
        for deadline in [finish, finish - 1] {
            let mut new = new.clone();
            new.task.deadline = deadline;
            held.places(trial, &new)?;
        }
    }
    Ok(())
}
