//! Sequences that go on until a job is full: of tasks, or of links.

use crate::bookings::{write_booking, write_description, NewTask};
use crate::descriptions::{moved_row, roomy_task};
use crate::entries::try_faulty;
use crate::files::{Place, Row, LINKS, NEWEST, TASKS};
use crate::held::Held;
use crate::planner;
use crate::random::Random;
use crate::refusal::{Refusal, FULL};
use crate::sized::sized_job;
use crate::trial::{Mismatch, Trial};

/// A new task may find no place; so many are asked for at most.
const MOST_ASKED: usize = 200;

/// From some tasks to 64. A third of the jobs begin with a few.
pub fn fill_tasks(trial: &mut Trial, random: &mut Random) -> Result<(), Mismatch> {
    let least = random.pick(&[1, 30, 50]);
    let tasks = least + random.below(14);
    let Some(mut held) = some_held(trial, random, tasks, tasks)? else {
        return Ok(());
    };
    for _ in 0..MOST_ASKED {
        if held.tasks() == TASKS.1 as usize {
            break;
        }
        let links = random.below(4);
        book_next(trial, random, &mut held, links, 10)?;
    }
    if held.tasks() == TASKS.1 as usize {
        expect_full(trial, random, &held, 0)?;
        expect_full(trial, random, &held, 3)?;
        trial.tally.full_of_tasks += 1;
    }
    held.outlives(trial, random)
}

/// From a job in which most pairs of tasks are linked to one with 512 links.
pub fn fill_links(trial: &mut Trial, random: &mut Random) -> Result<(), Mismatch> {
    let tasks = random.between(26, 32) as usize;
    let links = tasks * (tasks - 1) / 2 - random.below(9);
    let Some(mut held) = some_held(trial, random, tasks, links)? else {
        return Ok(());
    };
    for _ in 0..MOST_ASKED {
        let left = LINKS.1 as usize - held.job().links.len();
        if left == 0 || held.tasks() == TASKS.1 as usize {
            break;
        }
        if left < held.tasks() {
            expect_full(trial, random, &held, left + 1)?;
        }
        let links = left.min(held.tasks());
        book_next(trial, random, &mut held, links, 30)?;
    }
    if held.job().links.len() == LINKS.1 as usize && held.tasks() < TASKS.1 as usize {
        expect_full(trial, random, &held, 1)?;
        book_next(trial, random, &mut held, 0, 100)?;
        trial.tally.full_of_links += 1;
    }
    held.outlives(trial, random)
}

/// A planned job of that size, none if three are not planned.
fn some_held(
    trial: &mut Trial,
    random: &mut Random,
    tasks: usize,
    links: usize,
) -> Result<Option<Held>, Mismatch> {
    for _ in 0..3 {
        let version = random.between(1, NEWEST);
        let nodes = random.between(6, 16) as usize;
        let job = sized_job(random, version, nodes, tasks, links);
        if let Ok(plan) = planner::plan(&job) {
            return Held::new(trial, job, plan, true).map(Some);
        }
    }
    Ok(None)
}

/// Asks for a new task with so many links and books it, if there is a place. The planner is asked
/// for the longer job in some cases of a hundred.
fn book_next(
    trial: &mut Trial,
    random: &mut Random,
    held: &mut Held,
    links: usize,
    planner_asked: u64,
) -> Result<(), Mismatch> {
    let new = roomy_task(random, held.job(), links);
    let Some(row) = held.places(trial, &new)? else {
        return Ok(());
    };
    held.try_hasty(trial, &new, row)?;
    if random.percent(20) {
        // Beside so many copies, another place is mostly taken. What comes of it is not held.
        held.book(trial, &new, moved_row(random, &new.task, row))?;
    }
    let mut longer = held.book_at_once(trial, &new, row)?;
    longer.planned = true;
    if random.percent(planner_asked) {
        longer.check_planned(trial)?;
    }
    *held = longer;
    Ok(())
}

/// Neither asked for nor booked, wherever; but first comes what is wrong with the description.
fn expect_full(
    trial: &mut Trial,
    random: &mut Random,
    held: &Held,
    links: usize,
) -> Result<(), Mismatch> {
    let new: NewTask = roomy_task(random, held.job(), links);
    let version = held.job().version;
    let place = |node: usize| Place { node, start: 0 };
    let row = Row { primary: place(random.below(2)), backup: place(random.below(2)) };
    let (task, booking) = (write_description(version, &new), write_booking(version, &new, &row));
    let full = Refusal::at(FULL, held.tasks() as u64).code();
    if held.ask(trial, &task)? != full {
        let call = held.given.ask(&held.plan_bytes, &task);
        return Err(Mismatch::new(&call, "not refused as full".into()));
    }
    if held.commit(trial, &booking, (0, 0))? != full {
        let call = held.given.commit(&held.plan_bytes, &booking, (0, 0));
        return Err(Mismatch::new(&call, "not refused as full".into()));
    }
    (0..3).try_for_each(|_| try_faulty(trial, random, held, &new, row))
}
