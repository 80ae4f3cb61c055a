//! Rounds with copies that crowd on few nodes: small jobs with backups that share time, and jobs of
//! up to 64 tasks with all copies on one node or on two.

use crate::bookings::{write_booking, write_description};
use crate::crowded::{crowded_job, on_one_node, with_meetings, Crowded};
use crate::descriptions::random_new_task;
use crate::entries::try_both;
use crate::files::{write_plan, Place, Plan, Row, TASKS};
use crate::given::Given;
use crate::held::Held;
use crate::plans::passing_plan_on;
use crate::random::Random;
use crate::refusal::{number_of, OVERLAP, SAME_NODE};
use crate::rounds::{try_plan, try_planner};
use crate::sequences::sequence_on;
use crate::set_calls::try_judge;
use crate::trial::{Mismatch, Trial};

/// A small job: its plan, plans whose backups share time on one node, and these changed.
pub fn crowd(trial: &mut Trial, random: &mut Random) -> Result<(), Mismatch> {
    let (nodes, tasks) = (random.between(3, 6) as usize, random.between(3, 12) as usize);
    let crowded = crowded_job(random, nodes, tasks);
    let given = Given::new(crowded.job.clone());
    let planned = try_planner(trial, random, &given)?;
    let standby = random.pick(&crowded.standby);
    let shared = passing_plan_on(random, &given.job, [&crowded.beside(standby), &[standby]]);
    for plan in planned.iter().chain(&shared) {
        for _ in 0..6 {
            let changed = write_plan(&with_meetings(random, &given.job, plan));
            try_judge(trial, &given, &changed)?;
        }
    }
    if let Some(shared) = shared {
        try_plan(trial, random, &given, &write_plan(&shared))?;
    }
    if let Some(plan) = planned.filter(|_| random.percent(30)) {
        let held = Held::new(trial, crowded.job.clone(), plan, true)?;
        sequence_on(trial, random, held)?;
    }
    Ok(())
}

/// A job of 64 tasks, or of any number up to that, with all copies on one node, and with all
/// primaries on one and all backups on another.
pub fn crowd_fully(trial: &mut Trial, random: &mut Random) -> Result<(), Mismatch> {
    let (most, any) = (TASKS.1, random.between(1, TASKS.1));
    let tasks = random.pick(&[most, most, most - 1, any]) as usize;
    let nodes = random.pick(&[2, 2, 3, 5, 16]);
    let crowded = crowded_job(random, nodes, tasks);
    try_one_node(trial, random, &crowded)?;
    try_two_nodes(trial, random, &crowded)
}

/// They read well, but rule A refuses them.
fn try_one_node(trial: &mut Trial, random: &mut Random, crowded: &Crowded) -> Result<(), Mismatch> {
    let given = Given::new(crowded.job.clone());
    for _ in 0..2 {
        let plan = on_one_node(random, &given.job, crowded.standby[0]);
        let code = try_plan(trial, random, &given, &write_plan(&plan))?;
        assert_eq!(number_of(code), usize::from(SAME_NODE));
        trial.tally.one_node += 1;
        trial.tally.one_node_full += u64::from(is_full(&plan));
        try_asking(trial, random, &given, &plan)?;
    }
    Ok(())
}

/// A plan that passes, changed ones, and a sequence of asks and commits.
fn try_two_nodes(
    trial: &mut Trial,
    random: &mut Random,
    crowded: &Crowded,
) -> Result<(), Mismatch> {
    let given = Given::new(crowded.job.clone());
    let [first, second] = crowded.standby;
    let plan = passing_plan_on(random, &given.job, [&[first], &[second]]);
    let plan = plan.expect("no deadline is near");
    try_plan(trial, random, &given, &write_plan(&plan))?;
    trial.tally.two_nodes_passed += u64::from(is_full(&plan));
    for _ in 0..4 {
        let changed = with_meetings(random, &given.job, &plan);
        let code = try_plan(trial, random, &given, &write_plan(&changed))?;
        let met = number_of(code) == usize::from(OVERLAP);
        trial.tally.two_nodes_refused += u64::from(met && is_full(&changed));
        try_asking(trial, random, &given, &changed)?;
    }
    try_asking(trial, random, &given, &plan)?;
    let held = Held::new(trial, given.job, plan, false)?;
    book_some(trial, random, held)
}

/// Asked places booked at once, three or up to the 64th task.
fn book_some(trial: &mut Trial, random: &mut Random, mut held: Held) -> Result<(), Mismatch> {
    for _ in held.tasks()..(held.tasks() + 3).min(TASKS.1 as usize) {
        let new = random_new_task(random, held.job(), &held.plan);
        if let Some(row) = held.places(trial, &new)? {
            held = held.book_at_once(trial, &new, row)?;
        }
    }
    Ok(())
}

fn is_full(plan: &Plan) -> bool {
    plan.rows.len() == TASKS.1 as usize
}

/// Ask and commit beside a plan that does not pass, or that is full.
fn try_asking(
    trial: &mut Trial,
    random: &mut Random,
    given: &Given,
    plan: &Plan,
) -> Result<(), Mismatch> {
    let new = random_new_task(random, &given.job, plan);
    let mut place = || Place { node: random.below(given.job.nodes.len()), start: 0 };
    let row = Row { primary: place(), backup: place() };
    let version = given.job.version;
    let (task, booking) = (write_description(version, &new), write_booking(version, &new, &row));
    try_both(trial, &given.bytes, &write_plan(plan), &task, &booking)
}
