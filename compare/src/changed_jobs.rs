//! Jobs changed under a plan that passes, so that a rule just holds and just fails.

use crate::fault_sets::fault_sets;
use crate::files::{write_plan, Job, Plan, MAX_SEND, NEWEST};
use crate::given::Given;
use crate::random::Random;
use crate::rules::{in_time, layout, sharing_backups, Layout};
use crate::set_calls::try_judge;
use crate::trial::{Mismatch, Trial};

pub fn try_changed_jobs(
    trial: &mut Trial,
    random: &mut Random,
    given: &Given,
    plan: &Plan,
) -> Result<(), Mismatch> {
    let job = &given.job;
    let mut jobs = with_deadlines(random, job, plan);
    jobs.extend(with_ready_times(random, job, plan));
    jobs.extend(with_send_times(random, job, plan));
    jobs.push(with_drawers_put_together(random, job, plan));
    jobs.into_iter().try_for_each(|job| try_changed_job(trial, job, plan))
}

/// The job changed, in a version that has what is changed.
fn changed(job: &Job, version: u64, change: impl FnOnce(&mut Job)) -> Job {
    let mut job = Job { version, ..job.clone() };
    change(&mut job);
    job
}

/// A deadline set to a finish of the plan, and to one tick less.
fn with_deadlines(random: &mut Random, job: &Job, plan: &Plan) -> Vec<Job> {
    let task = random.below(plan.rows.len());
    let places = [plan.rows[task].primary, plan.rows[task].backup];
    let finishes = places.map(|place| place.start + job.tasks[task].run[place.node]);
    let deadlines = finishes.into_iter().flat_map(|finish| [finish, finish - 1]);
    let with = |deadline| changed(job, job.version, |job| job.tasks[task].deadline = deadline);
    deadlines.map(with).collect()
}

/// A ready time set to the primary's start, and to one tick more.
fn with_ready_times(random: &mut Random, job: &Job, plan: &Plan) -> Vec<Job> {
    let task = random.below(plan.rows.len());
    let start = plan.rows[task].primary.start;
    let with = |ready| changed(job, NEWEST, |job| job.tasks[task].ready = ready);
    vec![with(start), with(start + 1)]
}

/// A send time that a result can just afford on its way to a start, and one tick more.
fn with_send_times(random: &mut Random, job: &Job, plan: &Plan) -> Vec<Job> {
    if job.links.is_empty() {
        return Vec::new();
    }
    let link = random.pick(&job.links);
    let placed = layout(job, plan);
    let sender = random.pick(&[placed.primaries[link.from], placed.backups[link.from]]);
    let receiver = random.pick(&[placed.primaries[link.to], placed.backups[link.to]]);
    let with = |send| changed(job, NEWEST, |job| job.nodes[sender.node].send = send);
    match receiver.start.checked_sub(sender.finish + link.delay) {
        Some(spare) if spare <= MAX_SEND => vec![with(spare), with(spare + 1)],
        _ => Vec::new(),
    }
}

/// Two drawers put together, one of each of two tasks' fault sets. Where two backups share time,
/// or one does not wait for the other, the sets are apart: there they are made to meet, if there
/// is such a pair of drawers that no task has its two copies in.
fn with_drawers_put_together(random: &mut Random, job: &Job, plan: &Plan) -> Job {
    let placed = layout(job, plan);
    let sets = fault_sets(job, &placed);
    let mut tasks = resting_apart(job, &placed);
    tasks.push((random.below(sets.len()), random.below(sets.len())));
    let (first, second) = random.pick(&tasks);
    let pairs = sets[first].iter().flat_map(|&a| sets[second].iter().map(move |&b| (a, b)));
    let (free, held): (Vec<_>, Vec<_>) = pairs.partition(|&pair| !holds_a_task(&placed, pair));
    let (from, to) = random.pick(if free.is_empty() { &held } else { &free });
    changed(job, NEWEST, |job| {
        let moved = job.nodes.iter_mut().filter(|node| node.group == from);
        moved.for_each(|node| node.group = to);
    })
}

/// Whether some task has one copy in either of two groups: put together, they break rule A.
fn holds_a_task(placed: &Layout, (a, b): (u64, u64)) -> bool {
    let copies = placed.primaries.iter().zip(&placed.backups);
    let mut groups = copies.map(|(primary, backup)| (primary.group, backup.group));
    groups.any(|groups| groups == (a, b) || groups == (b, a))
}

/// The pairs of tasks of a passed plan whose fault sets have nothing in common, or a rule would be
/// broken: rule E for the backups of a link, or rule G for two that overlap.
fn resting_apart(job: &Job, placed: &Layout) -> Vec<(usize, usize)> {
    let backups = &placed.backups;
    let unwaited = job.links.iter().filter(|l| !in_time(l, &backups[l.from], &backups[l.to]));
    unwaited.map(|link| (link.from, link.to)).chain(sharing_backups(placed)).collect()
}

/// A job that was changed under its plan.
fn try_changed_job(trial: &mut Trial, job: Job, plan: &Plan) -> Result<(), Mismatch> {
    let (given, plan) = (Given::new(job), write_plan(plan));
    try_judge(trial, &given, &plan)?;
    trial.compare(&given.plan(given.plan_room()))?;
    trial.compare(&given.replay(&plan, None, given.replay_room()))?;
    Ok(())
}
