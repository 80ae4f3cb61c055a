//! Random plans in which primaries and backups share time (request (ix)): rule G turns them down, and
//! the trial does not turn down all of them.

use crate::files::{Job, Place, Plan};
use crate::planner::Draft;
use crate::plans::{some_backup, some_primary};
use crate::random::Random;
use crate::rules::{arrival, copy, Copy};

/// A plan that keeps the rules, but that some primaries share time with backups. None if no place
/// was found for some copy.
pub fn sharing_plan(random: &mut Random, job: &Job) -> Option<Plan> {
    let mut draft = Draft::new(job);
    let nodes: Vec<usize> = (0..job.nodes.len()).collect();
    let (haste, sharing) = (random.between(40, 100), random.pick(&[20, 50, 80]));
    for _ in &job.tasks {
        (0..4).find(|_| place_next(random, &mut draft, &nodes, haste, sharing))?;
    }
    Some(draft.plan())
}

/// Places both copies of the next task, or neither.
fn place_next(
    random: &mut Random,
    draft: &mut Draft,
    nodes: &[usize],
    haste: u64,
    sharing: u64,
) -> bool {
    let onto = random.percent(sharing).then(|| primary_onto_backup(random, draft)).flatten();
    let Some(primary) = onto.or_else(|| some_primary(random, draft, nodes, haste)) else {
        return false;
    };
    draft.place_primary(primary);
    let onto = random.percent(sharing / 2).then(|| backup_onto_primary(random, draft)).flatten();
    let Some(backup) = onto.or_else(|| some_backup(random, draft, nodes, haste)) else {
        draft.withdraw_primary();
        return false;
    };
    draft.place_backup(backup);
    true
}

/// The next primary at a time of a backup placed earlier, as often as not one of a sender: the loss
/// that calls for that backup may stop this primary too.
fn primary_onto_backup(random: &mut Random, draft: &Draft) -> Option<Copy> {
    let backups = &draft.layout.backups;
    let senders: Vec<usize> = draft.job.links_into(draft.task()).map(|link| link.from).collect();
    let met = match senders.is_empty() || random.percent(40) {
        true if backups.is_empty() => return None,
        true => random.below(backups.len()),
        false => random.pick(&senders),
    };
    primary_onto(random, draft, met)
}

/// The next primary at a time of a task's backup.
pub fn primary_onto(random: &mut Random, draft: &Draft, met: usize) -> Option<Copy> {
    let ready = draft.job.tasks[draft.task()].ready;
    let primary = onto(random, draft, &draft.layout.backups[met], ready)?;
    draft.primary_fits_beside_backups(&primary).then_some(primary)
}

/// The next backup at a time of a primary placed earlier.
fn backup_onto_primary(random: &mut Random, draft: &Draft) -> Option<Copy> {
    let met = draft.layout.primaries[random.below(draft.task() + 1)];
    let primary = &draft.layout.primaries[draft.task()];
    let called = primary.finish + draft.job.nodes[primary.node].detect;
    let backup = onto(random, draft, &met, called)?;
    draft.backup_fits_beside_primaries(&backup).then_some(backup)
}

/// The next task's copy where it shares a tick with another, from a moment on and from when the
/// results of primaries are there.
fn onto(random: &mut Random, draft: &Draft, met: &Copy, from: u64) -> Option<Copy> {
    let (task, node) = (draft.task(), met.node);
    let run = draft.job.tasks[task].run[node];
    let inputs = draft.job.links_into(task);
    let there = inputs.map(|link| arrival(link, &draft.layout.primaries[link.from], node));
    let meets = (met.start + 1).saturating_sub(run);
    let first = there.fold(from.max(meets), u64::max);
    if run == 0 || first >= met.finish {
        return None;
    }
    let any = random.between(first, met.finish - 1);
    let start = random.pick(&[first, any, met.finish - 1]);
    Some(copy(draft.job, task, Place { node, start }))
}
