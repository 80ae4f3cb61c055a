//! A planner that goes by a shortcut: of a copy's inputs only the latest arrival and the node that
//! it leaves are kept. With the send time forgotten there, plans come out otherwise: it is counted.

use crate::files::{Job, Link, Plan};
use crate::planner::Draft;
use crate::rules::{arrival, Copy};

/// When a sender's result is on any node but its own.
type Elsewhere = fn(&Link, &Copy) -> u64;

/// The wrong turn: the link's delay alone.
pub fn forgetful_plan(job: &Job) -> Option<Plan> {
    plan_by_latest(job, |link, sender| sender.finish + link.delay)
}

fn plan_by_latest(job: &Job, elsewhere: Elsewhere) -> Option<Plan> {
    let mut draft = Draft::new(job);
    for _ in &job.tasks {
        let primary = earliest_primary(&draft, elsewhere)?;
        draft.place_primary(primary);
        let backup = earliest_backup(&draft, elsewhere)?;
        draft.place_backup(backup);
    }
    Some(draft.plan())
}

fn earliest_primary(draft: &Draft, elsewhere: Elsewhere) -> Option<Copy> {
    let links = draft.job.links_into(draft.task());
    let inputs: Vec<_> = links.map(|link| (*link, draft.layout.primaries[link.from])).collect();
    let there = |node: usize| all_there(&inputs, node, elsewhere);
    draft.earliest(
        |node| draft.primary_starts(node).into_iter().chain([there(node)]).collect(),
        |copy| there(copy.node) <= copy.start && draft.primary_free(copy),
    )
}

fn earliest_backup(draft: &Draft, elsewhere: Elsewhere) -> Option<Copy> {
    let mut inputs = Vec::new();
    for link in draft.job.links_into(draft.task()) {
        inputs.push((*link, draft.layout.primaries[link.from]));
        if !draft.fault_sets[link.from].is_disjoint(&draft.fault_sets[link.to]) {
            inputs.push((*link, draft.layout.backups[link.from]));
        }
    }
    let there = |node: usize| all_there(&inputs, node, elsewhere);
    draft.earliest(
        |node| draft.backup_starts(node).into_iter().chain([there(node)]).collect(),
        |copy| there(copy.node) <= copy.start && draft.backup_free(copy),
    )
}

/// From when on all inputs are on a node. On the node that the latest leaves they are gone through
/// again; of several that are latest, it is the first.
fn all_there(inputs: &[(Link, Copy)], node: usize, elsewhere: Elsewhere) -> u64 {
    let latest = inputs.iter().rev().max_by_key(|(link, sender)| elsewhere(link, sender));
    match latest {
        Some((link, sender)) if sender.node != node => elsewhere(link, sender),
        _ => inputs.iter().map(|(link, sender)| arrival(link, sender, node)).max().unwrap_or(0),
    }
}

#[cfg(test)]
mod tests {
    use super::*;
    use crate::jobs::random_job;
    use crate::planner;
    use crate::random::Random;
    use crate::samples::plan_of;
    use crate::sent_samples::{sent_latest, two_nodes, SENT_LATEST_FORGOTTEN, TWO_NODES_FORGOTTEN};

    #[test]
    fn the_samples_are_planned_otherwise() {
        assert_eq!(forgetful_plan(&two_nodes()), Some(plan_of(TWO_NODES_FORGOTTEN)));
        assert_eq!(forgetful_plan(&sent_latest()), Some(plan_of(SENT_LATEST_FORGOTTEN)));
    }

    #[test]
    fn the_shortcut_is_right_where_nothing_is_forgotten() {
        let random = &mut Random::new(13);
        let mut forgotten = 0;
        for _ in 0..1500 {
            let job = random_job(random);
            let plan = planner::plan(&job).ok();
            assert_eq!(plan_by_latest(&job, |l, s| s.finish + s.send + l.delay), plan);
            forgotten += u64::from(forgetful_plan(&job) != plan);
        }
        assert!(forgotten > 50, "only {forgotten} jobs were planned otherwise");
    }
}
