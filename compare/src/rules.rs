//! Rules A to G of a plan, the ready times, and the judge.

use std::collections::BTreeSet;

use crate::files::{Job, Link, Node, Place, Plan};
use crate::refusal::{
    Refusal, BACKUP_UNFED, COMMON_LOSS, EARLY, LATE, OVERLAP, PRIMARY_UNFED, SAME_NODE, TOO_SOON,
};

/// A copy in its place: it holds `node` from `start` up to, but not including, `finish`.
#[derive(Clone, Copy, Debug, PartialEq, Eq)]
pub struct Copy {
    pub node: usize,
    pub start: u64,
    pub finish: u64,
    /// The send time and the supply group of its node.
    pub send: u64,
    pub group: u64,
}

/// The copies placed so far, by task. A plan's layout has both copies of every task;
/// the planner's grows, and may have one primary more than it has backups.
#[derive(Clone, Debug, Default)]
pub struct Layout {
    pub primaries: Vec<Copy>,
    pub backups: Vec<Copy>,
}

pub fn copy(job: &Job, task: usize, place: Place) -> Copy {
    let Place { node, start } = place;
    let Node { send, group, .. } = job.nodes[node];
    Copy { node, start, finish: start + job.tasks[task].run[node], send, group }
}

pub fn layout(job: &Job, plan: &Plan) -> Layout {
    let rows = || plan.rows.iter().enumerate();
    Layout {
        primaries: rows().map(|(task, row)| copy(job, task, row.primary)).collect(),
        backups: rows().map(|(task, row)| copy(job, task, row.backup)).collect(),
    }
}

/// When the result of `sender` is on `node`. Another node's send time is no matter (request (iv)).
pub fn arrival(link: &Link, sender: &Copy, node: usize) -> u64 {
    let delay = if sender.node == node { 0 } else { link.delay + sender.send };
    sender.finish + delay
}

pub fn in_time(link: &Link, sender: &Copy, receiver: &Copy) -> bool {
    arrival(link, sender, receiver.node) <= receiver.start
}

/// The copies hold one node, and some tick is held by both. Two nodes of one group are two.
pub fn overlap(a: &Copy, b: &Copy) -> bool {
    a.node == b.node && a.start < b.finish && b.start < a.finish
}

/// Request (ii): a primary starts no sooner than its task is ready. A backup is not asked.
pub fn after_ready(job: &Job, task: usize, primary: &Copy) -> bool {
    job.tasks[task].ready <= primary.start
}

/// Rule B: the loss of the primary's node is known before the backup starts.
pub fn after_detection(job: &Job, primary: &Copy, backup: &Copy) -> bool {
    primary.finish + job.nodes[primary.node].detect <= backup.start
}

/// Rule D for one link, with the receiving primary given.
pub fn primary_fed(layout: &Layout, link: &Link, primary: &Copy) -> bool {
    in_time(link, &layout.primaries[link.from], primary)
}

/// Rule E for one link, with the receiving backup given. It waits for the sender's backup only
/// where one loss may call for both (request (i)).
pub fn backup_fed(layout: &Layout, sets: &[FaultSet], link: &Link, backup: &Copy) -> bool {
    in_time(link, &layout.primaries[link.from], backup)
        && (sets[link.from].is_disjoint(&sets[link.to])
            || in_time(link, &layout.backups[link.from], backup))
}

/// A link is weak if the sender's backup may come too late for the receiver's primary.
pub fn is_weak(layout: &Layout, link: &Link) -> bool {
    !in_time(link, &layout.backups[link.from], &layout.primaries[link.to])
}

/// The groups whose loss may keep a task's primary from finishing (document 01's peril, with
/// groups for nodes by request (vi)).
pub type FaultSet = BTreeSet<u64>;

/// A task's fault set. It asks only for the copies of lower tasks and the task's own primary.
pub fn fault_set(job: &Job, layout: &Layout, task: usize) -> FaultSet {
    let mut reached = BTreeSet::from([task]);
    let mut open = vec![task];
    while let Some(receiver) = open.pop() {
        for link in job.links_into(receiver).filter(|link| is_weak(layout, link)) {
            if reached.insert(link.from) {
                open.push(link.from);
            }
        }
    }
    reached.iter().map(|&task| layout.primaries[task].group).collect()
}

/// The pairs of tasks whose backups share ticks of a node, the lower task first.
pub fn sharing_backups(layout: &Layout) -> impl Iterator<Item = (usize, usize)> + '_ {
    let backups = &layout.backups;
    let pairs = (0..backups.len()).flat_map(|higher| (0..higher).map(move |lower| (lower, higher)));
    pairs.filter(|&(lower, higher)| overlap(&backups[lower], &backups[higher]))
}

/// The number of links on the longest path of weak links.
pub fn longest_weak_path(job: &Job, layout: &Layout) -> usize {
    let mut longest = vec![0; job.tasks.len()];
    for task in 0..job.tasks.len() {
        let weak = job.links_into(task).filter(|link| is_weak(layout, link));
        longest[task] = weak.map(|link| longest[link.from] + 1).max().unwrap_or(0);
    }
    longest.into_iter().max().unwrap_or(0)
}

pub fn judge(job: &Job, plan: &Plan) -> Result<(), Refusal> {
    let placed = layout(job, plan);
    let Layout { primaries, backups } = &placed;
    let tasks = 0..job.tasks.len();
    let every_task = |number: u8, holds: &dyn Fn(usize) -> bool| {
        let broken = tasks.clone().find(|&task| !holds(task));
        broken.map_or(Ok(()), |task| Err(Refusal::of_task(number, task)))
    };
    let every_link = |number: u8, holds: &dyn Fn(&Link) -> bool| {
        let broken = job.links.iter().find(|link| !holds(link));
        broken.map_or(Ok(()), |link| Err(Refusal::of_tasks(number, link.from, link.to)))
    };
    every_task(SAME_NODE, &|task| primaries[task].group != backups[task].group)?;
    every_task(TOO_SOON, &|task| after_ready(job, task, &primaries[task]))?;
    every_task(EARLY, &|task| after_detection(job, &primaries[task], &backups[task]))?;
    every_task(LATE, &|task| backups[task].finish <= job.tasks[task].deadline)?;
    every_link(PRIMARY_UNFED, &|link| primary_fed(&placed, link, &primaries[link.to]))?;
    let fault_sets: Vec<_> = tasks.clone().map(|task| fault_set(job, &placed, task)).collect();
    every_link(BACKUP_UNFED, &|link| backup_fed(&placed, &fault_sets, link, &backups[link.to]))?;
    every_task(COMMON_LOSS, &|task| !fault_sets[task].contains(&backups[task].group))?;
    no_overlap(&placed, &fault_sets)
}

/// Rule G. Once rule A holds, a task's own two copies are in different groups and so on different
/// nodes: pairs of different tasks are all there is to try.
pub fn no_overlap(layout: &Layout, fault_sets: &[FaultSet]) -> Result<(), Refusal> {
    for lower in 0..fault_sets.len() {
        for higher in lower + 1..fault_sets.len() {
            if tasks_clash(layout, fault_sets, lower, higher) {
                return Err(Refusal::of_tasks(OVERLAP, lower, higher));
            }
        }
    }
    Ok(())
}

pub fn tasks_clash(layout: &Layout, fault_sets: &[FaultSet], a: usize, b: usize) -> bool {
    let Layout { primaries, backups } = layout;
    overlap(&primaries[a], &primaries[b])
        || overlap(&primaries[a], &backups[b])
        || overlap(&backups[a], &primaries[b])
        || overlap(&backups[a], &backups[b]) && !fault_sets[a].is_disjoint(&fault_sets[b])
}

#[cfg(test)]
mod tests {
    use super::*;
    use crate::earlier::keeps_rule_e_of_01;
    use crate::files::Task;
    use crate::replay::{replay, Loss};
    use crate::samples::{nodes_of, plan_of, Listed};

    /// Five nodes with detect 0; each task takes one time on all of them.
    fn job_of(runs: &[u64], links: &[(usize, usize, u64)]) -> Job {
        let links = links.iter().map(|&(from, to, delay)| Link { from, to, delay });
        let tasks = runs.iter().map(|&run| Task { ready: 0, deadline: 100, run: vec![run; 5] });
        Job {
            version: 1,
            nodes: nodes_of(0, [0; 5]),
            tasks: tasks.collect(),
            links: links.collect(),
        }
    }

    /// Demand 3, as far as every task has to be finished.
    fn outlives_any_loss(job: &Job, plan: &Plan) -> bool {
        let mut losses = (0..5).flat_map(|group| (0..50).map(move |moment| Loss { group, moment }));
        losses.all(|loss| replay(job, plan, Some(loss)).iter().all(|task| task.finish > 0))
    }

    fn assert_passed(job: &Job, plan: &Plan) {
        assert_eq!(judge(job, plan), Ok(()));
        assert!(outlives_any_loss(job, plan));
    }

    fn assert_unfed(job: &Job, plan: &Plan, from: usize, to: usize) {
        assert_eq!(judge(job, plan), Err(Refusal::of_tasks(BACKUP_UNFED, from, to)));
        assert!(!outlives_any_loss(job, plan));
    }

    // In the plans below the last task's primary stands where its last sender's backup stood, so
    // that link is strong; the backup's result reaches node 3 at 24.

    /// Tasks 0 and 1 send to task 2, task 0 over a weak link.
    fn three_tasks(node: u64, start: u64) -> Plan {
        let sender: Listed = [node, 4, 2, 10];
        plan_of([[0, 0, 1, 4], sender, [2, 18, 3, start]])
    }

    #[test]
    fn a_backup_does_not_wait_where_fault_sets_are_apart() {
        let job = job_of(&[4, 4, 1], &[(0, 2, 14), (1, 2, 10)]);
        assert_passed(&job, &three_tasks(4, 22));
        assert!(!keeps_rule_e_of_01(&job, &three_tasks(4, 22)));
        assert_unfed(&job, &three_tasks(4, 21), 0, 2);
    }

    #[test]
    fn a_strong_link_waits_where_fault_sets_meet() {
        // The primary of task 1 is on the node of the primary of task 0.
        let job = job_of(&[4, 4, 1], &[(0, 2, 14), (1, 2, 10)]);
        assert_unfed(&job, &three_tasks(0, 23), 1, 2);
        assert_passed(&job, &three_tasks(0, 24));
    }

    #[test]
    fn fault_sets_may_meet_beside_both_primaries() {
        // What is common to both is the node of task 0.
        let job = job_of(&[4, 4, 1], &[(0, 1, 0), (0, 2, 14), (1, 2, 10)]);
        assert_unfed(&job, &three_tasks(4, 23), 1, 2);
        assert_passed(&job, &three_tasks(4, 24));
    }

    #[test]
    fn fault_sets_may_meet_by_two_weak_links() {
        // Tasks 0 to 1 to 3 over weak links; the primary of task 2 is on the node of task 0.
        let job = job_of(&[4, 4, 4, 1], &[(0, 1, 0), (1, 3, 10), (2, 3, 10)]);
        let plan = |start| plan_of([[0, 0, 1, 4], [4, 4, 1, 8], [0, 4, 2, 10], [2, 18, 3, start]]);
        assert_unfed(&job, &plan(23), 2, 3);
        assert_passed(&job, &plan(24));
    }
}
