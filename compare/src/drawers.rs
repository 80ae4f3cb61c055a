//! Wrong readings of request (vi): nodes where groups are meant, and groups where nodes are. No
//! answer rests on them: they are there to count where each would answer otherwise.

use crate::earlier::without_drawers;
use crate::fault_sets::fault_sets;
use crate::files::{Job, Link, Node, Plan};
use crate::refusal::{
    code_of, number_of, places_of, BACKUP_UNFED, COMMON_LOSS, OVERLAP, PRIMARY_UNFED, SAME_NODE,
};
use crate::replay::{replay, Loss, Outcome, State};
use crate::rules::{
    backup_fed, judge, layout, no_overlap, primary_fed, tasks_clash, Copy, FaultSet, Layout,
};
use crate::tally::Tally;

/// A plan of a job in which nodes share a group, with the judge's answer.
struct Judged<'a> {
    job: &'a Job,
    placed: Layout,
    sets: Vec<FaultSet>,
    /// The fault sets that hold nodes.
    node_sets: Vec<FaultSet>,
    /// Each group taken for one node.
    merged: Layout,
    number: u8,
    /// The tasks that the refusal names.
    tasks: (usize, usize),
}

/// Counts the wrong readings that would not answer as the judge did. Without drawers, groups and
/// nodes are the same but for their numbers.
pub fn count_judged(tally: &mut Tally, job: &Job, plan: &Plan, judged: u64) {
    let Some(apart) = without_drawers(job) else {
        return;
    };
    let by_nodes = code_of(judge(&apart, plan));
    tally.judged_by_group += u64::from(by_nodes != judged);
    tally.refused_by_group += u64::from(by_nodes == 0 && judged != 0);
    let judged = Judged::new(job, &apart, plan, judged);
    tally.sets_by_group += u64::from(judged.sets != judged.node_sets);
    tally.rule_a_by_nodes += u64::from(judged.keeps_a_by_nodes());
    tally.rule_e_by_nodes += u64::from(judged.keeps_e_by_nodes());
    tally.rule_f_by_nodes += u64::from(judged.keeps_f_by_nodes());
    tally.rule_g_by_nodes += u64::from(judged.keeps_g_by_nodes());
    tally.fed_without_delay += u64::from(judged.is_fed_without_delay());
    tally.overlap_in_drawer += u64::from(judged.breaks_g_by_groups());
}

impl Judged<'_> {
    fn new<'a>(job: &'a Job, apart: &Job, plan: &Plan, code: u64) -> Judged<'a> {
        let placed = layout(job, plan);
        let sets = fault_sets(job, &placed);
        let node_sets = fault_sets(apart, &layout(apart, plan));
        let merged = merged(&placed);
        let (first, second) = places_of(code);
        let tasks = (first as usize, second as usize);
        Judged { job, placed, sets, node_sets, merged, number: number_of(code) as u8, tasks }
    }

    /// The copies are on different nodes, but that was refused.
    fn keeps_a_by_nodes(&self) -> bool {
        let task = self.tasks.0;
        self.number == SAME_NODE
            && self.placed.primaries[task].node != self.placed.backups[task].node
    }

    /// The fault sets of sender and receiver have a group in common but no node.
    fn keeps_e_by_nodes(&self) -> bool {
        let backups = &self.placed.backups;
        self.number == BACKUP_UNFED
            && backup_fed(&self.placed, &self.node_sets, self.link(), &backups[self.tasks.1])
    }

    /// The backup's node has no primary of those whose loss would call for it.
    fn keeps_f_by_nodes(&self) -> bool {
        let task = self.tasks.0;
        self.number == COMMON_LOSS
            && !self.node_sets[task].contains(&(self.placed.backups[task].node as u64))
    }

    /// Two backups meet whose fault sets have a group in common but no node.
    fn keeps_g_by_nodes(&self) -> bool {
        let (lower, higher) = self.tasks;
        self.number == OVERLAP && !tasks_clash(&self.placed, &self.node_sets, lower, higher)
    }

    /// The link refused would be good if results went from node to node of a group at once.
    fn is_fed_without_delay(&self) -> bool {
        let (merged, to) = (&self.merged, self.tasks.1);
        match self.number {
            PRIMARY_UNFED => primary_fed(merged, self.link(), &merged.primaries[to]),
            BACKUP_UNFED => backup_fed(merged, &self.sets, self.link(), &merged.backups[to]),
            _ => false,
        }
    }

    /// The plan is passed, but two copies on nodes of one group have a tick in common.
    fn breaks_g_by_groups(&self) -> bool {
        self.number == 0 && no_overlap(&self.merged, &self.sets).is_err()
    }

    /// The link that the refusal names.
    fn link(&self) -> &Link {
        let named = |link: &&Link| (link.from, link.to) == self.tasks;
        self.job.links.iter().find(named).expect("a refusal names a link")
    }
}

fn merged(placed: &Layout) -> Layout {
    let merge = |copy: &Copy| Copy { node: copy.group as usize, ..*copy };
    Layout {
        primaries: placed.primaries.iter().map(merge).collect(),
        backups: placed.backups.iter().map(merge).collect(),
    }
}

/// Whether a link leads with a delay from primary to primary between two nodes of one group.
pub fn sends_in_drawer(job: &Job, placed: &Layout) -> bool {
    job.links.iter().any(|link| {
        let (sender, receiver) = (placed.primaries[link.from], placed.primaries[link.to]);
        sender.group == receiver.group && sender.node != receiver.node && link.delay > 0
    })
}

/// Counts the losses that would go otherwise if only the first node of the group were lost, and
/// those of groups that a node count would not let pass.
pub fn count_losses(tally: &mut Tally, job: &Job, plan: &Plan, losses: &[Loss]) {
    let beyond = losses.iter().filter(|loss| loss.group as usize >= job.nodes.len());
    tally.lost_beyond += beyond.count() as u64;
    let Some(apart) = without_drawers(job) else {
        return;
    };
    for &loss in losses {
        let outcomes = replay(job, plan, Some(loss));
        let alone = replay(&apart, plan, Some(first_alone(job, loss)));
        tally.lost_by_nodes += u64::from(outcomes != alone);
        tally.cut_on_two += u64::from(cut_on_two(plan, &outcomes));
    }
}

/// The loss of the group's first node, where each node is its own group.
fn first_alone(job: &Job, loss: Loss) -> Loss {
    let lost = |node: &Node| node.group == u64::from(loss.group);
    let first = job.nodes.iter().position(lost).expect("the group has a node");
    Loss { group: first as u32, ..loss }
}

/// Whether copies are cut on two nodes or more.
fn cut_on_two(plan: &Plan, outcomes: &[Outcome]) -> bool {
    let copies = plan.rows.iter().zip(outcomes).flat_map(|(row, outcome)| {
        [(outcome.primary, row.primary.node), (outcome.backup, row.backup.node)]
    });
    let mut nodes = copies.filter(|&(state, _)| state == State::Cut).map(|(_, node)| node);
    nodes.next().is_some_and(|first| nodes.any(|node| node != first))
}

#[cfg(test)]
mod tests {
    use super::*;
    use crate::files::{Row, Task};
    use crate::jobs::random_job;
    use crate::plans::{changed_plan, passing_plan};
    use crate::random::Random;

    /// Plans that keep the rules by groups or by nodes, changed or not; all of them read well.
    fn some_plans(random: &mut Random, job: &Job) -> Vec<Plan> {
        let apart = without_drawers(job).unwrap_or(job.clone());
        let good: Vec<Plan> =
            [job, &apart].iter().filter_map(|job| passing_plan(random, job)).collect();
        let changed = good.iter().map(|plan| changed_plan(random, job, plan)).collect();
        let mut plans = [good, changed].concat();
        let able = |(task, row): (&Task, &Row)| {
            task.run[row.primary.node] > 0 && task.run[row.backup.node] > 0
        };
        plans.retain(|plan| job.tasks.iter().zip(&plan.rows).all(able));
        plans
    }

    /// Groups only add what is refused. So the answers by nodes and by groups differ just where
    /// the first thing refused by groups is none by nodes.
    #[test]
    fn a_reading_by_nodes_differs_in_one_rule() {
        let random = &mut Random::new(14);
        let mut tally = Tally::default();
        for _ in 0..4000 {
            let job = random_job(random);
            for plan in some_plans(random, &job) {
                count_judged(&mut tally, &job, &plan, code_of(judge(&job, &plan)));
            }
        }
        let (a, e) = (tally.rule_a_by_nodes, tally.rule_e_by_nodes);
        let (f, g) = (tally.rule_f_by_nodes, tally.rule_g_by_nodes);
        assert_eq!(a + e + f + g, tally.judged_by_group);
        assert!(a > 200 && f > 10 && g > 3, "rules A, F and G: {a}, {f} and {g}");
    }
}
