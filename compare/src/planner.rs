//! The planner: task by task, the primary and then the backup, each where it finishes earliest.

use std::collections::BTreeSet;

use crate::files::{Job, Link, Place, Plan, Row};
use crate::refusal::{Refusal, NO_BACKUP, NO_PRIMARY};
use crate::rules::{
    after_detection, after_ready, arrival, backup_fed, copy, fault_set, layout, overlap,
    primary_fed, Copy, FaultSet, Layout,
};

/// A plan in the making. The next task is the first that has no backup yet.
pub struct Draft<'a> {
    pub job: &'a Job,
    pub layout: Layout,
    /// One for each primary placed: a task's fault set is settled by its primary.
    pub fault_sets: Vec<FaultSet>,
}

pub fn plan(job: &Job) -> Result<Plan, Refusal> {
    let mut draft = Draft::new(job);
    for _ in &job.tasks {
        draft.place_next()?;
    }
    Ok(draft.plan())
}

impl<'a> Draft<'a> {
    pub fn new(job: &'a Job) -> Draft<'a> {
        Draft { job, layout: Layout::default(), fault_sets: Vec::new() }
    }

    /// A draft that holds a plan of the job's first tasks.
    pub fn holding(job: &'a Job, plan: &Plan) -> Draft<'a> {
        let layout = layout(job, plan);
        let tasks = 0..plan.rows.len();
        let fault_sets = tasks.map(|task| fault_set(job, &layout, task)).collect();
        Draft { job, layout, fault_sets }
    }

    /// Places both copies of the next task.
    pub fn place_next(&mut self) -> Result<(), Refusal> {
        let task = self.task();
        let primary = self.earliest_primary().ok_or(Refusal::of_task(NO_PRIMARY, task))?;
        self.place_primary(primary);
        let backup = self.earliest_backup().ok_or(Refusal::of_task(NO_BACKUP, task))?;
        self.place_backup(backup);
        Ok(())
    }

    pub fn task(&self) -> usize {
        self.layout.backups.len()
    }

    pub fn place_primary(&mut self, primary: Copy) {
        self.layout.primaries.push(primary);
        self.fault_sets.push(fault_set(self.job, &self.layout, self.task()));
    }

    pub fn place_backup(&mut self, backup: Copy) {
        self.layout.backups.push(backup);
    }

    /// Takes the last primary back, for those who want to try another.
    pub fn withdraw_primary(&mut self) {
        self.layout.primaries.pop();
        self.fault_sets.pop();
    }

    pub fn plan(&self) -> Plan {
        let place = |copy: &Copy| Place { node: copy.node, start: copy.start };
        let pairs = self.layout.primaries.iter().zip(&self.layout.backups);
        Plan { rows: pairs.map(|(p, b)| Row { primary: place(p), backup: place(b) }).collect() }
    }

    /// Rule D and what else the primary has to keep.
    pub fn primary_fits(&self, primary: &Copy) -> bool {
        self.primary_free(primary) && self.is_primary_fed(primary)
    }

    /// The ready time, rule G and the deadline.
    pub fn primary_free(&self, primary: &Copy) -> bool {
        self.primary_free_beside_backups(primary)
            && !self.layout.backups.iter().any(|other| overlap(other, primary))
    }

    /// What the primary has to keep, but that it may share time with backups.
    pub fn primary_fits_beside_backups(&self, primary: &Copy) -> bool {
        self.primary_free_beside_backups(primary) && self.is_primary_fed(primary)
    }

    fn is_primary_fed(&self, primary: &Copy) -> bool {
        let mut links = self.job.links_into(self.task());
        links.all(|link| primary_fed(&self.layout, link, primary))
    }

    fn primary_free_beside_backups(&self, primary: &Copy) -> bool {
        let task = self.task();
        after_ready(self.job, task, primary)
            && primary.finish <= self.job.tasks[task].deadline
            && !self.layout.primaries.iter().any(|other| overlap(other, primary))
    }

    /// Rule E and what else the backup has to keep; D was the primary's.
    pub fn backup_fits(&self, backup: &Copy) -> bool {
        self.backup_free(backup) && self.is_backup_fed(backup)
    }

    /// Rules A, B, C, F and G.
    pub fn backup_free(&self, backup: &Copy) -> bool {
        self.backup_free_beside_primaries(backup)
            && !self.layout.primaries.iter().any(|other| overlap(other, backup))
    }

    /// What the backup has to keep, but that it may share time with primaries.
    pub fn backup_fits_beside_primaries(&self, backup: &Copy) -> bool {
        self.backup_free_beside_primaries(backup) && self.is_backup_fed(backup)
    }

    fn is_backup_fed(&self, backup: &Copy) -> bool {
        let fed = |link: &Link| backup_fed(&self.layout, &self.fault_sets, link, backup);
        self.job.links_into(self.task()).all(fed)
    }

    fn backup_free_beside_primaries(&self, backup: &Copy) -> bool {
        let task = self.task();
        let primary = &self.layout.primaries[task];
        let fault_set = &self.fault_sets[task];
        let shares = |other: usize| fault_set.is_disjoint(&self.fault_sets[other]);
        let mut backups = self.layout.backups.iter().enumerate();
        backup.group != primary.group
            && after_detection(self.job, primary, backup)
            && backup.finish <= self.job.tasks[task].deadline
            && !fault_set.contains(&backup.group)
            && !backups.any(|(other, copy)| overlap(copy, backup) && !shares(other))
    }

    // Trying every tick would be too slow, so only some starts are tried. Let s be the earliest
    // start that keeps the rules on a node. If s is not 0, starting at s - 1 breaks a rule that
    // s keeps. The ready time, B, D and E each say that the start is not below some moment, so if
    // one of them is broken, s is that moment. If G is broken, some copy on the node holds the
    // tick s - 1 but not s, so it finishes at s. A and F do not ask for the start, and an earlier
    // finish keeps the deadline. So 0, those moments and those finishes are all the starts to try;
    // a moment that no rule asks for, as that of a backup not waited for, is tried in vain.

    /// The starts to try for the primary on a node, rising.
    pub fn primary_starts(&self, node: usize) -> BTreeSet<u64> {
        let mut starts = self.finishes(node);
        starts.insert(self.job.tasks[self.task()].ready);
        for link in self.job.links_into(self.task()) {
            starts.insert(arrival(link, &self.layout.primaries[link.from], node));
        }
        starts
    }

    /// The starts to try for the backup on a node, rising.
    pub fn backup_starts(&self, node: usize) -> BTreeSet<u64> {
        let mut starts = self.finishes(node);
        let primary = &self.layout.primaries[self.task()];
        starts.insert(primary.finish + self.job.nodes[primary.node].detect);
        for link in self.job.links_into(self.task()) {
            starts.insert(arrival(link, &self.layout.primaries[link.from], node));
            starts.insert(arrival(link, &self.layout.backups[link.from], node));
        }
        starts
    }

    /// 0 and the finishes of the copies on a node.
    fn finishes(&self, node: usize) -> BTreeSet<u64> {
        let placed = self.layout.primaries.iter().chain(&self.layout.backups);
        let here = placed.filter(|copy| copy.node == node).map(|copy| copy.finish);
        here.chain([0]).collect()
    }

    /// The next task's copy on a node, if the node can run it.
    pub fn candidate(&self, node: usize, start: u64) -> Option<Copy> {
        let able = self.job.tasks[self.task()].run[node] > 0;
        able.then(|| copy(self.job, self.task(), Place { node, start }))
    }

    fn earliest_primary(&self) -> Option<Copy> {
        self.earliest(|node| self.primary_starts(node), |copy| self.primary_fits(copy))
    }

    fn earliest_backup(&self) -> Option<Copy> {
        self.earliest(|node| self.backup_starts(node), |copy| self.backup_fits(copy))
    }

    /// The earliest finish, then the lowest node. On one node the earliest start is the one.
    pub fn earliest(
        &self,
        starts: impl Fn(usize) -> BTreeSet<u64>,
        fits: impl Fn(&Copy) -> bool,
    ) -> Option<Copy> {
        let on_node = |node: usize| {
            let mut candidates = starts(node).into_iter().filter_map(|s| self.candidate(node, s));
            candidates.find(|copy| fits(copy))
        };
        let nodes = 0..self.job.nodes.len();
        nodes.filter_map(on_node).min_by_key(|copy| (copy.finish, copy.node))
    }
}

#[cfg(test)]
mod tests {
    use super::*;
    use crate::earlier::{
        hasty_plan, keeps_rule_e_of_01, without_drawers, without_ready_times, without_send_times,
    };
    use crate::jobs::random_job;
    use crate::random::Random;
    use crate::rules::in_time;

    /// The planner as document 01 words it: of all nodes and starts.
    fn plan_by_all_starts(job: &Job) -> Result<Plan, Refusal> {
        let mut draft = Draft::new(job);
        for (task, listed) in job.tasks.iter().enumerate() {
            let all_starts = |_| (0..listed.deadline).collect();
            let primary = draft.earliest(all_starts, |copy| draft.primary_fits(copy));
            draft.place_primary(primary.ok_or(Refusal::of_task(NO_PRIMARY, task))?);
            let backup = draft.earliest(all_starts, |copy| draft.backup_fits(copy));
            draft.place_backup(backup.ok_or(Refusal::of_task(NO_BACKUP, task))?);
        }
        Ok(draft.plan())
    }

    #[test]
    fn the_starts_tried_are_enough() {
        let random = &mut Random::new(5);
        let mut planned = 0;
        for _ in 0..1500 {
            let mut job = random_job(random);
            job.tasks.iter_mut().for_each(|task| task.deadline = task.deadline.min(90));
            if job.tasks.len() > 12 {
                continue;
            }
            let answer = plan(&job);
            planned += u64::from(answer.is_ok());
            assert_eq!(answer, plan_by_all_starts(&job));
        }
        assert!(planned > 300, "only {planned} jobs were planned");
    }

    fn plan_by_rule_e_of_01(job: &Job) -> Result<Plan, Refusal> {
        let mut draft = Draft::new(job);
        for task in 0..job.tasks.len() {
            let primary = draft.earliest_primary().ok_or(Refusal::of_task(NO_PRIMARY, task))?;
            draft.place_primary(primary);
            let waits = |backup: &Copy| {
                let mut links = job.links_into(task);
                links.all(|link| in_time(link, &draft.layout.backups[link.from], backup))
            };
            let fits = |backup: &Copy| draft.backup_fits(backup) && waits(backup);
            let backup = draft.earliest(|node| draft.backup_starts(node), fits);
            draft.place_backup(backup.ok_or(Refusal::of_task(NO_BACKUP, task))?);
        }
        Ok(draft.plan())
    }

    #[test]
    fn just_the_plans_that_break_the_earlier_rule_are_moved() {
        let random = &mut Random::new(6);
        let mut moved = 0;
        for _ in 0..1500 {
            let job = random_job(random);
            let Ok(answer) = plan(&job) else {
                continue;
            };
            let stays = keeps_rule_e_of_01(&job, &answer);
            moved += u64::from(!stays);
            assert_eq!(stays, plan_by_rule_e_of_01(&job) == Ok(answer));
        }
        assert!(moved > 30, "only {moved} plans were moved");
    }

    /// How many plans of jobs as they were break a rule now: just those are planned otherwise.
    fn moved(earlier: impl Fn(&Job) -> Job) -> u64 {
        let random = &mut Random::new(7);
        let mut moved = 0;
        for _ in 0..1500 {
            let job = random_job(random);
            let earlier = earlier(&job);
            let Ok(was_planned) = plan(&earlier) else {
                continue;
            };
            let stays = hasty_plan(&job, &earlier).is_none();
            moved += u64::from(!stays);
            assert_eq!(stays, plan(&job) == Ok(was_planned));
        }
        moved
    }

    #[test]
    fn just_the_plans_that_break_a_ready_time_are_moved() {
        assert!(moved(without_ready_times) > 300);
    }

    #[test]
    fn just_the_plans_that_send_times_break_are_moved() {
        assert!(moved(|job| without_send_times(job).unwrap_or(job.clone())) > 100);
    }

    #[test]
    fn just_the_plans_that_drawers_break_are_moved() {
        assert!(moved(|job| without_drawers(job).unwrap_or(job.clone())) > 50);
    }
}
