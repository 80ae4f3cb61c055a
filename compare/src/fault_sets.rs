//! The fault sets of a plan, passed or not, in document 01's own words: by paths of weak links.
//! The judge of this package has another search, from the receiver back (`rules.rs`).

use std::collections::BTreeSet;

use crate::files::Job;
use crate::rules::{is_weak, FaultSet, Layout};

/// For each task the groups that hold its primary, or the primary of any task from which a path of
/// weak links leads to it.
pub fn fault_sets(job: &Job, layout: &Layout) -> Vec<FaultSet> {
    let tasks = 0..job.tasks.len();
    let steps = weak_steps(job, layout);
    let reached: Vec<_> = tasks.clone().map(|task| led_to(&steps, task)).collect();
    let fault_set = |task: usize| {
        let stops_it = |&other: &usize| other == task || reached[other].contains(&task);
        tasks.clone().filter(stops_it).map(|other| layout.primaries[other].group).collect()
    };
    tasks.clone().map(fault_set).collect()
}

/// For each task those that a weak link leads to from it.
fn weak_steps(job: &Job, layout: &Layout) -> Vec<Vec<usize>> {
    let mut steps = vec![Vec::new(); job.tasks.len()];
    for link in job.links.iter().filter(|link| is_weak(layout, link)) {
        steps[link.from].push(link.to);
    }
    steps
}

/// The tasks that a path of weak links leads to from a task.
fn led_to(steps: &[Vec<usize>], task: usize) -> BTreeSet<usize> {
    let mut reached = BTreeSet::new();
    let mut open = vec![task];
    while let Some(stop) = open.pop() {
        open.extend(steps[stop].iter().filter(|&&next| reached.insert(next)));
    }
    reached
}

#[cfg(test)]
mod tests {
    use super::*;
    use crate::files::Plan;
    use crate::jobs::random_job;
    use crate::plans::{changed_plan, passing_plan, wild_plan};
    use crate::random::Random;
    use crate::rules::{fault_set, layout};

    /// Plans of a job that mostly read well, passed or not.
    fn some_plans(random: &mut Random, job: &Job) -> Vec<Plan> {
        let mut plans = vec![wild_plan(random, job)];
        if let Some(plan) = passing_plan(random, job) {
            plans.extend([changed_plan(random, job, &plan), plan]);
        }
        plans
    }

    #[test]
    fn both_searches_find_the_same() {
        let random = &mut Random::new(5);
        let mut large = 0;
        for _ in 0..2000 {
            let job = random_job(random);
            for plan in some_plans(random, &job) {
                let placed = layout(&job, &plan);
                let sets = fault_sets(&job, &placed);
                let tasks = 0..job.tasks.len();
                assert!(tasks.clone().all(|task| sets[task] == fault_set(&job, &placed, task)));
                large += sets.iter().filter(|set| set.len() > 2).count();
            }
        }
        assert!(large > 2000, "only {large} sets of three groups or more");
    }
}
