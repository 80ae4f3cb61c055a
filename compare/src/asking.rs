//! Asking for the places of a new task, and taking them (request (iii)), beside a passed plan.

use crate::bookings::NewTask;
use crate::files::{Job, Link, Plan, Row, LINKS, TASKS};
use crate::planner::Draft;
use crate::refusal::{Refusal, FULL, STALE};
use crate::rules::judge;

/// The planner's two places for the new task. Nothing is booked.
pub fn ask(job: &Job, plan: &Plan, new: &NewTask) -> Result<Row, Refusal> {
    let longer = longer_job(job, new)?;
    let mut draft = Draft::holding(&longer, plan);
    draft.place_next()?;
    Ok(draft.plan().rows[job.tasks.len()])
}

/// The longer job and the longer plan, if that plan passes.
pub fn commit(job: &Job, plan: &Plan, new: &NewTask, row: Row) -> Result<(Job, Plan), Refusal> {
    let longer = longer_job(job, new)?;
    let booked = longer_plan(plan, row);
    judge(&longer, &booked).map_err(|_| Refusal::of_task(STALE, job.tasks.len()))?;
    Ok((longer, booked))
}

/// The job with the new task as its last, in the version it has.
pub fn longer_job(job: &Job, new: &NewTask) -> Result<Job, Refusal> {
    let task = job.tasks.len();
    let mut longer = job.clone();
    longer.tasks.push(new.task.clone());
    longer.links.extend(new.inputs.iter().map(|i| Link { from: i.from, to: task, delay: i.delay }));
    longer.links.sort_by_key(|link| (link.from, link.to));
    if longer.tasks.len() > TASKS.1 as usize || longer.links.len() > LINKS.1 as usize {
        return Err(Refusal::at(FULL, task as u64));
    }
    Ok(longer)
}

pub fn longer_plan(plan: &Plan, row: Row) -> Plan {
    Plan { rows: [&plan.rows[..], &[row]].concat() }
}

#[cfg(test)]
mod tests {
    use super::*;
    use crate::bookings::Input;
    use crate::descriptions::{moved_row, random_new_task};
    use crate::jobs::random_job;
    use crate::planner;
    use crate::random::Random;
    use crate::rules::copy;

    /// A job without its last task, and that task.
    fn shorter(job: &Job) -> (Job, NewTask) {
        let mut shorter = job.clone();
        let task = shorter.tasks.pop().expect("a job has a task");
        let last = shorter.tasks.len();
        shorter.links.retain(|link| link.to != last);
        let into = job.links_into(last);
        let inputs = into.map(|link| Input { from: link.from, delay: link.delay }).collect();
        (shorter, NewTask { task, inputs })
    }

    #[test]
    fn the_longer_job_has_the_last_task_and_its_links_in_order() {
        let random = &mut Random::new(9);
        for _ in 0..500 {
            let job = random_job(random);
            let (shorter, new) = shorter(&job);
            assert_eq!(longer_job(&shorter, &new), Ok(job));
        }
    }

    #[test]
    fn the_planner_asks_for_the_last_task_and_books_it() {
        let random = &mut Random::new(10);
        let mut asked = 0;
        for _ in 0..1500 {
            let job = random_job(random);
            let (shorter, new) = shorter(&job);
            let Some(plan) = planner::plan(&shorter).ok().filter(|_| !shorter.tasks.is_empty())
            else {
                continue;
            };
            let row = ask(&shorter, &plan, &new);
            assert_eq!(planner::plan(&job), row.map(|row| longer_plan(&plan, row)));
            if let Ok(row) = row {
                asked += 1;
                let longer = longer_plan(&plan, row);
                assert_eq!(commit(&shorter, &plan, &new, row), Ok((job, longer)));
            }
        }
        assert!(asked > 700, "only {asked} tasks had a place");
    }

    /// Document 02's words: a proposed copy breaks a rule beside the copies held.
    fn fits(longer: &Job, plan: &Plan, row: Row) -> bool {
        let task = plan.rows.len();
        let mut draft = Draft::holding(longer, plan);
        let (primary, backup) = (copy(longer, task, row.primary), copy(longer, task, row.backup));
        let primary_fits = draft.primary_fits(&primary);
        draft.place_primary(primary);
        primary_fits && draft.backup_fits(&backup)
    }

    #[test]
    fn a_place_is_stale_just_if_a_copy_of_the_new_task_breaks_a_rule() {
        let random = &mut Random::new(11);
        let mut met = [0, 0];
        for _ in 0..1500 {
            let job = random_job(random);
            let Some(plan) = planner::plan(&job).ok().filter(|_| job.tasks.len() < 15) else {
                continue;
            };
            let new = random_new_task(random, &job, &plan);
            let Ok(row) = ask(&job, &plan, &new) else {
                continue;
            };
            for _ in 0..5 {
                let moved = moved_row(random, &new.task, row);
                let booked = commit(&job, &plan, &new, moved).is_ok();
                let longer = longer_job(&job, &new).expect("it is short");
                assert_eq!(booked, fits(&longer, &plan, moved));
                met[usize::from(booked)] += 1;
            }
        }
        assert!(met[0] > 500 && met[1] > 500, "stale or booked: {met:?}");
    }
}
