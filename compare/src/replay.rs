//! Replay: what becomes of every copy, with no loss or with one group of nodes lost; with a list of
//! actual times, or as listed.

use crate::files::{Job, Plan};
use crate::rules::{after_detection, after_ready, in_time, layout, Copy};
use crate::times::{listed_times, Ticks};

#[derive(Clone, Copy, Debug, PartialEq, Eq)]
pub enum State {
    NotStarted = 0,
    Cut = 1,
    Finished = 2,
}

/// Every node of `group` is lost at `moment`.
#[derive(Clone, Copy, Debug, PartialEq, Eq)]
pub struct Loss {
    pub group: u32,
    pub moment: u32,
}

#[derive(Clone, Copy, Debug, PartialEq, Eq)]
pub struct Outcome {
    pub primary: State,
    pub backup: State,
    /// The finish of the finished copy, 0 if there is none.
    pub finish: u64,
}

/// Every copy takes the time that is listed for it.
pub fn replay(job: &Job, plan: &Plan, loss: Option<Loss>) -> Vec<Outcome> {
    replay_times(job, plan, loss, &listed_times(job, plan))
}

/// Request (viii): a copy starts as planned, and ends after the ticks that it takes. Rule B alone
/// asks for the listed finish.
pub fn replay_times(job: &Job, plan: &Plan, loss: Option<Loss>, times: &[Ticks]) -> Vec<Outcome> {
    let listed = layout(job, plan);
    // The finished copy of each task: a backup runs only if its primary did not finish.
    let mut finished: Vec<Option<Copy>> = Vec::new();
    let mut outcomes = Vec::new();
    for (task, ticks) in times.iter().enumerate() {
        let primary = ended(&listed.primaries[task], ticks.primary);
        let backup = ended(&listed.backups[task], ticks.backup);
        let starts =
            after_ready(job, task, &primary) && inputs_there(job, &finished, task, &primary);
        let primary_state = state(&primary, starts, loss);
        let mut backup_state = State::NotStarted;
        if primary_state != State::Finished {
            let starts = after_detection(job, &listed.primaries[task], &backup)
                && inputs_there(job, &finished, task, &backup);
            backup_state = state(&backup, starts, loss);
        }
        let done = match (primary_state, backup_state) {
            (State::Finished, _) => Some(primary),
            (_, State::Finished) => Some(backup),
            _ => None,
        };
        let finish = done.map_or(0, |copy| copy.finish);
        finished.push(done);
        outcomes.push(Outcome { primary: primary_state, backup: backup_state, finish });
    }
    outcomes
}

/// A copy that took so many ticks.
pub fn ended(listed: &Copy, ticks: u64) -> Copy {
    Copy { finish: listed.start + ticks, ..*listed }
}

pub fn inputs_there(job: &Job, finished: &[Option<Copy>], task: usize, receiver: &Copy) -> bool {
    let there = |sender: Option<Copy>, link| sender.is_some_and(|s| in_time(link, &s, receiver));
    job.links_into(task).all(|link| there(finished[link.from], link))
}

/// What becomes of a copy that starts unless its node is lost by then.
pub fn state(copy: &Copy, starts: bool, loss: Option<Loss>) -> State {
    if !starts {
        return State::NotStarted;
    }
    match loss.filter(|loss| u64::from(loss.group) == copy.group) {
        Some(loss) if copy.start >= u64::from(loss.moment) => State::NotStarted,
        Some(loss) if copy.finish > u64::from(loss.moment) => State::Cut,
        _ => State::Finished,
    }
}

#[cfg(test)]
mod tests {
    use super::*;
    use crate::jobs::random_job;
    use crate::plans::passing_plan;
    use crate::random::Random;
    use crate::samples::{job, plan_of, SAMPLE_1};
    use crate::survival::Survival;
    use crate::time_lists::random_times;

    fn written(outcomes: Vec<Outcome>) -> Vec<u8> {
        let numbers = outcomes.iter().map(|o| [o.primary as u32, o.backup as u32, o.finish as u32]);
        numbers.flatten().flat_map(u32::to_le_bytes).collect()
    }

    /// Request (viii): a passed plan outlives any one loss whatever its copies take.
    #[test]
    fn a_passed_plan_outlives_any_loss_with_any_list() {
        let random = &mut Random::new(23);
        for _ in 0..300 {
            let job = random_job(random);
            let Some(plan) = passing_plan(random, &job) else {
                continue;
            };
            let times = random_times(random, &listed_times(&job, &plan));
            let survival = Survival::with_times(&job, &plan, &times);
            let losses = survival
                .moments()
                .map(|(group, moment)| Some(Loss { group: group as u32, moment: moment as u32 }));
            for loss in losses.chain([None]) {
                let rows = written(replay_times(&job, &plan, loss, &times));
                assert_eq!(survival.fault(loss, &rows), None);
            }
        }
    }

    #[test]
    fn a_loss_after_an_early_end_is_no_matter() {
        let times = [Ticks { primary: 2, backup: 4 }, Ticks { primary: 1, backup: 3 }];
        let run = |moment| {
            let loss = Some(Loss { group: 0, moment });
            replay_times(&job(), &plan_of(SAMPLE_1), loss, &times)
        };
        assert_eq!(run(1).iter().map(|task| task.finish).collect::<Vec<_>>(), [9, 12]);
        assert_eq!(run(2).iter().map(|task| task.finish).collect::<Vec<_>>(), [2, 12]);
        assert_eq!(run(5).iter().map(|task| task.finish).collect::<Vec<_>>(), [2, 5]);
    }
}
