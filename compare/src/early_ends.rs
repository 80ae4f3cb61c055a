//! What early ends do in a run (request (viii)). No answer rests on it: it is there to count where
//! the run is not that with listed times, and where a wrong reading would go otherwise.

use crate::files::{Job, Plan};
use crate::replay::{ended, inputs_there, replay_times, state, Loss, Outcome, State};
use crate::rules::{after_detection, in_time, layout, Copy, Layout};
use crate::tally::Tally;
use crate::times::Ticks;

/// A run with a list of actual times.
struct Run<'a> {
    job: &'a Job,
    loss: Option<Loss>,
    times: &'a [Ticks],
    outcomes: Vec<Outcome>,
    /// As listed, and as the copies end.
    listed: Layout,
    ended: Layout,
}

/// Counts what the early ends of a list do in a run of a plan.
pub fn count_run(
    tally: &mut Tally,
    job: &Job,
    plan: &Plan,
    loss: Option<Loss>,
    times: &[Ticks],
    passed: bool,
) {
    let run = Run::new(job, plan, loss, times);
    let (outlasted, fed, kept_back) =
        (run.outlasts_by_end(), run.is_fed_by_end(), run.is_kept_back());
    tally.timed_version[job.version as usize - 1] += 1;
    tally.timed_otherwise += u64::from(outlasted || fed);
    tally.outlived_otherwise += u64::from(passed && (outlasted || fed));
    tally.timed_sooner += u64::from(run.finishes_sooner());
    tally.outlasted_by_end += u64::from(outlasted);
    tally.fed_by_end += u64::from(fed);
    tally.fed_without_loss += u64::from(fed && loss.is_none() && !passed);
    tally.kept_back += u64::from(kept_back && !passed);
    tally.timed_by_swap += u64::from(run.differs_by_swap(plan));
}

impl Run<'_> {
    fn new<'a>(job: &'a Job, plan: &Plan, loss: Option<Loss>, times: &'a [Ticks]) -> Run<'a> {
        let listed = layout(job, plan);
        let primaries = listed.primaries.iter().zip(times).map(|(c, t)| ended(c, t.primary));
        let backups = listed.backups.iter().zip(times).map(|(c, t)| ended(c, t.backup));
        let ended = Layout { primaries: primaries.collect(), backups: backups.collect() };
        let outcomes = replay_times(job, plan, loss, times);
        Run { job, loss, times, outcomes, listed, ended }
    }

    /// The finished copy of each task, in a layout.
    fn finished(&self, placed: &Layout) -> Vec<Option<Copy>> {
        let copies = placed.primaries.iter().zip(&placed.backups).zip(&self.outcomes);
        let finished = copies.map(|((primary, backup), outcome)| match outcome {
            Outcome { primary: State::Finished, .. } => Some(*primary),
            Outcome { backup: State::Finished, .. } => Some(*backup),
            _ => None,
        });
        finished.collect()
    }

    /// A copy is finished that the loss would cut if it took the listed time.
    fn outlasts_by_end(&self) -> bool {
        let is_cut = |copy: &Copy| state(copy, true, self.loss) == State::Cut;
        self.finished(&self.listed).iter().flatten().any(is_cut)
    }

    /// A copy started that lacks an input if results leave at the listed finish.
    fn is_fed_by_end(&self) -> bool {
        let finished = self.finished(&self.listed);
        self.job.links.iter().any(|link| {
            let sender = finished[link.from];
            let late = |receiver: &Copy| sender.is_some_and(|s| !in_time(link, &s, receiver));
            let Outcome { primary, backup, .. } = self.outcomes[link.to];
            primary != State::NotStarted && late(&self.listed.primaries[link.to])
                || backup != State::NotStarted && late(&self.listed.backups[link.to])
        })
    }

    /// A backup that is called on would start if rule B went by the primary's end.
    fn is_kept_back(&self) -> bool {
        let finished = self.finished(&self.ended);
        (0..self.outcomes.len()).any(|task| {
            let (primary, backup) = (&self.ended.primaries[task], &self.ended.backups[task]);
            self.outcomes[task].primary != State::Finished
                && !after_detection(self.job, &self.listed.primaries[task], backup)
                && after_detection(self.job, primary, backup)
                && inputs_there(self.job, &finished, task, backup)
                && state(backup, true, self.loss) != State::NotStarted
        })
    }

    /// A finish is told that is not the listed one.
    fn finishes_sooner(&self) -> bool {
        let listed = self.finished(&self.listed).into_iter().zip(&self.outcomes);
        listed.into_iter().any(|(copy, told)| copy.is_some_and(|copy| told.finish < copy.finish))
    }

    /// The run is another with the times of each task's copies swapped.
    fn differs_by_swap(&self, plan: &Plan) -> bool {
        let swap = |ticks: &Ticks| Ticks { primary: ticks.backup, backup: ticks.primary };
        let swapped: Vec<Ticks> = self.times.iter().map(swap).collect();
        replay_times(self.job, plan, self.loss, &swapped) != self.outcomes
    }
}

#[cfg(test)]
mod tests {
    use super::*;
    use crate::jobs::random_job;
    use crate::plans::{changed_plan, passing_plan, wild_plan};
    use crate::random::Random;
    use crate::replay::replay;
    use crate::rules::after_ready;
    use crate::time_lists::random_times;
    use crate::times::listed_times;

    /// Wrong readings of request (viii).
    #[derive(Clone, Copy, Default)]
    struct Reading {
        cut_as_listed: bool,
        sent_as_listed: bool,
        detected_by_end: bool,
    }

    /// The states of both copies of each task, by a reading.
    fn states_by(run: &Run, reading: Reading) -> Vec<[State; 2]> {
        let (job, loss, listed, ended) = (run.job, run.loss, &run.listed, &run.ended);
        let cut = if reading.cut_as_listed { listed } else { ended };
        let sent = if reading.sent_as_listed { listed } else { ended };
        let detected = if reading.detected_by_end { ended } else { listed };
        let mut finished: Vec<Option<Copy>> = Vec::new();
        let mut states = Vec::new();
        for task in 0..job.tasks.len() {
            let (primary, backup) = (&cut.primaries[task], &cut.backups[task]);
            let starts =
                after_ready(job, task, primary) && inputs_there(job, &finished, task, primary);
            let first = state(primary, starts, loss);
            let starts = first != State::Finished
                && after_detection(job, &detected.primaries[task], backup)
                && inputs_there(job, &finished, task, backup);
            let second = state(backup, starts, loss);
            finished.push(match (first, second) {
                (State::Finished, _) => Some(sent.primaries[task]),
                (_, State::Finished) => Some(sent.backups[task]),
                _ => None,
            });
            states.push([first, second]);
        }
        states
    }

    fn states(outcomes: &[Outcome]) -> Vec<[State; 2]> {
        outcomes.iter().map(|outcome| [outcome.primary, outcome.backup]).collect()
    }

    /// Each thing counted is there just where a wrong reading goes otherwise. Answers which are.
    fn assert_counted(run: &Run, plan: &Plan) -> [bool; 4] {
        let right = states(&run.outcomes);
        let none = Reading::default();
        assert_eq!(states_by(run, none), right);
        let goes_otherwise = [
            states_by(run, Reading { cut_as_listed: true, ..none }) != right,
            states_by(run, Reading { sent_as_listed: true, ..none }) != right,
            states_by(run, Reading { detected_by_end: true, ..none }) != right,
            states(&replay(run.job, plan, run.loss)) != right,
        ];
        let (outlasted, fed) = (run.outlasts_by_end(), run.is_fed_by_end());
        assert_eq!(goes_otherwise, [outlasted, fed, run.is_kept_back(), outlasted || fed]);
        goes_otherwise
    }

    #[test]
    fn what_is_counted_is_where_a_wrong_reading_goes_otherwise() {
        let random = &mut Random::new(22);
        let mut met = [0; 4];
        for _ in 0..3000 {
            let job = random_job(random);
            let Some(good) = passing_plan(random, &job) else {
                continue;
            };
            for plan in [changed_plan(random, &job, &good), wild_plan(random, &job), good] {
                let listed = listed_times(&job, &plan);
                // A changed or wild plan need not read well.
                if listed.iter().any(|most| most.primary == 0 || most.backup == 0) {
                    continue;
                }
                let times = random_times(random, &listed);
                let group = random.pick(&job.nodes.iter().map(|n| n.group).collect::<Vec<_>>());
                let loss = Loss { group: group as u32, moment: random.between(0, 40) as u32 };
                for loss in [None, Some(loss)] {
                    let counted = assert_counted(&Run::new(&job, &plan, loss, &times), &plan);
                    met.iter_mut().zip(counted).for_each(|(met, is)| *met += usize::from(is));
                }
            }
        }
        assert!(met.iter().all(|&met| met > 100), "{met:?}");
    }
}
