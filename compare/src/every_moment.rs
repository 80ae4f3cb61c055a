//! The trial of every moment (request (ix)) in the request's own words: no loss, and each group lost
//! at each moment in turn, with a replay of its own and what each started copy then holds.

use crate::files::{Job, Place, Plan};
use crate::replay::Loss;

/// A copy as planned: it would hold `node` from `start` up to, but not including, `finish`.
#[derive(Clone, Copy)]
pub struct Span {
    pub node: usize,
    pub start: u64,
    pub finish: u64,
}

/// What becomes of a copy in a run.
#[derive(Clone, Copy, Debug, PartialEq, Eq)]
pub enum Fate {
    Unstarted,
    Cut,
    Done,
}

/// Primary and backup of a task.
type Both<T> = [T; 2];

/// A task, and 0 for its primary or 1 for its backup.
type Which = (usize, usize);

/// The runs of a plan.
pub struct Runs<'a> {
    pub job: &'a Job,
    pub copies: Vec<Both<Span>>,
    /// For each task its senders, with the delays of the links.
    inputs: Vec<Vec<(usize, u64)>>,
    /// The copies that may share ticks of a node, two by two: a copy holds none beside those that it
    /// is planned for.
    meetings: Vec<(Which, Which)>,
    /// The last finish.
    end: u64,
}

/// Every tick is tried up to so many ticks times tasks.
const MOST_TICKS: u64 = 2_000;

pub fn says_yes(job: &Job, plan: &Plan) -> bool {
    Runs::new(job, plan).are_all_good()
}

impl<'a> Runs<'a> {
    pub fn new(job: &'a Job, plan: &Plan) -> Runs<'a> {
        let span = |task: usize, Place { node, start }: Place| {
            let finish = start + job.tasks[task].run[node];
            Span { node, start, finish }
        };
        let rows = plan.rows.iter().enumerate();
        let copies: Vec<Both<Span>> =
            rows.map(|(task, row)| [row.primary, row.backup].map(|p| span(task, p))).collect();
        let mut inputs = vec![Vec::new(); copies.len()];
        for link in &job.links {
            inputs[link.to].push((link.from, link.delay));
        }
        let end = copies.as_flattened().iter().map(|copy| copy.finish).max().unwrap_or(0);
        Runs { job, meetings: meetings(&copies), copies, inputs, end }
    }

    pub fn are_all_good(&self) -> bool {
        self.every_primary_finishes() && self.is_good(None) && self.outlives_every_loss()
    }

    pub fn every_primary_finishes(&self) -> bool {
        self.run(None).iter().all(|fates| fates[0] == Fate::Done)
    }

    pub fn outlives_every_loss(&self) -> bool {
        let lost = |group: u64| self.moments(group).into_iter().map(move |moment| (group, moment));
        let mut losses = self.job.groups().into_iter().flat_map(lost);
        losses.all(|(group, moment)| self.outlives(group, moment))
    }

    pub fn outlives(&self, group: u64, moment: u64) -> bool {
        self.is_good(Some(Loss { group: group as u32, moment: moment as u32 }))
    }

    /// Each task is done by its deadline, and no two started copies overlap on one node.
    pub fn is_good(&self, loss: Option<Loss>) -> bool {
        let fates = self.run(loss);
        self.is_in_time(&fates) && !self.overlaps(loss, &fates)
    }

    pub fn is_in_time(&self, fates: &[Both<Fate>]) -> bool {
        let done = |task: usize| {
            let mut copies = self.copies[task].iter().zip(fates[task]);
            let deadline = self.job.tasks[task].deadline;
            copies.any(|(copy, fate)| fate == Fate::Done && copy.finish <= deadline)
        };
        (0..fates.len()).all(done)
    }

    /// A cut copy holds its node up to the moment of the loss.
    pub fn overlaps(&self, loss: Option<Loss>, fates: &[Both<Fate>]) -> bool {
        let held = |(task, which): Which| {
            let copy = self.copies[task][which];
            match fates[task][which] {
                Fate::Unstarted => None,
                Fate::Cut => loss.map(|loss| Span { finish: loss.moment.into(), ..copy }),
                Fate::Done => Some(copy),
            }
        };
        self.meetings.iter().any(|&(a, b)| {
            held(a).is_some_and(|first| held(b).is_some_and(|second| share(&first, &second)))
        })
    }

    /// Every moment from 0 up to one past the last finish: from then on a loss takes nothing more.
    ///
    /// Of a long plan, those around the starts and finishes in the group are enough for every tick
    /// in between. A copy of the group has started from one past its start on, and has finished from
    /// its finish on; at all other moments the same copies are unstarted, cut and done as a tick
    /// before. A cut one holds a tick more, but two started copies that share a tick share the
    /// start of the later one, which both of them hold.
    fn moments(&self, group: u64) -> Vec<u64> {
        match self.is_short() {
            true => self.every_tick(),
            false => self.moments_around(group),
        }
    }

    /// Whether every tick is tried.
    pub fn is_short(&self) -> bool {
        (self.end + 2) * self.copies.len() as u64 <= MOST_TICKS
    }

    fn every_tick(&self) -> Vec<u64> {
        (0..=self.end + 1).collect()
    }

    fn moments_around(&self, group: u64) -> Vec<u64> {
        let around = |moment: u64| [moment.saturating_sub(1), moment, moment + 1];
        let inside = self.copies.as_flattened().iter().filter(|copy| self.group(copy) == group);
        let moments = inside.flat_map(|copy| [copy.start, copy.finish]);
        let mut moments: Vec<u64> = moments.chain([0, self.end]).flat_map(around).collect();
        moments.sort_unstable();
        moments.dedup();
        moments
    }

    pub fn group(&self, copy: &Span) -> u64 {
        self.job.nodes[copy.node].group
    }

    /// What becomes of the copies of each task.
    pub fn run(&self, loss: Option<Loss>) -> Vec<Both<Fate>> {
        let mut fates: Vec<Both<Fate>> = Vec::with_capacity(self.copies.len());
        for (task, [primary, backup]) in self.copies.iter().enumerate() {
            let ready = self.job.tasks[task].ready <= primary.start;
            let first = self.fate(primary, loss, ready && self.is_fed(&fates, task, primary));
            let detected = primary.finish + self.job.nodes[primary.node].detect <= backup.start;
            let called = first != Fate::Done && detected;
            let second = self.fate(backup, loss, called && self.is_fed(&fates, task, backup));
            fates.push([first, second]);
        }
        fates
    }

    /// Of each sender some copy is done whose result is there by the receiver's start.
    fn is_fed(&self, fates: &[Both<Fate>], task: usize, receiver: &Span) -> bool {
        let arrives = |copy: &Span, delay: u64| match copy.node == receiver.node {
            true => copy.finish,
            false => copy.finish + delay + self.job.nodes[copy.node].send,
        };
        self.inputs[task].iter().all(|&(sender, delay)| {
            let mut copies = self.copies[sender].iter().zip(fates[sender]);
            copies.any(|(copy, fate)| fate == Fate::Done && arrives(copy, delay) <= receiver.start)
        })
    }

    fn fate(&self, copy: &Span, loss: Option<Loss>, starts: bool) -> Fate {
        match loss.filter(|loss| u64::from(loss.group) == self.group(copy)) {
            _ if !starts => Fate::Unstarted,
            Some(loss) if u64::from(loss.moment) <= copy.start => Fate::Unstarted,
            Some(loss) if u64::from(loss.moment) < copy.finish => Fate::Cut,
            _ => Fate::Done,
        }
    }
}

/// Some tick of a node is held by both.
pub fn share(a: &Span, b: &Span) -> bool {
    a.node == b.node && a.start.max(b.start) < a.finish.min(b.finish)
}

/// All pairs of copies, a task's own two among them, whose planned spans share a tick.
fn meetings(copies: &[Both<Span>]) -> Vec<(Which, Which)> {
    let all = || (0..2 * copies.len()).map(|at| (at / 2, at % 2));
    let pairs = all().flat_map(|b| all().take_while(move |&a| a < b).map(move |a| (a, b)));
    let meet = |&(a, b): &(Which, Which)| share(&copies[a.0][a.1], &copies[b.0][b.1]);
    pairs.filter(meet).collect()
}

#[cfg(test)]
pub mod tests {
    use super::*;
    use crate::jobs::random_job;
    use crate::patterns::{in_drawer, in_last_tick};
    use crate::plans::{changed_plan, passing_plan, wild_plan};
    use crate::random::Random;
    use crate::replay::{replay, Outcome, State};
    use crate::sharing::sharing_plan;

    /// Jobs with plans that read well: passed, sharing time, of a pattern, changed and wild.
    pub fn some_pairs(random: &mut Random) -> Vec<(Job, Plan)> {
        let job = random_job(random);
        let mut plans: Vec<Plan> = passing_plan(random, &job).into_iter().collect();
        plans.extend(sharing_plan(random, &job));
        let changed: Vec<Plan> = plans.iter().map(|p| changed_plan(random, &job, p)).collect();
        plans.extend(changed);
        plans.push(wild_plan(random, &job));
        let mut pairs: Vec<(Job, Plan)> = plans.into_iter().map(|p| (job.clone(), p)).collect();
        pairs.extend(in_drawer(random).into_iter().chain(in_last_tick(random)));
        pairs.retain(|(job, plan)| {
            let able = |task: usize, place: Place| job.tasks[task].run[place.node] > 0;
            let mut rows = plan.rows.iter().enumerate();
            rows.all(|(task, row)| able(task, row.primary) && able(task, row.backup))
        });
        pairs
    }

    fn fates(outcomes: &[Outcome]) -> Vec<Both<Fate>> {
        let fate = |state: State| match state {
            State::NotStarted => Fate::Unstarted,
            State::Cut => Fate::Cut,
            State::Finished => Fate::Done,
        };
        outcomes.iter().map(|outcome| [outcome.primary, outcome.backup].map(fate)).collect()
    }

    #[test]
    fn both_replays_of_this_package_find_the_same() {
        let random = &mut Random::new(31);
        for _ in 0..600 {
            for (job, plan) in some_pairs(random) {
                let runs = Runs::new(&job, &plan);
                let group = random.pick(&job.groups().into_iter().collect::<Vec<_>>()) as u32;
                let some = |moment: u64| Some(Loss { group, moment: moment as u32 });
                for loss in [None, some(random.between(0, runs.end + 1)), some(runs.end / 2)] {
                    assert_eq!(runs.run(loss), fates(&replay(&job, &plan, loss)));
                }
            }
        }
    }

    /// The moments around starts and finishes stand for every tick.
    #[test]
    fn some_moments_stand_for_every_tick() {
        let random = &mut Random::new(32);
        let mut met = [0; 2];
        for _ in 0..400 {
            for (job, plan) in some_pairs(random) {
                let runs = Runs::new(&job, &plan);
                if runs.end > 300 {
                    continue;
                }
                for group in job.groups() {
                    let good = |moments: Vec<u64>| moments.iter().all(|&m| runs.outlives(group, m));
                    let expected = good(runs.every_tick());
                    assert_eq!(good(runs.moments_around(group)), expected);
                    met[usize::from(expected)] += 1;
                }
            }
        }
        assert!(met.iter().all(|&met| met > 500), "{met:?}");
    }
}
