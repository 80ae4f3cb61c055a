//! Lists of actual times at random: good ones, and those with a fault.

use crate::damage::damaged;
use crate::files::{bytes_of, Job, Plan};
use crate::random::Random;
use crate::refusal::{Refusal, SHORT, TAIL, VALUE};
use crate::times::{listed_times, times_numbers, write_times, Ticks};

pub fn all_ones(listed: &[Ticks]) -> Vec<Ticks> {
    vec![Ticks { primary: 1, backup: 1 }; listed.len()]
}

/// From 1 to the listed time for each copy: anything, or as listed for most, or 1 for most.
pub fn random_times(random: &mut Random, listed: &[Ticks]) -> Vec<Ticks> {
    let (as_listed, at_once) = random.pick(&[(0, 0), (10, 10), (70, 10), (10, 70)]);
    let mut ticks = |most: u64| match random.between(0, 99) {
        chance if chance < as_listed => most,
        chance if chance < as_listed + at_once => 1,
        _ => random.between(1, most),
    };
    let mut both =
        |most: &Ticks| Ticks { primary: ticks(most.primary), backup: ticks(most.backup) };
    listed.iter().map(&mut both).collect()
}

/// What may be wrong with a list.
#[derive(Clone, Copy, Debug, PartialEq, Eq)]
pub enum Fault {
    Cut,
    Tail,
    Zero,
    /// A tick more than listed.
    OneMore,
    Greatest,
    /// The time listed for another node, where it is longer.
    OtherNode,
    /// The listed times of a task's copies, each in the other's place.
    Swapped,
}

pub const FAULTS: [Fault; 7] = [
    Fault::Cut,
    Fault::Tail,
    Fault::Zero,
    Fault::OneMore,
    Fault::Greatest,
    Fault::OtherNode,
    Fault::Swapped,
];

pub struct Faulty {
    pub bytes: Vec<u8>,
    pub refusal: Refusal,
}

/// The list with that fault; none if no number can have it.
pub fn faulty(
    random: &mut Random,
    job: &Job,
    plan: &Plan,
    times: &[Ticks],
    fault: Fault,
) -> Option<Faulty> {
    match fault {
        Fault::Cut => Some(cut(random, times)),
        Fault::Tail => Some(with_tail(random, times)),
        _ => with_wrong_number(random, job, plan, times, fault),
    }
}

fn cut(random: &mut Random, times: &[Ticks]) -> Faulty {
    let mut bytes = write_times(times);
    // By less than a number as often as not.
    let least = if random.percent(50) { bytes.len() - 4 } else { 0 };
    bytes.truncate(random.between(least as u64, bytes.len() as u64 - 1) as usize);
    let refusal = Refusal::at(SHORT, bytes.len() as u64 / 4 * 4);
    Faulty { bytes, refusal }
}

fn with_tail(random: &mut Random, times: &[Ticks]) -> Faulty {
    let mut bytes = write_times(times);
    let refusal = Refusal::at(TAIL, bytes.len() as u64);
    for _ in 0..random.between(1, 5) {
        bytes.push(random.pick(&[0, 1, 255]));
    }
    Faulty { bytes, refusal }
}

/// Looks for a number that can be wrong in that way, from anywhere in the list.
fn with_wrong_number(
    random: &mut Random,
    job: &Job,
    plan: &Plan,
    times: &[Ticks],
    fault: Fault,
) -> Option<Faulty> {
    let (mut numbers, listed) = (times_numbers(times), times_numbers(&listed_times(job, plan)));
    let first = random.below(numbers.len());
    let mut places = (0..numbers.len()).map(|step| (first + step) % listed.len());
    let (at, wrong) = places.find_map(|at| {
        let wrong = wrong_number(random, job, &listed, at, fault);
        wrong.map(|number| (at, number))
    })?;
    numbers[at] = wrong;
    if fault == Fault::Swapped {
        numbers[at ^ 1] = listed[at];
    }
    Some(Faulty { bytes: bytes_of(&numbers), refusal: Refusal::at(VALUE, 4 * at as u64) })
}

/// A task's numbers stand at an even place and behind it.
fn wrong_number(
    random: &mut Random,
    job: &Job,
    listed: &[u64],
    at: usize,
    fault: Fault,
) -> Option<u64> {
    let most = listed[at];
    match fault {
        Fault::Cut | Fault::Tail => None,
        Fault::Zero => Some(0),
        Fault::OneMore => Some(most + 1),
        Fault::Greatest => Some(u64::from(u32::MAX)),
        Fault::OtherNode => {
            let longer = job.tasks[at / 2].run.iter().copied().filter(|&run| run > most);
            let longer: Vec<u64> = longer.collect();
            (!longer.is_empty()).then(|| random.pick(&longer))
        }
        Fault::Swapped => Some(listed[at ^ 1]).filter(|&other| other > most),
    }
}

/// A list with several faults, or with one of any other kind, or by chance with none.
pub fn damaged_times(random: &mut Random, job: &Job, plan: &Plan, times: &[Ticks]) -> Vec<u8> {
    let fault = random.pick(&FAULTS);
    let bytes = match faulty(random, job, plan, times, fault) {
        Some(faulty) if !faulty.bytes.is_empty() && random.percent(50) => faulty.bytes,
        _ => write_times(times),
    };
    damaged(random, &bytes)
}

#[cfg(test)]
mod tests {
    use super::*;
    use crate::jobs::random_job;
    use crate::plans::passing_plan;
    use crate::times::read_times;

    #[test]
    fn lists_are_read_or_refused_as_they_should_be() {
        let random = &mut Random::new(21);
        let mut met = FAULTS.map(|_| 0);
        for _ in 0..1000 {
            let job = random_job(random);
            let Some(plan) = passing_plan(random, &job) else {
                continue;
            };
            let listed = listed_times(&job, &plan);
            let times = random_times(random, &listed);
            for good in [&listed, &all_ones(&listed), &times] {
                assert_eq!(read_times(&job, &plan, &write_times(good)).as_ref(), Ok(good));
            }
            for (fault, met) in FAULTS.into_iter().zip(&mut met) {
                if let Some(list) = faulty(random, &job, &plan, &times, fault) {
                    assert_eq!(read_times(&job, &plan, &list.bytes), Err(list.refusal));
                    *met += 1;
                }
            }
        }
        assert!(met.iter().all(|&met| met > 200), "{met:?}");
    }
}
