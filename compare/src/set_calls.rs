//! The judge's answer to a round's plans, the trial's, and their fault sets: the calls, the states
//! between tasks, and what is counted.

use crate::drawers::count_judged;
use crate::earlier::without_send_times;
use crate::fault_sets::fault_sets;
use crate::files::{read_plan, Job};
use crate::gathering::Gathering;
use crate::given::{some_room, Given};
use crate::moment_calls::try_moments;
use crate::order_of_time;
use crate::random::Random;
use crate::refusal::{number_of, EARLY, LATE, PRIMARY_UNFED, SAME_NODE, TOO_SOON};
use crate::rules::{layout, FaultSet};
use crate::tally::Tally;
use crate::trial::{Mismatch, Trial};

/// Short and long buffers, now and then of every length. The plan need not read well.
pub fn try_rooms(
    trial: &mut Trial,
    random: &mut Random,
    given: &Given,
    plan: &[u8],
) -> Result<(), Mismatch> {
    let needed = given.sets_room();
    if random.percent(2) && given.job.tasks.len() <= 16 {
        for room in 0..=needed + 13 {
            trial.compare(&given.fault_sets(plan, room))?;
        }
    }
    trial.compare(&given.fault_sets(plan, some_room(random, needed)))?;
    Ok(())
}

/// The judge's answer to a plan, the trial's, and the plan's sets. Those of the second implementation are
/// gathered task by task too, and what request (v) says has to hold after each of them.
pub fn try_judge(trial: &mut Trial, given: &Given, bytes: &[u8]) -> Result<u64, Mismatch> {
    let judged = trial.compare(&given.judge(bytes))?;
    try_moments(trial, given, bytes, judged)?;
    if trial.compare(&given.fault_sets(bytes, given.sets_room()))? != 0 {
        return Ok(judged);
    }
    let plan = read_plan(&given.job, bytes).expect("its sets were found");
    let placed = layout(&given.job, &plan);
    let sets = fault_sets(&given.job, &placed);
    let gathering = Gathering::new(&given.job, &placed);
    assert!(gathering.keeps_to(&sets), "the states between tasks are not those of request (v)");
    let earlier = without_send_times(&given.job);
    let changed = |job: Job| fault_sets(&job, &layout(&job, &plan)) != sets;
    trial.tally.sets_by_send += u64::from(earlier.is_some_and(changed));
    count(&mut trial.tally, &sets, &gathering, judged);
    count_judged(&mut trial.tally, &given.job, &plan, judged);
    order_of_time::count_judged(&mut trial.tally, given.job.nodes.len(), &placed, &sets, judged);
    Ok(judged)
}

fn count(tally: &mut Tally, sets: &[FaultSet], gathering: &Gathering, judged: u64) {
    let of_at_least = |groups: usize| sets.iter().filter(|set| set.len() >= groups).count() as u64;
    tally.sets_passed += u64::from(judged == 0);
    tally.sets_refused += u64::from(judged != 0);
    tally.sets_unjudged += u64::from(refused_before_e(judged) && of_at_least(2) > 0);
    tally.sets_of_two += of_at_least(2);
    tally.sets_of_three += of_at_least(3);
    tally.sets_in_reverse += u64::from(gathering.in_reverse() != sets);
    tally.sets_by_sender += u64::from(gathering.differs_by_sender());
}

/// No rule that asks for fault sets was tried.
fn refused_before_e(judged: u64) -> bool {
    [SAME_NODE, TOO_SOON, EARLY, LATE, PRIMARY_UNFED].map(usize::from).contains(&number_of(judged))
}
