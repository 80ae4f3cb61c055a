//! One round of the comparison: a random job, plans for it, and damaged files of both.

use std::collections::BTreeSet;

use crate::changed_jobs::try_changed_jobs;
use crate::console::plan_bytes;
use crate::damage::{at_limit, cut_in_nodes, damaged, disordered, renumbered, Newer};
use crate::drawers::sends_in_drawer;
use crate::earlier::{
    hasty_plan, keeps_rule_e_of_01, without_drawers, without_ready_times, without_send_times,
};
use crate::files::{
    bytes_of, read_job, read_plan, write_plan, Job, Plan, MAX_GROUP, NEWEST, TASKS,
};
use crate::forgetful::forgetful_plan;
use crate::free_places;
use crate::given::{some_room, Given};
use crate::jobs::random_job;
use crate::losses::{moments_after, try_losses, try_survival};
use crate::plans::{changed_plan, passing_plan, wild_plan};
use crate::random::Random;
use crate::refusal::{number_of, Refusal, NO_SUCH_NODE, SAME_NODE, VERSION};
use crate::replay::{replay, Loss, State};
use crate::rules::{judge, layout, longest_weak_path, sharing_backups};
use crate::set_calls::{try_judge, try_rooms};
use crate::survival::Survival;
use crate::tally::Tally;
use crate::timed::Timed;
use crate::trial::{Call, Function, Mismatch, Trial};

pub fn round(trial: &mut Trial, random: &mut Random) -> Result<(), Mismatch> {
    let given = Given::new(random_job(random));
    let planned = try_planner(trial, random, &given)?;
    let is_planned = u64::from(planned.is_some());
    let all_ready = Some(without_ready_times(&given.job));
    trial.tally.planned_later += is_planned * try_hasty(trial, random, &given, all_ready)?;
    let sent_at_once = without_send_times(&given.job);
    trial.tally.planned_by_send += is_planned * try_hasty(trial, random, &given, sent_at_once)?;
    let apart = without_drawers(&given.job);
    trial.tally.planned_by_group += is_planned * try_hasty(trial, random, &given, apart)?;
    let good = good_plans(random, &given.job, planned);
    for plan in &good {
        try_plan(trial, random, &given, &write_plan(plan))?;
        try_changes(trial, random, &given, plan)?;
        try_changed_jobs(trial, random, &given, plan)?;
    }
    let wild = write_plan(&wild_plan(random, &given.job));
    try_plan(trial, random, &given, &wild)?;
    let plan = good.first().map_or(wild, write_plan);
    try_damage(trial, random, &given, &plan)?;
    if random.percent(3) && given.bytes.len() < 400 {
        try_every_length(trial, &given, &plan)?;
    }
    Ok(())
}

/// Tries the plan of the job as it was, if it breaks a rule now. Answers how many were tried.
fn try_hasty(
    trial: &mut Trial,
    random: &mut Random,
    given: &Given,
    earlier: Option<Job>,
) -> Result<u64, Mismatch> {
    let Some(hasty) = earlier.and_then(|earlier| hasty_plan(&given.job, &earlier)) else {
        return Ok(0);
    };
    try_plan(trial, random, given, &write_plan(&hasty))?;
    Ok(1)
}

/// All comparisons on a given pair of files, as written after a mismatch: nothing is left to
/// chance, so that the mismatch is met again.
pub fn pair(trial: &mut Trial, job: &[u8], plan: &[u8]) -> Result<(), Mismatch> {
    let most = plan_bytes(TASKS.1 as usize) + 16;
    for function in [Function::Judge, Function::Trial] {
        trial.compare(&Call { function, job, plan, room: 0 })?;
    }
    let lose = |group: u32| Function::Replay(Some(Loss { group, moment: 3 }));
    let replay = Function::Replay(None);
    for room in 0..=most {
        for function in [Function::Plan, replay, lose(0), lose(u32::MAX), Function::FaultSets] {
            trial.compare(&Call { function, job, plan, room })?;
        }
    }
    for group in (0..=MAX_GROUP as u32).chain(FAR_GROUPS) {
        trial.compare(&Call { function: lose(group), job, plan, room: most })?;
    }
    match read_job(job) {
        Ok(job) => pair_losses(trial, &Given::new(job), plan),
        Err(_) => Ok(()),
    }
}

/// Every group lost at every moment of interest, if both files read well.
fn pair_losses(trial: &mut Trial, given: &Given, bytes: &[u8]) -> Result<(), Mismatch> {
    let Ok(plan) = read_plan(&given.job, bytes) else {
        return Ok(());
    };
    let survival = Survival::new(&given.job, &plan);
    let after = moments_after(&survival).into_iter();
    let moments: BTreeSet<u64> = survival.moments().map(|(_, m)| m).chain(after).collect();
    for group in given.groups() {
        for &moment in &moments {
            let loss = Some(Loss { group: group as u32, moment: moment as u32 });
            trial.compare(&given.replay(bytes, loss, given.replay_room()))?;
        }
    }
    if trial.compare(&given.judge(bytes))? == 0 {
        try_survival(trial, &mut Random::new(0), given, bytes, &survival)?;
    }
    Ok(())
}

/// Answers the planner's plan, if there is one.
pub fn try_planner(
    trial: &mut Trial,
    random: &mut Random,
    given: &Given,
) -> Result<Option<Plan>, Mismatch> {
    let room = given.plan_room();
    if random.percent(4) && given.job.tasks.len() <= 16 {
        for room in 0..=room + 17 {
            trial.compare(&given.plan(room))?;
        }
    }
    trial.compare(&given.plan(some_room(random, room)))?;
    if trial.compare(&given.plan(room))? != 0 {
        trial.tally.one_group_refused += u64::from(given.groups().len() == 1);
        return Ok(None);
    }
    let bytes = trial.written().to_vec();
    let call = given.judge(&bytes);
    if trial.compare(&call)? != 0 {
        return Err(Mismatch::new(&call, "refused the planner's own plan".into()));
    }
    let plan = read_plan(&given.job, &bytes).expect("a passed plan reads well");
    count_planned(&mut trial.tally, &given.job, &plan);
    Ok(Some(plan))
}

fn count_planned(tally: &mut Tally, job: &Job, plan: &Plan) {
    let has_send = without_send_times(job).is_some();
    tally.planned_version[job.version as usize - 1] += 1;
    tally.planned_newly += u64::from(!keeps_rule_e_of_01(job, plan));
    tally.planned_forgetfully += u64::from(has_send && forgetful_plan(job).as_ref() != Some(plan));
    free_places::count_planned(tally, job, plan);
}

/// The planner's plan and others that keep the rules.
fn good_plans(random: &mut Random, job: &Job, planned: Option<Plan>) -> Vec<Plan> {
    let mut good: Vec<Plan> = planned.into_iter().collect();
    for _ in 0..2 {
        let another = passing_plan(random, job).filter(|plan| !good.contains(plan));
        good.extend(another);
    }
    good
}

/// Two changed plans tried in full, and more put before the judge.
fn try_changes(
    trial: &mut Trial,
    random: &mut Random,
    given: &Given,
    plan: &Plan,
) -> Result<(), Mismatch> {
    for _ in 0..2 {
        let changed = changed_plan(random, &given.job, plan);
        // A plan that came out as it was would be counted as passed twice.
        if changed != *plan {
            try_plan(trial, random, given, &write_plan(&changed))?;
        }
    }
    for _ in 0..16 {
        let changed = write_plan(&changed_plan(random, &given.job, plan));
        try_judge(trial, given, &changed)?;
    }
    Ok(())
}

/// All calls on a plan. Answers the judge's result.
pub fn try_plan(
    trial: &mut Trial,
    random: &mut Random,
    given: &Given,
    bytes: &[u8],
) -> Result<u64, Mismatch> {
    let code = try_judge(trial, given, bytes)?;
    trial.compare(&given.replay(bytes, None, given.replay_room()))?;
    try_replay_rooms(trial, random, given, bytes)?;
    try_rooms(trial, &mut random.aside(), given, bytes)?;
    let Ok(plan) = read_plan(&given.job, bytes) else {
        return Ok(code);
    };
    assert!(code == 0 || code & 0xff >= u64::from(SAME_NODE));
    count_replay(&mut trial.tally, &given.job, &plan);
    let survival = Survival::new(&given.job, &plan);
    try_losses(trial, random, given, bytes, &survival, code == 0)?;
    if code == 0 {
        count_passed(&mut trial.tally, &given.job, &plan);
        try_survival(trial, random, given, bytes, &survival)?;
    } else {
        let earlier = without_send_times(&given.job);
        let passed = earlier.is_some_and(|job| judge(&job, &plan).is_ok());
        trial.tally.refused_by_send += u64::from(passed);
    }
    let timed = Timed { given, plan: &plan, bytes, passed: code == 0 };
    timed.try_lists(trial, &mut random.aside())?;
    Ok(code)
}

fn count_passed(tally: &mut Tally, job: &Job, plan: &Plan) {
    let placed = layout(job, plan);
    let weak_path = longest_weak_path(job, &placed);
    tally.passed += 1;
    tally.passed_deep += u64::from(weak_path >= 2);
    tally.passed_large += u64::from(plan.rows.len() >= 32);
    tally.passed_newly += u64::from(!keeps_rule_e_of_01(job, plan));
    tally.passed_version[job.version as usize - 1] += 1;
    tally.passed_with_ready += u64::from(job.tasks.iter().any(|task| task.ready > 0));
    let has_drawer = without_drawers(job).is_some();
    let shares = sharing_backups(&placed).next().is_some();
    tally.passed_in_drawers += u64::from(has_drawer);
    tally.shared_in_drawers += u64::from(has_drawer && shares);
    tally.sent_in_drawer += u64::from(sends_in_drawer(job, &placed));
}

/// What the ready times do in the run without loss.
fn count_replay(tally: &mut Tally, job: &Job, plan: &Plan) {
    let outcomes = replay(job, plan, None);
    let unheld = replay(&without_ready_times(job), plan, None);
    let ran_sooner = |task: usize| {
        let start = plan.rows[task].backup.start;
        outcomes[task].backup == State::Finished && start < job.tasks[task].ready
    };
    tally.held_back += u64::from(outcomes != unheld);
    tally.backup_sooner += u64::from((0..outcomes.len()).any(ran_sooner));
}

/// Short and long buffers, with the loss of a group that is there and one that is not.
fn try_replay_rooms(
    trial: &mut Trial,
    random: &mut Random,
    given: &Given,
    plan: &[u8],
) -> Result<(), Mismatch> {
    let needed = given.replay_room();
    let group = random.pick(&given.groups()) as u32;
    let loss = Loss { group, moment: random.between(0, 20) as u32 };
    if random.percent(2) && given.job.tasks.len() <= 16 {
        for room in 0..=needed + 13 {
            trial.compare(&given.replay(plan, None, room))?;
            trial.compare(&given.replay(plan, Some(loss), room))?;
        }
    }
    trial.compare(&given.replay(plan, None, some_room(random, needed)))?;
    trial.compare(&given.replay(plan, Some(loss), some_room(random, needed)))?;
    let missing = Loss { group: missing_group(random, &given.job), ..loss };
    let code = trial.compare(&given.replay(plan, Some(missing), some_room(random, needed)))?;
    let is_below = number_of(code) == usize::from(NO_SUCH_NODE) && missing.group < given.nodes();
    trial.tally.missing_below += u64::from(is_below);
    Ok(())
}

const FAR_GROUPS: [u32; 13] =
    [16, 17, 31, 32, 64, 255, 256, 65_535, 65_536, 1 << 24, 1 << 31, u32::MAX - 1, u32::MAX];

/// A group without a node: as often as not, if there is any, one that could have one.
pub fn missing_group(random: &mut Random, job: &Job) -> u32 {
    let groups = job.groups();
    let (far, any) = (random.pick(&FAR_GROUPS), random.draw() as u32);
    let beyond = random.pick(&[far, far, u32::MAX, any.max(MAX_GROUP as u32 + 1)]);
    let near = (0..=MAX_GROUP).filter(|group| !groups.contains(group));
    let near: Vec<u32> = near.map(|group| group as u32).collect();
    let nodes = job.nodes.len() as u32;
    let next = near.iter().copied().find(|&group| group >= nodes).unwrap_or(beyond);
    let some = if near.is_empty() { beyond } else { random.pick(&near) };
    random.pick(&[beyond, beyond, next, some, some])
}

fn try_damage(
    trial: &mut Trial,
    random: &mut Random,
    given: &Given,
    plan: &[u8],
) -> Result<(), Mismatch> {
    for _ in 0..6 {
        let (bad_job, bad_plan) = (damaged(random, &given.bytes), damaged(random, plan));
        try_files(trial, random, &bad_job, plan)?;
        try_files(trial, random, &given.bytes, &bad_plan)?;
    }
    let faulty = [
        disordered(random, &given.job),
        at_limit(random, &given.job, Newer::Ready),
        at_limit(random, &given.job, Newer::Send),
        at_limit(random, &given.job, Newer::Group),
        Some(cut_in_nodes(random, &given.job)),
        Some(renumbered(random, &given.job)),
    ];
    for job in faulty.into_iter().flatten() {
        try_files(trial, random, &job, plan)?;
    }
    let (job, plan) = (damaged(random, &given.bytes), damaged(random, plan));
    try_files(trial, random, &job, &plan)
}

/// Both files cut at every length, and with a tail.
fn try_every_length(trial: &mut Trial, given: &Given, plan: &[u8]) -> Result<(), Mismatch> {
    let random = &mut Random::new(0);
    for length in 0..given.bytes.len() {
        try_files(trial, random, &given.bytes[..length], plan)?;
    }
    for length in 0..plan.len() {
        try_files(trial, random, &given.bytes, &plan[..length])?;
    }
    for extra in 1..9 {
        try_files(trial, random, &[&given.bytes, &[0; 9][..extra]].concat(), plan)?;
        try_files(trial, random, &given.bytes, &[plan, &[1; 9][..extra]].concat())?;
    }
    Ok(())
}

/// The functions of a round on any two files, and run times. The list of actual times is good for
/// any plan of that length that reads well. The log has one record, of task 0 on node 1.
fn try_files(
    trial: &mut Trial,
    random: &mut Random,
    job: &[u8],
    plan: &[u8],
) -> Result<(), Mismatch> {
    let room = random.pick(&[0, 100, 1_100]);
    let group = random.pick(&[0, 1, 2, 15, 16, u32::MAX]);
    let loss = Some(Loss { group, moment: random.between(0, 30) as u32 });
    let (whole, lossy) = (Function::Replay(None), Function::Replay(loss));
    let times = bytes_of(&vec![1; 2 * (plan.len().saturating_sub(8) / 16)]);
    let timed = [Function::ReplayTimes(None, &times), Function::ReplayTimes(loss, &times)];
    let log = bytes_of(&[0, 1, 5]);
    let logged = [Function::RunTimes(&log), Function::RenewJob(&log)];
    let functions =
        [Function::Judge, Function::Trial, Function::Plan, whole, lossy, Function::FaultSets];
    let later = job.first_chunk().is_some_and(|&v| u64::from(u32::from_le_bytes(v)) > NEWEST);
    for function in functions.into_iter().chain(timed).chain(logged) {
        let code = trial.compare(&Call { function, job, plan, room })?;
        let refused = code == Refusal::at(VERSION, 0).code();
        trial.tally.later_version += u64::from(later && refused);
    }
    Ok(())
}
