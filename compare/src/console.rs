//! Judge, planner, replay, ask, commit, fault sets, trial, run times and sentences on byte buffers,
//! as the console calls them.

use crate::asking;
use crate::bookings::{read_booking, read_description};
use crate::every_moment;
use crate::fault_sets;
use crate::files::{read_job, read_plan, row_numbers, write_job, write_plan, Job, Plan};
use crate::logs::{read_log, renewed, run_times as times_of, write_table};
use crate::planner;
use crate::refusal::{code_of, Refusal, NO, NOT_A_SENTENCE, NO_SUCH_NODE, SHORT_BUFFER};
use crate::replay::{self, Loss};
use crate::rules;
use crate::sentences::{printed, read, Parts};
use crate::times::{listed_times, read_times};

/// What ask writes: primary node, primary start, backup node, backup start.
pub type Places = [u32; 4];

type Replay = fn(&[u8], &[u8], Option<Loss>, &mut [u8]) -> u64;
type ReplayTimes = fn(&[u8], &[u8], Option<Loss>, &[u8], &mut [u8]) -> u64;
type Ask = fn(&[u8], &[u8], &[u8], &mut Places) -> u64;
type Commit = fn(&[u8], &[u8], &[u8], &mut [u8], &mut [u8]) -> u64;
type FromLog = fn(&[u8], &[u8], &mut [u8]) -> u64;

/// One implementation of the console's functions. No loss is a case of its own.
#[derive(Clone, Copy)]
pub struct Console {
    pub name: &'static str,
    pub judge: fn(&[u8], &[u8]) -> u64,
    pub plan: fn(&[u8], &mut [u8]) -> u64,
    pub replay: Replay,
    /// With the list of actual times behind the loss.
    pub replay_times: ReplayTimes,
    /// Job, plan and description.
    pub ask: Ask,
    /// Job, plan and booking; the longer job and the longer plan.
    pub commit: Commit,
    /// Job and plan; bit q is for group q.
    pub fault_sets: fn(&[u8], &[u8], &mut [u8]) -> u64,
    /// Job and plan; yes is 0.
    pub trial: fn(&[u8], &[u8]) -> u64,
    /// Job and log; the table.
    pub run_times: FromLog,
    /// Job and log; the job with that table.
    pub renew_job: FromLog,
    /// Number, first place and second place; the sentence.
    pub sentence: fn(u32, u64, u64, &mut [u8]) -> u64,
    /// The text; number, first place and second place.
    pub read_sentence: fn(&[u8], &mut Parts) -> u64,
}

/// The implementation of this package.
pub const SECOND: Console = Console {
    name: "second",
    judge,
    plan,
    replay,
    replay_times,
    ask,
    commit,
    fault_sets,
    trial,
    run_times,
    renew_job,
    sentence,
    read_sentence,
};

pub fn plan_bytes(tasks: usize) -> usize {
    8 + 16 * tasks
}

pub fn replay_bytes(tasks: usize) -> usize {
    12 * tasks
}

pub fn sets_bytes(tasks: usize) -> usize {
    4 * tasks
}

pub fn table_bytes(nodes: usize, tasks: usize) -> usize {
    4 * nodes * tasks
}

fn judge(job: &[u8], plan: &[u8]) -> u64 {
    code_of(passed(job, plan).map(|_| ()))
}

/// Both files, if the judge passes them.
fn passed(job: &[u8], plan: &[u8]) -> Result<(Job, Plan), Refusal> {
    let job = read_job(job)?;
    let plan = read_plan(&job, plan)?;
    rules::judge(&job, &plan)?;
    Ok((job, plan))
}

fn plan(job: &[u8], out: &mut [u8]) -> u64 {
    code_of(try_plan(job, out))
}

fn try_plan(job: &[u8], out: &mut [u8]) -> Result<(), Refusal> {
    let job = read_job(job)?;
    room_for(plan_bytes(job.tasks.len()), out)?;
    put(&write_plan(&planner::plan(&job)?), out);
    Ok(())
}

fn replay(job: &[u8], plan: &[u8], loss: Option<Loss>, out: &mut [u8]) -> u64 {
    code_of(try_replay(job, plan, loss, None, out))
}

fn replay_times(job: &[u8], plan: &[u8], loss: Option<Loss>, times: &[u8], out: &mut [u8]) -> u64 {
    code_of(try_replay(job, plan, loss, Some(times), out))
}

/// Without a list every copy takes the time that is listed for it.
fn try_replay(
    job: &[u8],
    plan: &[u8],
    loss: Option<Loss>,
    times: Option<&[u8]>,
    out: &mut [u8],
) -> Result<(), Refusal> {
    let job = read_job(job)?;
    let plan = read_plan(&job, plan)?;
    let lost = loss.map(|loss| u64::from(loss.group));
    if let Some(group) = lost.filter(|group| !job.groups().contains(group)) {
        return Err(Refusal::at(NO_SUCH_NODE, group));
    }
    let listed = || Ok(listed_times(&job, &plan));
    let times = times.map_or_else(listed, |list| read_times(&job, &plan, list))?;
    room_for(replay_bytes(job.tasks.len()), out)?;
    let outcomes = replay::replay_times(&job, &plan, loss, &times);
    let numbers =
        outcomes.iter().flat_map(|o| [o.primary as u32, o.backup as u32, o.finish as u32]);
    put(&numbers.flat_map(u32::to_le_bytes).collect::<Vec<u8>>(), out);
    Ok(())
}

fn ask(job: &[u8], plan: &[u8], task: &[u8], places: &mut Places) -> u64 {
    code_of(try_ask(job, plan, task).map(|answer| *places = answer))
}

fn try_ask(job: &[u8], plan: &[u8], task: &[u8]) -> Result<Places, Refusal> {
    let (job, plan) = passed(job, plan)?;
    let row = asking::ask(&job, &plan, &read_description(&job, task)?)?;
    Ok(row_numbers(&row).map(|number| number as u32))
}

fn commit(job: &[u8], plan: &[u8], booking: &[u8], out_job: &mut [u8], out_plan: &mut [u8]) -> u64 {
    code_of(try_commit(job, plan, booking, out_job, out_plan))
}

fn try_commit(
    job: &[u8],
    plan: &[u8],
    booking: &[u8],
    out_job: &mut [u8],
    out_plan: &mut [u8],
) -> Result<(), Refusal> {
    let (job, plan) = passed(job, plan)?;
    let (new, row) = read_booking(&job, booking)?;
    let (job, plan) = asking::commit(&job, &plan, &new, row)?;
    let (job, plan) = (write_job(&job), write_plan(&plan));
    room_for(job.len(), out_job)?;
    room_for(plan.len(), out_plan)?;
    put(&job, out_job);
    put(&plan, out_plan);
    Ok(())
}

fn fault_sets(job: &[u8], plan: &[u8], out: &mut [u8]) -> u64 {
    code_of(try_fault_sets(job, plan, out))
}

/// The judge is not asked.
fn try_fault_sets(job: &[u8], plan: &[u8], out: &mut [u8]) -> Result<(), Refusal> {
    let job = read_job(job)?;
    let plan = read_plan(&job, plan)?;
    room_for(sets_bytes(job.tasks.len()), out)?;
    let sets = fault_sets::fault_sets(&job, &rules::layout(&job, &plan));
    let bits = sets.iter().map(|set| set.iter().map(|&group| 1 << group).sum());
    put(&bits.flat_map(u32::to_le_bytes).collect::<Vec<u8>>(), out);
    Ok(())
}

fn trial(job: &[u8], plan: &[u8]) -> u64 {
    match try_trial(job, plan) {
        Ok(yes) => u64::from(!yes) * NO,
        Err(refusal) => refusal.code(),
    }
}

fn try_trial(job: &[u8], plan: &[u8]) -> Result<bool, Refusal> {
    let job = read_job(job)?;
    let plan = read_plan(&job, plan)?;
    Ok(every_moment::says_yes(&job, &plan))
}

fn run_times(job: &[u8], log: &[u8], out: &mut [u8]) -> u64 {
    code_of(try_run_times(job, log, out))
}

/// The log is read after 17.
fn try_run_times(job: &[u8], log: &[u8], out: &mut [u8]) -> Result<(), Refusal> {
    let job = read_job(job)?;
    room_for(table_bytes(job.nodes.len(), job.tasks.len()), out)?;
    let log = read_log(&job, log)?;
    put(&write_table(&times_of(&job, &log)), out);
    Ok(())
}

fn renew_job(job: &[u8], log: &[u8], out: &mut [u8]) -> u64 {
    code_of(try_renew_job(job, log, out))
}

fn try_renew_job(bytes: &[u8], log: &[u8], out: &mut [u8]) -> Result<(), Refusal> {
    let job = read_job(bytes)?;
    room_for(bytes.len(), out)?;
    let log = read_log(&job, log)?;
    put(&write_job(&renewed(&job, &times_of(&job, &log))), out);
    Ok(())
}

fn sentence(number: u32, first: u64, second: u64, out: &mut [u8]) -> u64 {
    code_of(try_sentence(number, first, second, out))
}

fn try_sentence(number: u32, first: u64, second: u64, out: &mut [u8]) -> Result<(), Refusal> {
    let place = u64::from(number);
    let text = printed([place, first, second]).ok_or_else(|| Refusal::at(NOT_A_SENTENCE, place))?;
    room_for(text.len(), out)?;
    put(text.as_bytes(), out);
    Ok(())
}

/// A length from 4 GiB on does not fit the first place.
fn read_sentence(text: &[u8], parts: &mut Parts) -> u64 {
    let length = text.len() as u64 & 0xffff_ffff;
    let answer = read(text).ok_or_else(|| Refusal::at(NOT_A_SENTENCE, length));
    code_of(answer.map(|answer| *parts = answer))
}

fn room_for(needed: usize, out: &[u8]) -> Result<(), Refusal> {
    if out.len() < needed {
        return Err(Refusal::at(SHORT_BUFFER, needed as u64));
    }
    Ok(())
}

fn put(bytes: &[u8], out: &mut [u8]) {
    out[..bytes.len()].copy_from_slice(bytes);
}
