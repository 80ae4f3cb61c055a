//! Run times from the last runs, tried on a job (request (x)): tables of good logs, jobs renewed by
//! them, faulty logs, and a log that grows.

use crate::console::table_bytes;
use crate::damage::damaged;
use crate::files::{read_job, Job, MAX_TIME, NODES, TASKS};
use crate::given::{some_room, Given};
use crate::jobs::random_job;
use crate::logs::{
    newest, renewed, run_times, write_log, write_table, Record, Table, RECORD, WINDOW,
};
use crate::other_windows::count_table;
use crate::random::Random;
use crate::random_logs::{damaged_log, faulty, log_of, random_log, Fault, FAULTS};
use crate::refusal::{number_of, Refusal, SHORT_BUFFER};
use crate::tally::Tally;
use crate::trial::{Call, Function, Mismatch, Trial};

/// Logs for each job.
const LOGS: usize = 3;

/// Of so many small jobs in a hundred a log grows record by record, through so many lengths.
const GROWING: u64 = 20;
const STEPS: usize = 300;

/// A random job, and logs for it.
pub fn logs(trial: &mut Trial, random: &mut Random) -> Result<(), Mismatch> {
    let given = Given::new(random_job(random));
    let planned = plan(trial, &given)?;
    for _ in 0..LOGS {
        let log = random_log(random, &given.job);
        let table = try_table(trial, &given, &log)?;
        try_renewed(trial, &given, &write_log(&log), &table, planned.as_deref())?;
        try_rooms(trial, random, &given, &log)?;
        try_faulty_logs(trial, random, &given, &log)?;
        let bad = damaged(random, &given.bytes);
        try_both(trial, &bad, &write_log(&log), given.bytes.len())?;
    }
    if given.job.tasks.len() <= 8 && random.percent(GROWING) {
        grow(trial, random, &given)?;
    }
    Ok(())
}

/// The planner's plan, if there is one, which the judge has to pass.
fn plan(trial: &mut Trial, given: &Given) -> Result<Option<Vec<u8>>, Mismatch> {
    if trial.compare(&given.plan(given.plan_room()))? != 0 {
        return Ok(None);
    }
    let plan = trial.written().to_vec();
    let call = given.judge(&plan);
    if trial.compare(&call)? != 0 {
        return Err(Mismatch::new(&call, "refused the planner's own plan".into()));
    }
    Ok(Some(plan))
}

fn try_table(trial: &mut Trial, given: &Given, log: &[Record]) -> Result<Table, Mismatch> {
    let bytes = write_log(log);
    trial.compare(&given.run_times(&bytes, given.table_room()))?;
    let table = run_times(&given.job, log);
    count(&mut trial.tally, &given.job, log, &table);
    count_table(&mut trial.tally, &given.job, log, &table);
    Ok(table)
}

fn count(tally: &mut Tally, job: &Job, log: &[Record], table: &Table) {
    let lengths = [0, 1, WINDOW - 1, WINDOW, WINDOW + 1, WINDOW + 2, 10_000];
    let kind = lengths.iter().rposition(|&least| least <= log.len()).unwrap_or(0);
    tally.logs_of[kind] += 1;
    tally.tables_version[job.version as usize - 1] += 1;
    let listed = job.tasks.iter().flat_map(|task| &task.run);
    let times = || table.iter().flatten().zip(listed.clone());
    tally.tables_below += u64::from(times().any(|(time, run)| time < run));
    tally.tables_above += u64::from(times().any(|(time, run)| time > run));
    tally.tables_least += u64::from(times().any(|(&time, &run)| time == 1 && run > 1));
    tally.tables_most += u64::from(times().any(|(&time, &run)| time == MAX_TIME && run < time));
}

/// The job with the table of a good log: it reads well and has nothing else that is new, and the
/// same log changes nothing in it. It is planned, and the old job's plan is put to it.
fn try_renewed(
    trial: &mut Trial,
    given: &Given,
    log: &[u8],
    table: &Table,
    planned: Option<&[u8]>,
) -> Result<(), Mismatch> {
    let call = given.renew_job(log, given.bytes.len());
    trial.compare(&call)?;
    let expected = renewed(&given.job, table);
    if read_job(trial.written()).as_ref() != Ok(&expected) {
        return Err(Mismatch::new(&call, "not the job with the table's times".into()));
    }
    let new = Given::new(expected);
    let again = new.renew_job(log, new.bytes.len());
    trial.compare(&again)?;
    if trial.written() != new.bytes {
        return Err(Mismatch::new(&again, "the same log renewed the job once more".into()));
    }
    let times = new.run_times(log, new.table_room());
    trial.compare(&times)?;
    if trial.written() != write_table(table) {
        return Err(Mismatch::new(&times, "another table of the renewed job".into()));
    }
    let is_new = u64::from(new.job != given.job);
    let plan = plan(trial, &new)?;
    trial.tally.renewed += is_new;
    trial.tally.renewed_planned += is_new * u64::from(plan.is_some());
    trial.tally.renewed_otherwise += u64::from(plan.as_deref() != planned);
    for plan in plan.as_deref().into_iter().chain(planned) {
        trial.compare(&new.judge(plan))?;
        trial.compare(&new.trial(plan))?;
        trial.compare(&new.replay(plan, None, new.replay_room()))?;
    }
    Ok(())
}

/// Short and long buffers for both, now and then of every length.
fn try_rooms(
    trial: &mut Trial,
    random: &mut Random,
    given: &Given,
    log: &[Record],
) -> Result<(), Mismatch> {
    let bytes = write_log(log);
    let rooms = [given.table_room(), given.bytes.len()];
    for (call, needed) in both(given, &bytes, rooms).into_iter().zip(rooms) {
        let code = trial.compare(&Call { room: some_room(random, needed), ..call })?;
        trial.tally.logs_short += u64::from(number_of(code) == usize::from(SHORT_BUFFER));
    }
    if given.job.tasks.len() <= 16 && random.percent(1) {
        let few = write_log(&log[..log.len().min(9)]);
        for room in 0..=rooms[0].max(rooms[1]) + 13 {
            try_both(trial, &given.bytes, &few, room)?;
        }
    }
    Ok(())
}

/// The table and the renewed job, with a room for each.
fn both<'a>(given: &'a Given, log: &'a [u8], rooms: [usize; 2]) -> [Call<'a>; 2] {
    [given.run_times(log, rooms[0]), given.renew_job(log, rooms[1])]
}

/// Both on any files.
fn try_both(trial: &mut Trial, job: &[u8], log: &[u8], room: usize) -> Result<(), Mismatch> {
    for function in [Function::RunTimes(log), Function::RenewJob(log)] {
        trial.compare(&Call { function, job, plan: &[], room })?;
    }
    Ok(())
}

/// Three of the faults, and a log damaged in any way; now and then one cut at every length.
fn try_faulty_logs(
    trial: &mut Trial,
    random: &mut Random,
    given: &Given,
    log: &[Record],
) -> Result<(), Mismatch> {
    let first = random.below(FAULTS.len());
    for step in [0, 3, 5] {
        try_fault(trial, random, given, log, FAULTS[(first + step) % FAULTS.len()])?;
    }
    let bad = damaged_log(random, &given.job, log);
    try_both(trial, &given.bytes, &bad, given.table_room().max(given.bytes.len()))?;
    if random.percent(1) {
        try_every_length(trial, given, log)?;
    }
    Ok(())
}

/// Half of the buffers are too short, which comes before the log.
fn try_fault(
    trial: &mut Trial,
    random: &mut Random,
    given: &Given,
    log: &[Record],
    fault: Fault,
) -> Result<(), Mismatch> {
    let Some(faulty) = faulty(random, &given.job, log, fault) else {
        return Ok(());
    };
    let rooms = [given.table_room(), given.bytes.len()];
    for (call, needed) in both(given, &faulty.bytes, rooms).into_iter().zip(rooms) {
        trial.refuse(&call, faulty.refusal)?;
        let short = Call { room: random.pick(&[0, needed - 1]), ..call };
        trial.refuse(&short, Refusal::at(SHORT_BUFFER, needed as u64))?;
    }
    let is_cut = matches!(fault, Fault::Cut | Fault::CutBetween);
    let is_last = faulty.at + 1 == log.len();
    trial.tally.logs_refused[fault as usize] += 1;
    trial.tally.log_faults_first += u64::from(faulty.at == 0 && !is_last);
    trial.tally.log_faults_last += u64::from(is_last && faulty.at > 0);
    trial.tally.log_faults_left += u64::from(!is_cut && faulty.at + WINDOW < log.len());
    Ok(())
}

/// The end of a log cut at every length, and with a tail.
fn try_every_length(trial: &mut Trial, given: &Given, log: &[Record]) -> Result<(), Mismatch> {
    let bytes = [write_log(log), vec![1; 9]].concat();
    let room = given.table_room().max(given.bytes.len());
    for length in (RECORD * log.len()).saturating_sub(4 * RECORD)..=bytes.len() {
        try_both(trial, &given.bytes, &bytes[..length], room)?;
    }
    Ok(())
}

/// A log that gets longer by one record at a time, through lengths around one window or several.
fn grow(trial: &mut Trial, random: &mut Random, given: &Given) -> Result<(), Mismatch> {
    let first = random.pick(&[0, 100, 100, 350, 600]);
    let log = log_of(random, &given.job, first + STEPS);
    let bytes = write_log(&log);
    let mut last = None;
    for records in first.min(log.len())..=log.len() {
        let so_far = &bytes[..RECORD * records];
        trial.compare(&given.run_times(so_far, given.table_room()))?;
        if records % 16 == 0 {
            trial.compare(&given.renew_job(so_far, given.bytes.len()))?;
        }
        let table = run_times(&given.job, &log[..records]);
        if let Some(last) = last.replace(table.clone()) {
            count_step(&mut trial.tally, &log[..records], &last, &table);
        }
    }
    Ok(())
}

/// The record that leaves may have been the largest of its task on that node, or the last one.
fn count_step(tally: &mut Tally, log: &[Record], last: &Table, table: &Table) {
    tally.steps += 1;
    if let Some(left) = log.len().checked_sub(WINDOW + 1).map(|at| log[at]) {
        let time = |table: &Table| table[left.task][left.node];
        let mut others = newest(log).iter().map(|record| (record.task, record.node));
        let stays = others.any(|cell| cell == (left.task, left.node));
        tally.steps_lower += u64::from(stays && time(table) < time(last));
        tally.steps_back += u64::from(!stays && time(table) != time(last));
    }
}

/// All comparisons on given files, as written after a mismatch, the second read as a log.
pub fn log(trial: &mut Trial, job: &[u8], log: &[u8]) -> Result<(), Mismatch> {
    let most = table_bytes(NODES.1 as usize, TASKS.1 as usize).max(job.len());
    for room in 0..=most + 16 {
        try_both(trial, job, log, room)?;
    }
    for length in log.len().saturating_sub(STEPS * RECORD)..log.len() {
        try_both(trial, job, &log[..length], most)?;
    }
    Ok(())
}
