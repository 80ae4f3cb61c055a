//! Logs at random: good ones, and those with a fault.

use crate::damage::damaged;
use crate::files::{bytes_of, Job, MAX_TIME};
use crate::logs::{log_numbers, write_log, Record, RECORD, WINDOW};
use crate::random::Random;
use crate::refusal::{Refusal, SHORT, UNABLE, VALUE};

/// A task and a node.
type Cell = (usize, usize);

/// What ticks are drawn from.
#[derive(Clone, Copy)]
enum Style {
    /// Around the job's run time.
    Near,
    /// The limits, and the job's run time with its neighbours.
    Edges,
    /// So few that most are equal.
    Few,
    /// Each record has a tick less than the one before, or a tick more.
    Falling,
    Rising,
}

const STYLES: [Style; 5] = [Style::Near, Style::Edges, Style::Few, Style::Falling, Style::Rising];

/// A good log, empty if no node can run any task.
pub fn random_log(random: &mut Random, job: &Job) -> Vec<Record> {
    let records = random_length(random);
    log_of(random, job, records)
}

/// None, few, about as many as count, several hundred, and now and then more than 10,000.
fn random_length(random: &mut Random) -> usize {
    let (window, chance) = (WINDOW as u64, random.between(0, 99));
    let records = match chance {
        0..=3 => 0,
        4..=18 => random.between(1, 20),
        19..=58 => random.between(window - 2, window + 3),
        59..=98 => random.between(window + 4, 2_000),
        _ => random.between(10_000, 12_000),
    };
    records as usize
}

/// A good log of so many records: about few tasks and nodes, seldom or never about others, or about
/// all that go together.
pub fn log_of(random: &mut Random, job: &Job, records: usize) -> Vec<Record> {
    let cells = able_cells(random, job);
    if cells.is_empty() {
        return Vec::new();
    }
    let often = random.pick(&[1, 2, 4, 8, cells.len(), cells.len()]).min(cells.len());
    let (style, seldom) = (random.pick(&STYLES), random.pick(&[0, 1, 2]));
    let mut record = |at: usize| {
        let among = if random.percent(seldom) { &cells[..] } else { &cells[..often] };
        let (task, node) = random.pick(among);
        let run = job.tasks[task].run[node];
        let ticks = match style {
            Style::Near => random.between(1, 2 * run),
            Style::Edges => {
                let (less, more) = (run.saturating_sub(1), run + 1);
                random.pick(&[1, 2, less, run, more, MAX_TIME - 1, MAX_TIME])
            }
            Style::Few => random.between(1, 3),
            Style::Falling => (records - at) as u64,
            Style::Rising => at as u64 + 1,
        };
        Record { task, node, ticks: ticks.clamp(1, MAX_TIME) }
    };
    let mut log: Vec<Record> = (0..records).map(&mut record).collect();
    set_peaks(random, &mut log);
    log
}

fn all_cells(job: &Job) -> impl Iterator<Item = Cell> + '_ {
    let nodes = 0..job.nodes.len();
    (0..job.tasks.len()).flat_map(move |task| nodes.clone().map(move |node| (task, node)))
}

/// The tasks on the nodes that can run them, in any order.
fn able_cells(random: &mut Random, job: &Job) -> Vec<Cell> {
    let mut cells: Vec<Cell> =
        all_cells(job).filter(|&(task, node)| job.tasks[task].run[node] > 0).collect();
    random.shuffle(&mut cells);
    cells
}

/// Some of the records at both ends of the log and of the window, and beside these, get ticks that
/// are seldom met again.
fn set_peaks(random: &mut Random, log: &mut [Record]) {
    let behind = [1, 2, WINDOW - 1, WINDOW, WINDOW + 1, WINDOW + 2, log.len()];
    let chance = random.pick(&[0, 15, 30]);
    for behind in behind {
        let below = MAX_TIME - random.between(1, 9);
        let peak = random.pick(&[1, MAX_TIME, below]);
        if let Some(at) = log.len().checked_sub(behind).filter(|_| random.percent(chance)) {
            if let Some(record) = log.get_mut(at) {
                record.ticks = peak;
            }
        }
    }
}

/// What may be wrong with a log.
#[derive(Clone, Copy, Debug, PartialEq, Eq)]
pub enum Fault {
    /// Within a number.
    Cut,
    /// Between two numbers of a record.
    CutBetween,
    Task,
    Node,
    Unable,
    /// The node cannot run the task, and the ticks are out of their limits.
    UnableAndTicks,
    NoTicks,
    ManyTicks,
}

pub const FAULTS: [Fault; 8] = [
    Fault::Cut,
    Fault::CutBetween,
    Fault::Task,
    Fault::Node,
    Fault::Unable,
    Fault::UnableAndTicks,
    Fault::NoTicks,
    Fault::ManyTicks,
];

pub struct Faulty {
    pub bytes: Vec<u8>,
    pub refusal: Refusal,
    /// The record that has the fault.
    pub at: usize,
}

/// The log with that fault; none if no record can have it.
pub fn faulty(random: &mut Random, job: &Job, log: &[Record], fault: Fault) -> Option<Faulty> {
    if log.is_empty() {
        return None;
    }
    let at = some_record(random, log.len());
    match fault {
        Fault::Cut => Some(cut(log, at, random.pick(&[1, 2, 3, 5, 6, 7, 9, 10, 11]))),
        Fault::CutBetween => Some(cut(log, at, random.pick(&[4, 8]))),
        _ => with_wrong_record(random, job, log, at, fault),
    }
}

/// The oldest, the newest, one at the window's edge, one that is older, or any.
fn some_record(random: &mut Random, records: usize) -> usize {
    let left = records.saturating_sub(WINDOW);
    let (any, older) = (random.below(records), random.below(left.max(1)));
    random.pick(&[0, records - 1, left, left.saturating_sub(1), older, any])
}

/// So many bytes are left of a record.
fn cut(log: &[Record], at: usize, left: usize) -> Faulty {
    let mut bytes = write_log(&log[..=at]);
    bytes.truncate(RECORD * at + left);
    let refusal = Refusal::at(SHORT, bytes.len() as u64 / 4 * 4);
    Faulty { bytes, refusal, at }
}

fn with_wrong_record(
    random: &mut Random,
    job: &Job,
    log: &[Record],
    at: usize,
    fault: Fault,
) -> Option<Faulty> {
    let mut numbers = log_numbers(log);
    let record = numbers[3 * at..].first_chunk_mut()?;
    let number = set_wrong(random, job, record, fault)?;
    let unable = matches!(fault, Fault::Unable | Fault::UnableAndTicks);
    let offset = (RECORD * at + 4 * number) as u64;
    let refusal = Refusal::at(if unable { UNABLE } else { VALUE }, offset);
    Some(Faulty { bytes: bytes_of(&numbers), refusal, at })
}

/// Answers which of the three numbers is refused.
fn set_wrong(
    random: &mut Random,
    job: &Job,
    [task, node, ticks]: &mut [u64; 3],
    fault: Fault,
) -> Option<usize> {
    let (tasks, nodes) = (job.tasks.len() as u64, job.nodes.len() as u64);
    let far = u64::from(u32::MAX);
    if matches!(fault, Fault::Unable | Fault::UnableAndTicks) {
        let unable = unable_cell(random, job)?;
        (*task, *node) = (unable.0 as u64, unable.1 as u64);
    }
    match fault {
        Fault::Cut | Fault::CutBetween | Fault::Unable => {}
        Fault::Task => *task = random.pick(&[tasks, tasks, tasks + 1, 64, 256, far]),
        Fault::Node => *node = random.pick(&[nodes, nodes, nodes + 1, 16, 256, far]),
        Fault::UnableAndTicks => *ticks = random.pick(&[0, 0, MAX_TIME + 1, far]),
        Fault::NoTicks => *ticks = 0,
        Fault::ManyTicks => *ticks = random.pick(&[MAX_TIME + 1, MAX_TIME + 1, 1 << 31, far]),
    }
    match fault {
        Fault::Cut | Fault::CutBetween => None,
        Fault::Task => Some(0),
        Fault::Node | Fault::Unable | Fault::UnableAndTicks => Some(1),
        Fault::NoTicks | Fault::ManyTicks => Some(2),
    }
}

/// A task and a node that cannot run it.
fn unable_cell(random: &mut Random, job: &Job) -> Option<Cell> {
    let cells: Vec<Cell> =
        all_cells(job).filter(|&(task, node)| job.tasks[task].run[node] == 0).collect();
    (!cells.is_empty()).then(|| random.pick(&cells))
}

/// A log with several faults, or with one of any other kind, or by chance with none.
pub fn damaged_log(random: &mut Random, job: &Job, log: &[Record]) -> Vec<u8> {
    let fault = random.pick(&FAULTS);
    let bytes = match faulty(random, job, log, fault) {
        Some(faulty) if random.percent(50) => faulty.bytes,
        None => bytes_of(&[0, 1, 2]),
        _ => write_log(log),
    };
    damaged(random, &bytes)
}

#[cfg(test)]
mod tests {
    use super::*;
    use crate::jobs::random_job;
    use crate::logs::read_log;

    #[test]
    fn logs_are_read_or_refused_as_they_should_be() {
        let random = &mut Random::new(42);
        let mut met = FAULTS.map(|_| 0);
        for _ in 0..1500 {
            let job = random_job(random);
            let log = random_log(random, &job);
            assert_eq!(read_log(&job, &write_log(&log)).as_ref(), Ok(&log));
            for (fault, met) in FAULTS.into_iter().zip(&mut met) {
                if let Some(log) = faulty(random, &job, &log, fault) {
                    assert_eq!(read_log(&job, &log.bytes), Err(log.refusal));
                    assert_eq!(log.refusal.first as usize / RECORD, log.at);
                    *met += 1;
                }
            }
        }
        assert!(met.iter().all(|&met| met > 500), "{met:?}");
    }

    #[test]
    fn logs_are_of_all_lengths() {
        let random = &mut Random::new(43);
        let lengths: Vec<usize> = (0..3000).map(|_| random_length(random)).collect();
        let met = |low: usize, high: usize| {
            lengths.iter().filter(|&&records| (low..=high).contains(&records)).count()
        };
        for records in [0, WINDOW - 1, WINDOW, WINDOW + 1, WINDOW + 2] {
            assert!(met(records, records) > 50);
        }
        assert!(met(1, 20) > 200 && met(260, 2_000) > 500 && met(10_000, 12_000) > 10);
    }
}
