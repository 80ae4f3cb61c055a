//! Other windows and other tables: wrong readings of request (x). No answer rests on them: they are
//! there to count where each would answer otherwise.

use std::collections::BTreeMap;

use crate::files::Job;
use crate::logs::{largest, run_times, write_table, Record, Table, WINDOW};
use crate::tally::Tally;

type Reading = fn(&Job, &[Record]) -> Table;

/// In the order in which they are counted.
pub const READINGS: [Reading; 10] = [
    |job, log| of_newest(job, log, WINDOW - 1),
    |job, log| of_newest(job, log, WINDOW + 1),
    largest,
    of_first,
    before_newest,
    never_below_listed,
    with_staying,
    of_last,
    of_newest_each,
    by_node,
];

/// Counts the readings that would give another table.
pub fn count_table(tally: &mut Tally, job: &Job, log: &[Record], table: &Table) {
    let right = write_table(table);
    for (met, reading) in tally.tables_otherwise.iter_mut().zip(READINGS) {
        *met += u64::from(write_table(&reading(job, log)) != right);
    }
}

/// A window of another size.
fn of_newest(job: &Job, log: &[Record], window: usize) -> Table {
    largest(job, &log[log.len().saturating_sub(window)..])
}

/// The window never moves: once it is full, nothing more goes in. It is also what comes of a log
/// whose newest record is taken to stand first.
fn of_first(job: &Job, log: &[Record]) -> Table {
    largest(job, &log[..log.len().min(WINDOW)])
}

/// The newest record does not count yet.
fn before_newest(job: &Job, log: &[Record]) -> Table {
    run_times(job, log.split_last().map_or(log, |(_, before)| before))
}

/// The job's run time counts as one more record.
fn never_below_listed(job: &Job, log: &[Record]) -> Table {
    let mut table = run_times(job, log);
    for (times, task) in table.iter_mut().zip(&job.tasks) {
        times.iter_mut().zip(&task.run).for_each(|(time, run)| *time = (*run).max(*time));
    }
    table
}

/// What a task and a node have in the window that moves: how many records, and the largest ticks
/// since there were none.
#[derive(Default)]
struct Held {
    records: usize,
    largest: u64,
}

/// Where the largest leaves the window and others stay, it stays too.
fn with_staying(job: &Job, log: &[Record]) -> Table {
    let mut window: BTreeMap<(usize, usize), Held> = BTreeMap::new();
    for (at, record) in log.iter().enumerate() {
        let held = window.entry((record.task, record.node)).or_default();
        *held = Held { records: held.records + 1, largest: record.ticks.max(held.largest) };
        if let Some(left) = at.checked_sub(WINDOW).map(|at| log[at]) {
            let held = window.entry((left.task, left.node)).or_default();
            held.records -= 1;
            if held.records == 0 {
                held.largest = 0;
            }
        }
    }
    let held = window.into_iter().filter(|(_, held)| held.records > 0);
    let held = held.map(|((task, node), held)| Record { task, node, ticks: held.largest });
    largest(job, &held.collect::<Vec<_>>())
}

/// The last ticks of a task on a node, not the largest.
fn of_last(job: &Job, log: &[Record]) -> Table {
    let mut table = largest(job, &[]);
    for record in &log[log.len().saturating_sub(WINDOW)..] {
        table[record.task][record.node] = record.ticks;
    }
    table
}

/// A window for each task and node.
fn of_newest_each(job: &Job, log: &[Record]) -> Table {
    let mut counts = vec![vec![0; job.nodes.len()]; job.tasks.len()];
    let newest = log.iter().rev().filter(|record| {
        let count = &mut counts[record.task][record.node];
        *count += 1;
        *count <= WINDOW
    });
    largest(job, &newest.copied().collect::<Vec<_>>())
}

/// Node by node, in each by task.
fn by_node(job: &Job, log: &[Record]) -> Table {
    let table = run_times(job, log);
    (0..job.nodes.len()).map(|node| table.iter().map(|times| times[node]).collect()).collect()
}

#[cfg(test)]
mod tests {
    use super::*;
    use crate::jobs::random_job;
    use crate::random::Random;
    use crate::random_logs::random_log;
    use crate::samples::job;

    fn record(node: usize, ticks: u64) -> Record {
        Record { task: 0, node, ticks }
    }

    /// J's time of task 0 on node 0 by each reading, and by the right one.
    fn first_time(log: &[Record]) -> ([u64; READINGS.len()], u64) {
        let time = |table: Table| table[0][0];
        (READINGS.map(|reading| time(reading(&job(), log))), time(run_times(&job(), log)))
    }

    #[test]
    fn a_record_that_left_is_told_from_one_that_stays() {
        // In the window are the last 256: a 6 first, then fives, and a 7 before them.
        let mut log = vec![record(0, 9), record(0, 7), record(0, 6)];
        log.resize(WINDOW + 2, record(0, 5));
        assert_eq!(first_time(&log), ([5, 7, 9, 9, 7, 6, 9, 5, 6, 6], 6));
    }

    #[test]
    fn a_maximum_stays_only_while_others_do() {
        let mut log = vec![record(0, 9), record(0, 2)];
        log.resize(WINDOW, record(1, 5));
        assert_eq!(with_staying(&job(), &log), run_times(&job(), &log));
        log.push(record(1, 5));
        assert_eq!(with_staying(&job(), &log)[0][0], 9);
        assert_eq!(run_times(&job(), &log)[0][0], 2);
        assert_eq!(never_below_listed(&job(), &log)[0][0], 4);
        log.push(record(1, 5));
        assert_eq!(with_staying(&job(), &log), run_times(&job(), &log));
        assert_eq!(of_newest_each(&job(), &log)[0][0], 9);
        assert_eq!(by_node(&job(), &log), [[4, 3], [5, 3], [4, 3]]);
    }

    #[test]
    fn within_the_window_most_readings_agree() {
        let random = &mut Random::new(44);
        let mut met = 0;
        for _ in 0..500 {
            let job = random_job(random);
            let log = random_log(random, &job);
            let short = &log[..log.len().min(WINDOW)];
            let right = run_times(&job, short);
            for at in [1, 2, 3, 6, 8] {
                assert_eq!(READINGS[at](&job, short), right);
            }
            met += usize::from(run_times(&job, &log) != right);
        }
        assert!(met > 100, "{met}");
    }
}
