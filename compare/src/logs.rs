//! Logs of the last runs (request (x)): read number by number, written, and what the newest records
//! make of a job's run times.

use crate::files::{bytes_of, read_able_node, Cursor, Job, MAX_TIME};
use crate::refusal::Refusal;

/// So many of the newest records count.
pub const WINDOW: usize = 256;

/// The bytes of a record.
pub const RECORD: usize = 12;

/// A copy that ran to its end.
#[derive(Clone, Copy, Debug, PartialEq, Eq)]
pub struct Record {
    pub task: usize,
    pub node: usize,
    pub ticks: u64,
}

/// A time for each task and node, task by task.
pub type Table = Vec<Vec<u64>>;

/// A log has neither version nor count: while bytes are left, another record is due.
pub fn read_log(job: &Job, bytes: &[u8]) -> Result<Vec<Record>, Refusal> {
    let mut file = Cursor::new(bytes);
    let mut log = Vec::new();
    while !file.is_at_end() {
        log.push(read_record(&mut file, job).map_err(with_short_offset)?);
    }
    Ok(log)
}

fn read_record(file: &mut Cursor, job: &Job) -> Result<Record, Refusal> {
    let task = file.value(0, job.tasks.len() as u64 - 1)? as usize;
    let node = read_able_node(file, &job.tasks[task])?;
    let ticks = file.value(1, MAX_TIME)?;
    Ok(Record { task, node, ticks })
}

/// A log may be longer than the first place can say.
fn with_short_offset(refusal: Refusal) -> Refusal {
    Refusal { first: refusal.first % (1 << 32), ..refusal }
}

/// The records that count, the oldest first.
pub fn newest(log: &[Record]) -> &[Record] {
    &log[log.len().saturating_sub(WINDOW)..]
}

/// The largest ticks of each task on each node among these records, the job's run time where there
/// are none.
pub fn largest(job: &Job, records: &[Record]) -> Table {
    let mut table: Table = job.tasks.iter().map(|task| vec![0; task.run.len()]).collect();
    for record in records {
        let seen = &mut table[record.task][record.node];
        *seen = record.ticks.max(*seen);
    }
    for (times, task) in table.iter_mut().zip(&job.tasks) {
        let unseen = times.iter_mut().zip(&task.run).filter(|(time, _)| **time == 0);
        unseen.for_each(|(time, &run)| *time = run);
    }
    table
}

/// Worked out afresh from the newest records.
pub fn run_times(job: &Job, log: &[Record]) -> Table {
    largest(job, newest(log))
}

/// The job with other run times.
pub fn renewed(job: &Job, table: &Table) -> Job {
    let mut job = job.clone();
    job.tasks.iter_mut().zip(table).for_each(|(task, times)| task.run.clone_from(times));
    job
}

/// The numbers of a log as they stand in the file.
pub fn log_numbers(log: &[Record]) -> Vec<u64> {
    log.iter().flat_map(|r| [r.task as u64, r.node as u64, r.ticks]).collect()
}

/// The bytes of a log, good or not.
pub fn write_log(log: &[Record]) -> Vec<u8> {
    bytes_of(&log_numbers(log))
}

/// Task by task, in each by node.
pub fn write_table(table: &Table) -> Vec<u8> {
    bytes_of(&table.concat())
}

#[cfg(test)]
mod tests {
    use super::*;
    use crate::files::{read_job, write_job};
    use crate::jobs::random_job;
    use crate::random::Random;
    use crate::random_logs::random_log;
    use crate::refusal::{SHORT, UNABLE, VALUE};
    use crate::samples::job;

    /// J, but node 2 cannot run task 0.
    fn lame() -> Job {
        let mut job = job();
        job.tasks[0].run[2] = 0;
        job
    }

    fn read(numbers: &[u64]) -> Result<Vec<Record>, Refusal> {
        read_log(&lame(), &bytes_of(numbers))
    }

    fn record(ticks: u64) -> Record {
        Record { task: 0, node: 1, ticks }
    }

    #[test]
    fn a_number_is_due_while_bytes_are_left() {
        let log = bytes_of(&[0, 1, 5, 1, 2, 6, 0, 0, 7]);
        for length in 0..=log.len() {
            let expected = match length % RECORD {
                0 => Ok(length / RECORD),
                _ => Err(Refusal::at(SHORT, length as u64 / 4 * 4)),
            };
            assert_eq!(read_log(&lame(), &log[..length]).map(|log| log.len()), expected);
        }
    }

    #[test]
    fn each_number_has_its_limits() {
        for good in [[0, 0, 1], [1, 2, MAX_TIME], [0, 1, 500_000]] {
            assert_eq!(read(&good).map(|log| log_numbers(&log)), Ok(good.to_vec()));
        }
        let far = u64::from(u32::MAX);
        let wrong = [(0, 2), (0, far), (1, 3), (1, far), (2, 0), (2, MAX_TIME + 1), (2, far)];
        for (at, wrong) in wrong {
            let mut numbers = [1, 1, 1, 1, 1, 1];
            numbers[3 + at] = wrong;
            assert_eq!(read(&numbers), Err(Refusal::at(VALUE, 12 + 4 * at as u64)));
        }
    }

    #[test]
    fn the_first_fault_is_given() {
        // The ticks are not read where the node cannot run the task.
        assert_eq!(read(&[0, 2, 0]), Err(Refusal::at(UNABLE, 4)));
        assert_eq!(read(&[0, 2]), Err(Refusal::at(UNABLE, 4)));
        assert_eq!(read(&[1, 2, 1, 0, 2, 0]), Err(Refusal::at(UNABLE, 16)));
        assert_eq!(read(&[2, 2, 0]), Err(Refusal::at(VALUE, 0)));
        assert_eq!(read(&[0, 3, 0]), Err(Refusal::at(VALUE, 4)));
        assert_eq!(read(&[0, 1, 0, 2]), Err(Refusal::at(VALUE, 8)));
        assert_eq!(read(&[0, 1, 1, 2]), Err(Refusal::at(VALUE, 12)));
        assert_eq!(read(&[0, 1, 1, 1]), Err(Refusal::at(SHORT, 16)));
    }

    #[test]
    fn an_offset_beyond_4_gib_is_cut() {
        let far = Refusal::at(VALUE, (5 << 32) + 12);
        assert_eq!(with_short_offset(far), Refusal::at(VALUE, 12));
        let near = Refusal::at(VALUE, u64::from(u32::MAX));
        assert_eq!(with_short_offset(near), near);
    }

    #[test]
    fn a_table_has_the_largest_ticks_or_the_jobs_time() {
        assert_eq!(run_times(&lame(), &[]), [[4, 4, 0], [3, 3, 3]]);
        let log = read(&[0, 1, 5, 0, 1, 9, 0, 1, 6, 1, 2, 1]).expect("it reads well");
        assert_eq!(run_times(&lame(), &log), [[4, 9, 0], [3, 3, 1]]);
    }

    #[test]
    fn the_257th_record_drops_the_first() {
        let mut log = vec![record(9)];
        log.resize(WINDOW, record(2));
        assert_eq!(run_times(&job(), &log)[0], [4, 9, 4]);
        log.push(record(2));
        assert_eq!(run_times(&job(), &log)[0], [4, 2, 4]);
        log.extend([Record { task: 1, node: 0, ticks: 8 }; WINDOW - 1]);
        assert_eq!(run_times(&job(), &log), [[4, 2, 4], [8, 3, 3]]);
        log.push(Record { task: 1, node: 0, ticks: 8 });
        assert_eq!(run_times(&job(), &log), [[4, 4, 4], [8, 3, 3]]);
    }

    /// The request's words for one task and node, record by record.
    fn in_words(job: &Job, log: &[Record], task: usize, node: usize) -> u64 {
        let newest = log.iter().rev().take(WINDOW);
        let here = newest.filter(|record| record.task == task && record.node == node);
        here.map(|record| record.ticks).max().unwrap_or(job.tasks[task].run[node])
    }

    #[test]
    fn a_renewed_job_has_the_table_and_all_else_as_it_was() {
        let random = &mut Random::new(41);
        for _ in 0..300 {
            let job = random_job(random);
            let log = random_log(random, &job);
            let table = run_times(&job, &log);
            for (task, times) in table.iter().enumerate() {
                for (node, &time) in times.iter().enumerate() {
                    assert_eq!(time, in_words(&job, &log, task, node));
                }
            }
            let new = renewed(&job, &table);
            let read = read_job(&write_job(&new)).expect("it reads well");
            assert_eq!(write_job(&new).len(), write_job(&job).len());
            assert_eq!(renewed(&read, &run_times(&job, &[])), job);
            assert_eq!(run_times(&new, &log), table);
        }
    }
}
