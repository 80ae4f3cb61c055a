//! The description of a new task, and a booking of its places (request (iii)): read and written.

use crate::files::{
    bytes_of, read_row, read_task, row_numbers, task_numbers, Cursor, Job, Row, Task, LINKS,
    MAX_TIME,
};
use crate::refusal::{Refusal, LINK_ORDER};

/// A task that the job does not have yet; its number would be the next.
#[derive(Clone, Debug, PartialEq, Eq)]
pub struct NewTask {
    pub task: Task,
    pub inputs: Vec<Input>,
}

/// A link into the new task.
#[derive(Clone, Copy, Debug, PartialEq, Eq)]
pub struct Input {
    pub from: usize,
    pub delay: u64,
}

pub fn read_description(job: &Job, bytes: &[u8]) -> Result<NewTask, Refusal> {
    let mut file = Cursor::new(bytes);
    let new = read_new_task(&mut file, job)?;
    file.end()?;
    Ok(new)
}

/// A description with the four numbers of a plan behind it.
pub fn read_booking(job: &Job, bytes: &[u8]) -> Result<(NewTask, Row), Refusal> {
    let mut file = Cursor::new(bytes);
    let new = read_new_task(&mut file, job)?;
    let row = read_row(&mut file, &new.task)?;
    file.end()?;
    Ok((new, row))
}

fn read_new_task(file: &mut Cursor, job: &Job) -> Result<NewTask, Refusal> {
    let task = read_task(file, job.version, job.nodes.len())?;
    let count = file.count(LINKS)?;
    let mut inputs: Vec<Input> = Vec::new();
    for _ in 0..count {
        let offset = file.offset;
        let input = read_input(file, job.tasks.len() as u64 - 1)?;
        if inputs.last().is_some_and(|last| last.from >= input.from) {
            return file.refuse(LINK_ORDER, offset);
        }
        inputs.push(input);
    }
    Ok(NewTask { task, inputs })
}

fn read_input(file: &mut Cursor, last_task: u64) -> Result<Input, Refusal> {
    let from = file.value(0, last_task)? as usize;
    let delay = file.value(0, MAX_TIME)?;
    Ok(Input { from, delay })
}

/// Where the link count stands.
pub fn count_offset(version: u64, new: &NewTask) -> usize {
    4 * task_numbers(version, &new.task).len()
}

/// The bytes of a description in a job's version, good or not.
pub fn write_description(version: u64, new: &NewTask) -> Vec<u8> {
    let mut numbers = task_numbers(version, &new.task);
    numbers.push(new.inputs.len() as u64);
    numbers.extend(new.inputs.iter().flat_map(|input| [input.from as u64, input.delay]));
    bytes_of(&numbers)
}

/// The bytes of a booking, good or not.
pub fn write_booking(version: u64, new: &NewTask, row: &Row) -> Vec<u8> {
    [write_description(version, new), bytes_of(&row_numbers(row))].concat()
}

#[cfg(test)]
mod tests {
    use super::*;
    use crate::descriptions::random_new_task;
    use crate::jobs::random_job;
    use crate::planner;
    use crate::random::Random;
    use crate::refusal::{COUNT, SHORT, VALUE};
    use crate::samples::{job, with_ready};

    #[test]
    fn what_is_written_is_read() {
        let random = &mut Random::new(12);
        for _ in 0..300 {
            let job = random_job(random);
            let Ok(plan) = planner::plan(&job) else {
                continue;
            };
            let mut new = random_new_task(random, &job, &plan);
            new.task.run = job.tasks[0].run.clone();
            let row = plan.rows[0];
            let bytes = write_booking(job.version, &new, &row);
            assert_eq!(read_booking(&job, &bytes), Ok((new.clone(), row)));
            assert_eq!(read_description(&job, &bytes[..bytes.len() - 16]), Ok(new));
        }
    }

    /// A description of a job with two tasks and three nodes, with links as numbers.
    fn read(job: &Job, count: u64, links: &[u64]) -> Result<usize, Refusal> {
        let entry: &[u64] = if job.version == 1 { &[9, 1, 1, 1] } else { &[7, 9, 1, 1, 1] };
        let bytes = bytes_of(&[entry, &[count], links].concat());
        read_description(job, &bytes).map(|new| new.inputs.len())
    }

    #[test]
    fn the_links_end_what_counts_too_many() {
        let job = job();
        assert_eq!(read(&job, 2, &[0, 5, 1, 5]), Ok(2));
        assert_eq!(read(&job, 3, &[0, 5, 1, 5]), Err(Refusal::at(SHORT, 36)));
        assert_eq!(read(&job, 3, &[0, 5, 1, 5, 1, 5]), Err(Refusal::at(LINK_ORDER, 36)));
        assert_eq!(read(&job, 3, &[0, 5, 1, 5, 2, 5]), Err(Refusal::at(VALUE, 36)));
        assert_eq!(read(&job, 512, &[0, 5, 1, 5, 1]), Err(Refusal::at(SHORT, 40)));
        assert_eq!(read(&job, 513, &[0, 5, 1, 5]), Err(Refusal::at(COUNT, 16)));
        assert_eq!(read(&with_ready(0, 4), 513, &[]), Err(Refusal::at(COUNT, 20)));
    }

    #[test]
    fn the_order_is_tested_after_the_delay() {
        assert_eq!(read(&job(), 2, &[1, 5, 0, 1_000_001]), Err(Refusal::at(VALUE, 32)));
        assert_eq!(read(&job(), 2, &[1, 5, 0]), Err(Refusal::at(SHORT, 32)));
        assert_eq!(read(&job(), 2, &[1, 5, 0, 5]), Err(Refusal::at(LINK_ORDER, 28)));
        assert_eq!(read(&with_ready(0, 4), 2, &[1, 5, 1, 5]), Err(Refusal::at(LINK_ORDER, 32)));
    }
}
