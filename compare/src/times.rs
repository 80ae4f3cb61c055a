//! Lists of actual times (request (viii)): read number by number, and written.

use crate::files::{bytes_of, Cursor, Job, Plan};
use crate::refusal::Refusal;

/// The ticks that the copies of a task take.
#[derive(Clone, Copy, Debug, PartialEq, Eq)]
pub struct Ticks {
    pub primary: u64,
    pub backup: u64,
}

/// The listed run times on the planned nodes, the most that the copies may take.
pub fn listed_times(job: &Job, plan: &Plan) -> Vec<Ticks> {
    let rows = job.tasks.iter().zip(&plan.rows);
    let listed = rows.map(|(task, row)| Ticks {
        primary: task.run[row.primary.node],
        backup: task.run[row.backup.node],
    });
    listed.collect()
}

/// A list has neither version nor count: it is as long as the plan.
pub fn read_times(job: &Job, plan: &Plan, bytes: &[u8]) -> Result<Vec<Ticks>, Refusal> {
    let mut file = Cursor::new(bytes);
    let mut ticks = |most: Ticks| -> Result<Ticks, Refusal> {
        let primary = file.value(1, most.primary)?;
        let backup = file.value(1, most.backup)?;
        Ok(Ticks { primary, backup })
    };
    let times = listed_times(job, plan).into_iter().map(&mut ticks).collect::<Result<_, _>>()?;
    file.end()?;
    Ok(times)
}

/// The numbers of a list as they stand in the file.
pub fn times_numbers(times: &[Ticks]) -> Vec<u64> {
    times.iter().flat_map(|ticks| [ticks.primary, ticks.backup]).collect()
}

/// The bytes of a list, good or not.
pub fn write_times(times: &[Ticks]) -> Vec<u8> {
    bytes_of(&times_numbers(times))
}

#[cfg(test)]
mod tests {
    use super::*;
    use crate::refusal::{SHORT, TAIL, VALUE};
    use crate::samples::{job, plan_of};

    /// Sample 1 in a job in which task 0 takes 6 on its backup's node.
    fn pair() -> (Job, Plan) {
        let mut job = job();
        job.tasks[0].run = vec![4, 6, 7];
        (job, plan_of([[0, 0, 1, 5], [0, 4, 1, 11]]))
    }

    fn read(numbers: &[u64]) -> Result<Vec<Ticks>, Refusal> {
        let (job, plan) = pair();
        read_times(&job, &plan, &bytes_of(numbers))
    }

    #[test]
    fn the_listed_times_are_those_of_the_planned_nodes() {
        let (job, plan) = pair();
        assert_eq!(times_numbers(&listed_times(&job, &plan)), [4, 6, 3, 3]);
    }

    #[test]
    fn each_number_has_its_own_limit() {
        for good in [[4, 6, 3, 3], [1, 1, 1, 1], [2, 5, 1, 3]] {
            assert_eq!(read(&good).map(|times| times_numbers(&times)), Ok(good.to_vec()));
        }
        for (at, most) in [4, 6, 3, 3].into_iter().enumerate() {
            for wrong in [0, most + 1, u64::from(u32::MAX)] {
                let mut numbers = [1; 4];
                numbers[at] = wrong;
                assert_eq!(read(&numbers), Err(Refusal::at(VALUE, 4 * at as u64)));
            }
        }
    }

    #[test]
    fn the_first_fault_is_given() {
        assert_eq!(read(&[4, 7]), Err(Refusal::at(VALUE, 4)));
        assert_eq!(read(&[4, 6]), Err(Refusal::at(SHORT, 8)));
        assert_eq!(read(&[4, 6, 3, 0, 1]), Err(Refusal::at(VALUE, 12)));
        assert_eq!(read(&[4, 6, 3, 3, 0]), Err(Refusal::at(TAIL, 16)));
    }

    #[test]
    fn a_list_ends_where_the_plan_does() {
        let (job, plan) = pair();
        let list = [write_times(&listed_times(&job, &plan)), vec![9; 5]].concat();
        for length in 0..list.len() {
            let expected = match length {
                0..=15 => Some(Refusal::at(SHORT, length as u64 / 4 * 4)),
                16 => None,
                _ => Some(Refusal::at(TAIL, 16)),
            };
            assert_eq!(read_times(&job, &plan, &list[..length]).err(), expected);
        }
    }
}
