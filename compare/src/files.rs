//! Job and plan files: read number by number, and written.

use std::collections::BTreeSet;

use crate::refusal::{Refusal, COUNT, LINK_ORDER, SHORT, TAIL, UNABLE, VALUE, VERSION};

pub const NODES: (u64, u64) = (2, 16);
pub const TASKS: (u64, u64) = (1, 64);
pub const LINKS: (u64, u64) = (0, 512);
pub const MAX_DETECT: u64 = 1_000;
pub const MAX_SEND: u64 = 1_000;
pub const MAX_GROUP: u64 = 15;
pub const MAX_TIME: u64 = 1_000_000;

/// The newest version of a job. A plan has version 1 only.
pub const NEWEST: u64 = 4;

/// A number of an entry: the first version of a job that has it, and its limits.
pub struct Field {
    since: u64,
    low: u64,
    pub high: u64,
}

impl Field {
    pub fn is_in(&self, version: u64) -> bool {
        self.since <= version
    }
}

const DETECT: Field = Field { since: 1, low: 0, high: MAX_DETECT };
pub const SEND: Field = Field { since: 3, low: 0, high: MAX_SEND };
pub const GROUP: Field = Field { since: 4, low: 0, high: MAX_GROUP };

/// A node's entry.
const NODE: [Field; 3] = [DETECT, SEND, GROUP];

pub const READY: Field = Field { since: 2, low: 0, high: MAX_TIME };
const DEADLINE: Field = Field { since: 1, low: 1, high: MAX_TIME };

/// What a task's entry holds before its run times.
const TASK: [Field; 2] = [READY, DEADLINE];

#[derive(Clone, Debug, PartialEq, Eq)]
pub struct Job {
    pub version: u64,
    pub nodes: Vec<Node>,
    pub tasks: Vec<Task>,
    pub links: Vec<Link>,
}

#[derive(Clone, Debug, PartialEq, Eq)]
pub struct Node {
    pub detect: u64,
    /// What a result needs, beside the link's delay, to leave for another node.
    pub send: u64,
    /// The supply group: one loss takes all nodes of one group.
    pub group: u64,
}

#[derive(Clone, Debug, PartialEq, Eq)]
pub struct Task {
    /// The primary starts no sooner.
    pub ready: u64,
    pub deadline: u64,
    /// The run time on each node; 0 where the node cannot run the task.
    pub run: Vec<u64>,
}

#[derive(Clone, Copy, Debug, PartialEq, Eq)]
pub struct Link {
    pub from: usize,
    pub to: usize,
    pub delay: u64,
}

#[derive(Clone, Debug, PartialEq, Eq)]
pub struct Plan {
    pub rows: Vec<Row>,
}

#[derive(Clone, Copy, Debug, PartialEq, Eq)]
pub struct Row {
    pub primary: Place,
    pub backup: Place,
}

#[derive(Clone, Copy, Debug, PartialEq, Eq)]
pub struct Place {
    pub node: usize,
    pub start: u64,
}

impl Job {
    pub fn links_into(&self, task: usize) -> impl Iterator<Item = &Link> {
        self.links.iter().filter(move |link| link.to == task)
    }

    /// The groups that have a node.
    pub fn groups(&self) -> BTreeSet<u64> {
        self.nodes.iter().map(|node| node.group).collect()
    }
}

/// A file and the offset of the number that is due next.
pub struct Cursor<'a> {
    bytes: &'a [u8],
    pub offset: usize,
}

impl Cursor<'_> {
    pub fn new(bytes: &[u8]) -> Cursor<'_> {
        Cursor { bytes, offset: 0 }
    }

    pub fn refuse<T>(&self, number: u8, offset: usize) -> Result<T, Refusal> {
        Err(Refusal::at(number, offset as u64))
    }

    fn number(&mut self) -> Result<u64, Refusal> {
        match self.bytes.get(self.offset..self.offset + 4) {
            None => self.refuse(SHORT, self.offset),
            Some(four) => {
                self.offset += 4;
                Ok(u64::from(u32::from_le_bytes([four[0], four[1], four[2], four[3]])))
            }
        }
    }

    /// A number from `low` to `high`; none is good if `low` is the greater.
    fn within(&mut self, low: u64, high: u64, refusal: u8) -> Result<u64, Refusal> {
        let offset = self.offset;
        let number = self.number()?;
        if number < low || number > high {
            return self.refuse(refusal, offset);
        }
        Ok(number)
    }

    fn version(&mut self, newest: u64) -> Result<u64, Refusal> {
        self.within(1, newest, VERSION)
    }

    pub fn count(&mut self, limits: (u64, u64)) -> Result<usize, Refusal> {
        Ok(self.within(limits.0, limits.1, COUNT)? as usize)
    }

    pub fn value(&mut self, low: u64, high: u64) -> Result<u64, Refusal> {
        self.within(low, high, VALUE)
    }

    /// The fields of an entry; one that the version lacks counts as listed in `lacking`.
    fn fields<const N: usize>(
        &mut self,
        version: u64,
        fields: &[Field; N],
        lacking: [u64; N],
    ) -> Result<[u64; N], Refusal> {
        let mut values = lacking;
        for (value, field) in values.iter_mut().zip(fields) {
            if field.is_in(version) {
                *value = self.value(field.low, field.high)?;
            }
        }
        Ok(values)
    }

    pub fn is_at_end(&self) -> bool {
        self.offset == self.bytes.len()
    }

    pub fn end(&self) -> Result<(), Refusal> {
        if !self.is_at_end() {
            return self.refuse(TAIL, self.offset);
        }
        Ok(())
    }
}

pub fn read_job(bytes: &[u8]) -> Result<Job, Refusal> {
    let mut file = Cursor::new(bytes);
    let version = file.version(NEWEST)?;
    let node_count = file.count(NODES)?;
    let mut node = |number: usize| read_node(&mut file, version, number);
    let nodes = (0..node_count).map(&mut node).collect::<Result<_, _>>()?;
    let task_count = file.count(TASKS)?;
    let mut task = || read_task(&mut file, version, node_count);
    let tasks = (0..task_count).map(|_| task()).collect::<Result<_, _>>()?;
    let links = read_links(&mut file, task_count)?;
    file.end()?;
    Ok(Job { version, nodes, tasks, links })
}

/// In versions without groups each node is its own.
fn read_node(file: &mut Cursor, version: u64, number: usize) -> Result<Node, Refusal> {
    let [detect, send, group] = file.fields(version, &NODE, [0, 0, number as u64])?;
    Ok(Node { detect, send, group })
}

pub fn read_task(file: &mut Cursor, version: u64, nodes: usize) -> Result<Task, Refusal> {
    let [ready, deadline] = file.fields(version, &TASK, [0; 2])?;
    let run = (0..nodes).map(|_| file.value(0, MAX_TIME)).collect::<Result<_, _>>()?;
    Ok(Task { ready, deadline, run })
}

fn read_links(file: &mut Cursor, tasks: usize) -> Result<Vec<Link>, Refusal> {
    let count = file.count(LINKS)?;
    let mut links: Vec<Link> = Vec::new();
    for _ in 0..count {
        let offset = file.offset;
        let link = read_link(file, tasks as u64 - 1)?;
        let rises = links.last().is_none_or(|last| (last.from, last.to) < (link.from, link.to));
        if !rises {
            return file.refuse(LINK_ORDER, offset);
        }
        links.push(link);
    }
    Ok(links)
}

/// The last task sends nothing: with it as `from`, no `to` is good.
fn read_link(file: &mut Cursor, last_task: u64) -> Result<Link, Refusal> {
    let from = file.value(0, last_task)?;
    let to = file.value(from + 1, last_task)?;
    let delay = file.value(0, MAX_TIME)?;
    Ok(Link { from: from as usize, to: to as usize, delay })
}

pub fn read_plan(job: &Job, bytes: &[u8]) -> Result<Plan, Refusal> {
    let mut file = Cursor::new(bytes);
    file.version(1)?;
    let tasks = job.tasks.len() as u64;
    file.count((tasks, tasks))?;
    let rows = job.tasks.iter().map(|task| read_row(&mut file, task)).collect::<Result<_, _>>()?;
    file.end()?;
    Ok(Plan { rows })
}

pub fn read_row(file: &mut Cursor, task: &Task) -> Result<Row, Refusal> {
    let primary = read_place(file, task)?;
    let backup = read_place(file, task)?;
    Ok(Row { primary, backup })
}

fn read_place(file: &mut Cursor, task: &Task) -> Result<Place, Refusal> {
    let node = read_able_node(file, task)?;
    let start = file.value(0, MAX_TIME)?;
    Ok(Place { node, start })
}

/// That the node can run the task is asked before the number behind it is read.
pub fn read_able_node(file: &mut Cursor, task: &Task) -> Result<usize, Refusal> {
    let offset = file.offset;
    let node = file.value(0, task.run.len() as u64 - 1)? as usize;
    if task.run[node] == 0 {
        return file.refuse(UNABLE, offset);
    }
    Ok(node)
}

/// The values that stand in a file of that version.
fn present<const N: usize>(
    version: u64,
    fields: &[Field; N],
    values: [u64; N],
) -> impl Iterator<Item = u64> + '_ {
    let listed = fields.iter().zip(values);
    listed.filter(move |(field, _)| field.is_in(version)).map(|(_, value)| value)
}

pub fn bytes_of(numbers: &[u64]) -> Vec<u8> {
    numbers.iter().flat_map(|&number| (number as u32).to_le_bytes()).collect()
}

/// The nodes' entries in a job of that version.
fn node_numbers(version: u64, nodes: &[Node]) -> impl Iterator<Item = u64> + '_ {
    let listed = |node: &Node| [node.detect, node.send, node.group];
    nodes.iter().flat_map(move |node| present(version, &NODE, listed(node)))
}

/// Where the task count stands, behind the nodes.
pub fn task_count_offset(job: &Job) -> usize {
    8 + 4 * node_numbers(job.version, &job.nodes).count()
}

/// A task's entry in a job of that version.
pub fn task_numbers(version: u64, task: &Task) -> Vec<u64> {
    present(version, &TASK, [task.ready, task.deadline]).chain(task.run.iter().copied()).collect()
}

/// Primary node, primary start, backup node, backup start.
pub fn row_numbers(row: &Row) -> [u64; 4] {
    [row.primary.node as u64, row.primary.start, row.backup.node as u64, row.backup.start]
}

/// The bytes of a job, good or not: whoever makes test files wants faulty ones too.
pub fn write_job(job: &Job) -> Vec<u8> {
    let mut numbers = vec![job.version, job.nodes.len() as u64];
    numbers.extend(node_numbers(job.version, &job.nodes));
    numbers.push(job.tasks.len() as u64);
    numbers.extend(job.tasks.iter().flat_map(|task| task_numbers(job.version, task)));
    numbers.push(job.links.len() as u64);
    for link in &job.links {
        numbers.extend([link.from as u64, link.to as u64, link.delay]);
    }
    bytes_of(&numbers)
}

/// The bytes of a plan, good or not.
pub fn write_plan(plan: &Plan) -> Vec<u8> {
    let mut numbers = vec![1, plan.rows.len() as u64];
    numbers.extend(plan.rows.iter().flat_map(row_numbers));
    bytes_of(&numbers)
}

#[cfg(test)]
mod tests {
    use super::*;
    use crate::jobs::random_job;
    use crate::random::Random;
    use crate::samples::{with_groups, with_ready, with_send};
    use crate::sized::planned;

    #[test]
    fn a_job_is_written_back_in_its_own_version() {
        let random = &mut Random::new(8);
        for _ in 0..200 {
            let job = random_job(random);
            assert_eq!(read_job(&write_job(&job)), Ok(job));
        }
    }

    #[test]
    fn a_ready_time_is_no_part_of_a_version_1_job() {
        let file = write_job(&Job { version: 1, ..with_ready(7, 8) });
        assert_eq!(read_job(&file), Ok(Job { version: 1, ..with_ready(0, 0) }));
    }

    #[test]
    fn a_ready_time_stands_before_its_deadline() {
        let mut file = write_job(&with_ready(7, 8));
        // Version, node count, three nodes and task count come first.
        assert_eq!(file[24..32], [7, 0, 0, 0, 30, 0, 0, 0]);
        file[24..28].copy_from_slice(&(MAX_TIME as u32).to_le_bytes());
        assert_eq!(read_job(&file), Ok(with_ready(MAX_TIME, 8)));
        file[24..28].copy_from_slice(&(MAX_TIME as u32 + 1).to_le_bytes());
        assert_eq!(read_job(&file), Err(Refusal::at(VALUE, 24)));
    }

    #[test]
    fn a_send_time_is_no_part_of_older_jobs() {
        for version in [1, 2] {
            let file = write_job(&Job { version, ..with_send([7, 8, 9]) });
            assert_eq!(read_job(&file), Ok(Job { version, ..with_send([0; 3]) }));
        }
    }

    #[test]
    fn a_send_time_stands_behind_its_detect_time() {
        let mut file = write_job(&with_send([7, 8, 9]));
        assert_eq!(file[8..20], [1, 0, 0, 0, 7, 0, 0, 0, 1, 0, 0, 0]);
        file[12..16].copy_from_slice(&(MAX_SEND as u32).to_le_bytes());
        assert_eq!(read_job(&file), Ok(with_send([MAX_SEND, 8, 9])));
        file[12..16].copy_from_slice(&(MAX_SEND as u32 + 1).to_le_bytes());
        assert_eq!(read_job(&file), Err(Refusal::at(VALUE, 12)));
    }

    #[test]
    fn a_group_is_no_part_of_older_jobs() {
        for version in [1, 2, 3] {
            let file = write_job(&Job { version, ..with_groups([5, 5, 9]) });
            assert_eq!(read_job(&file), Ok(Job { version, ..with_groups([0, 1, 2]) }));
        }
    }

    #[test]
    fn a_group_stands_behind_its_send_time() {
        let mut file = write_job(&with_groups([5, 5, 9]));
        assert_eq!(file[8..24], [1, 0, 0, 0, 0, 0, 0, 0, 5, 0, 0, 0, 1, 0, 0, 0]);
        file[16] = MAX_GROUP as u8;
        assert_eq!(read_job(&file), Ok(with_groups([MAX_GROUP, 5, 9])));
        file[16] = MAX_GROUP as u8 + 1;
        assert_eq!(read_job(&file), Err(Refusal::at(VALUE, 16)));
    }

    #[test]
    fn the_longest_jobs() {
        for (version, bytes) in [(1, 10_576), (2, 10_832), (3, 10_896), (4, 10_960)] {
            assert_eq!(planned(version, 16, 64, 512).job.len(), bytes);
        }
    }
}
