//! Damaged files.

use crate::files::{read_job, task_count_offset, write_job, Job, GROUP, NEWEST, READY, SEND};
use crate::random::Random;

/// Numbers at and around the limits of document 01.
const EDGES: [u32; 27] = [
    0,
    1,
    2,
    3,
    15,
    16,
    17,
    63,
    64,
    65,
    255,
    256,
    511,
    512,
    513,
    999,
    1_000,
    1_001,
    65_536,
    999_999,
    1_000_000,
    1_000_001,
    2_000_000,
    0x7fff_ffff,
    0x8000_0000,
    0xffff_fffe,
    0xffff_ffff,
];

/// A file with one fault or a few, or by chance with none.
pub fn damaged(random: &mut Random, bytes: &[u8]) -> Vec<u8> {
    let mut file = bytes.to_vec();
    match random.between(0, 9) {
        0 => file.truncate(random.below(bytes.len() + 1)),
        1 => extend(random, &mut file),
        2 | 3 => flip_bits(random, &mut file),
        4 | 5 => set_number(random, &mut file),
        6 => set_count(random, &mut file),
        7 => remove_number(random, &mut file),
        8 => swap_numbers(random, &mut file),
        _ => {
            set_number(random, &mut file);
            flip_bits(random, &mut file);
            file.truncate(random.below(file.len() + 1));
        }
    }
    file
}

fn extend(random: &mut Random, file: &mut Vec<u8>) {
    for _ in 0..random.between(1, 13) {
        file.push(random.draw() as u8);
    }
}

fn flip_bits(random: &mut Random, file: &mut [u8]) {
    for _ in 0..random.between(1, 3) {
        let at = random.below(file.len());
        file[at] ^= 1 << random.below(8);
    }
}

fn number_at(file: &mut [u8], at: usize) -> Option<&mut [u8]> {
    file.get_mut(at..at + 4)
}

/// The offset of a number, if the file has any.
fn some_number(random: &mut Random, file: &[u8]) -> usize {
    4 * random.below((file.len() / 4).max(1))
}

fn set_number(random: &mut Random, file: &mut [u8]) {
    let at = some_number(random, file);
    if let Some(number) = number_at(file, at) {
        number.copy_from_slice(&random.pick(&EDGES).to_le_bytes());
    }
}

/// Changes the version or a section count. Where the file is a job, the counts behind the nodes
/// and the tasks are found by reading it.
fn set_count(random: &mut Random, file: &mut [u8]) {
    let mut places = vec![0, 4];
    if let Ok(job) = read_job(file) {
        let tasks = task_count_offset(&job);
        let links = file.len() - 4 - 12 * job.links.len();
        places.extend([tasks, tasks, links, links]);
    }
    let at = random.pick(&places);
    if let Some(number) = number_at(file, at) {
        let one_off = random.pick(&[1, u32::MAX]);
        let now = u32::from_le_bytes([number[0], number[1], number[2], number[3]]);
        let new = if random.percent(40) { now.wrapping_add(one_off) } else { random.pick(&EDGES) };
        number.copy_from_slice(&new.to_le_bytes());
    }
}

fn remove_number(random: &mut Random, file: &mut Vec<u8>) {
    let at = some_number(random, file);
    file.drain(at.min(file.len())..(at + 4).min(file.len()));
}

/// Near numbers are swapped more often: that is how links come out of order.
fn swap_numbers(random: &mut Random, file: &mut [u8]) {
    let a = some_number(random, file);
    let b = if random.percent(50) { a + 12 } else { some_number(random, file) };
    if b + 4 <= file.len() {
        for byte in 0..4 {
            file.swap(a + byte, b + byte);
        }
    }
}

/// A job whose links are sound one by one but not in order; none if it has fewer than two.
pub fn disordered(random: &mut Random, job: &Job) -> Option<Vec<u8>> {
    if job.links.len() < 2 {
        return None;
    }
    let mut job = job.clone();
    let at = random.below(job.links.len() - 1);
    if random.percent(50) {
        job.links.swap(at, at + 1);
    } else {
        job.links[at + 1] = job.links[at];
    }
    Some(write_job(&job))
}

/// What not every version has.
#[derive(Clone, Copy)]
pub enum Newer {
    Ready,
    Send,
    Group,
}

/// A job with such a number at its limit or beyond; none if its version has no such numbers.
pub fn at_limit(random: &mut Random, job: &Job, newer: Newer) -> Option<Vec<u8>> {
    let mut job = job.clone();
    let (task, node) = (random.below(job.tasks.len()), random.below(job.nodes.len()));
    let (field, number) = match newer {
        Newer::Ready => (READY, &mut job.tasks[task].ready),
        Newer::Send => (SEND, &mut job.nodes[node].send),
        Newer::Group => (GROUP, &mut job.nodes[node].group),
    };
    *number = random.pick(&[field.high, field.high + 1, u64::from(u32::MAX)]);
    field.is_in(job.version).then(|| write_job(&job))
}

/// A job that ends among its nodes, within a number or between two.
pub fn cut_in_nodes(random: &mut Random, job: &Job) -> Vec<u8> {
    let mut file = write_job(job);
    file.truncate(random.between(8, task_count_offset(job) as u64) as usize);
    file
}

/// A job under the number of another version, as often as not of one that is read. Each version
/// has a layout of its own, so it is misread there.
pub fn renumbered(random: &mut Random, job: &Job) -> Vec<u8> {
    let other = ((job.version - 1 + random.between(1, NEWEST - 1)) % NEWEST + 1) as u32;
    let unread = random.pick(&[0, 5, 6, 255, 256, u32::MAX]);
    let version = if random.percent(50) { other } else { unread };
    let mut file = write_job(job);
    file[..4].copy_from_slice(&version.to_le_bytes());
    file
}
