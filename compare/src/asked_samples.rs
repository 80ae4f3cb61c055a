//! Samples for request (iii): a third task beside job J and sample 1.

use crate::bookings::{write_booking, write_description, Input, NewTask};
use crate::files::{
    bytes_of as numbers, read_job, read_plan, write_job, write_plan, Job, Link, Plan, Task,
};
use crate::refusal::{
    Refusal, COUNT, FULL, LATE, LINK_ORDER, NO_BACKUP, NO_PRIMARY, SHORT, SHORT_BUFFER, STALE,
    TAIL, UNABLE, VALUE,
};
use crate::samples::{bytes_of, job, plan_of, with_ready, Check, Listed, FILL, SAMPLE_1, SPARE};
use crate::sized::planned;

/// The third task's places.
pub const ASKED: Listed = [0, 7, 1, 12];

/// Run time 2 on each of the nodes; it waits for both tasks of J.
pub fn third(deadline: u64) -> NewTask {
    let inputs = vec![Input { from: 0, delay: 1 }, Input { from: 1, delay: 3 }];
    NewTask { task: Task { ready: 0, deadline, run: vec![2; 3] }, inputs }
}

fn ready_at(ready: u64) -> NewTask {
    let mut new = third(30);
    new.task.ready = ready;
    new
}

/// J with the third task: its links are merged with that of J.
pub fn longer(job: Job) -> Job {
    let link = |from, to, delay| Link { from, to, delay };
    let mut longer = Job { links: vec![link(0, 1, 2), link(0, 2, 1), link(1, 2, 3)], ..job };
    longer.tasks.push(third(30).task);
    longer
}

fn booking(new: &NewTask, row: Listed) -> Vec<u8> {
    write_booking(1, new, &plan_of([row]).rows[0])
}

/// A job and a plan as bytes.
pub type Pair = (Vec<u8>, Vec<u8>);

/// J and sample 1.
fn pair() -> Pair {
    (write_job(&job()), bytes_of(SAMPLE_1))
}

/// The lengths of a commit's output buffers.
type Rooms = (usize, usize);

/// What J with a third task and its plan of three rows take.
const NEEDED: Rooms = (112, 56);

impl Check<'_> {
    pub fn asked(
        &mut self,
        sample: &str,
        pair: &Pair,
        task: &[u8],
        expected: Result<Listed, Refusal>,
    ) {
        const KEPT: u32 = 0xa5a5_a5a5;
        let mut places = [KEPT; 4];
        let got = (self.console.ask)(&pair.0, &pair.1, task, &mut places);
        self.expect(sample, got, expected.map(|_| ()));
        let wanted = expected.map_or([KEPT; 4], |row| row.map(|number| number as u32));
        self.expect_bytes(
            sample,
            &places.map(u32::to_le_bytes).concat(),
            Some(wanted.map(u32::to_le_bytes).concat()),
        );
    }

    /// The expected pair is the longer one.
    pub fn committed(
        &mut self,
        sample: &str,
        pair: &Pair,
        booking: &[u8],
        rooms: Rooms,
        expected: Result<Pair, Refusal>,
    ) {
        let (mut job, mut plan) = (vec![FILL; rooms.0], vec![FILL; rooms.1]);
        let got = (self.console.commit)(&pair.0, &pair.1, booking, &mut job, &mut plan);
        self.expect(sample, got, expected.as_ref().map(|_| ()).map_err(|refusal| *refusal));
        let (wanted_job, wanted_plan) = expected.ok().unzip();
        self.expect_bytes(sample, &job, wanted_job);
        self.expect_bytes(sample, &plan, wanted_plan);
    }
}

pub fn run(check: &mut Check) {
    asked(check);
    booked(check);
    stale(check);
    booked_again(check);
    short_buffers(check);
    misread(check);
    full(check);
}

fn asked(check: &mut Check) {
    let mut ask = |sample: &str, new: &NewTask, expected| {
        check.asked(&format!("(iii), {sample}"), &pair(), &write_description(1, new), expected);
    };
    let (no_primary, no_backup) =
        (Err(Refusal::of_task(NO_PRIMARY, 2)), Err(Refusal::of_task(NO_BACKUP, 2)));
    ask("asked", &third(30), Ok(ASKED));
    ask("deadline 14", &third(14), Ok(ASKED));
    ask("deadline 13", &third(13), no_backup);
    ask("deadline 12", &third(12), no_backup);
    ask("deadline 9", &third(9), no_backup);
    ask("deadline 8", &third(8), no_primary);
    let free = NewTask { inputs: vec![], ..third(30) };
    ask("no links", &free, Ok([1, 0, 2, 3]));
    // In version 2 the description has a ready time.
    let pair = (write_job(&with_ready(0, 4)), bytes_of(SAMPLE_1));
    for (ready, places) in [(7, ASKED), (8, [0, 8, 1, 12]), (10, [0, 10, 1, 13])] {
        let task = write_description(2, &ready_at(ready));
        check.asked(&format!("(iii), ready at {ready}"), &pair, &task, Ok(places));
    }
    // The judge comes first.
    let late = bytes_of([[0, 0, 1, 5], [0, 4, 1, 28]]);
    let refused = Err(Refusal::of_task(LATE, 1));
    check.asked("(iii), beside a late task", &(write_job(&job()), late), &[], refused);
}

fn booked(check: &mut Check) {
    let spacious = (NEEDED.0 + SPARE, NEEDED.1 + SPARE);
    let [first, second] = SAMPLE_1;
    let booked = |job: Job, row| Ok((write_job(&longer(job)), bytes_of([first, second, row])));
    let asked = booking(&third(30), ASKED);
    check.committed("(iii), booked", &pair(), &asked, spacious, booked(job(), ASKED));
    let moved = [0, 8, 2, 27];
    let later = booking(&third(30), moved);
    check.committed("(iii), booked later", &pair(), &later, spacious, booked(job(), moved));
    let pair = (write_job(&with_ready(0, 4)), bytes_of(SAMPLE_1));
    let asked = write_booking(2, &ready_at(0), &plan_of([ASKED]).rows[0]);
    let spacious = (spacious.0 + 12, spacious.1);
    let longer = booked(with_ready(0, 4), ASKED);
    check.committed("(iii), booked in version 2", &pair, &asked, spacious, longer);
}

fn stale(check: &mut Check) {
    // Each of the four numbers changed, and a deadline that is one too near.
    let stale = || Err(Refusal::of_task(STALE, 2));
    for row in [[1, 7, 0, 12], [0, 6, 1, 12], [0, 7, 2, 12], [0, 7, 1, 11]] {
        check.committed("(iii), stale", &pair(), &booking(&third(30), row), NEEDED, stale());
    }
    let near = booking(&third(13), ASKED);
    check.committed("(iii), stale by the deadline", &pair(), &near, (0, 0), stale());
}

/// Booked once, the place is taken. The next one's links come between those that are there.
fn booked_again(check: &mut Check) {
    let [first, second] = SAMPLE_1;
    let taken = (write_job(&longer(job())), bytes_of([first, second, ASKED]));
    let again = booking(&third(30), ASKED);
    let stale = Err(Refusal::of_task(STALE, 3));
    check.committed("(iii), stale after a commit", &taken, &again, (0, 0), stale);
    let next = [0, 9, 1, 14];
    let task = write_description(1, &third(30));
    check.asked("(iii), asked after a commit", &taken, &task, Ok(next));
    let mut last = longer(job());
    last.tasks.push(third(30).task);
    last.links.insert(2, Link { from: 0, to: 3, delay: 1 });
    last.links.insert(4, Link { from: 1, to: 3, delay: 3 });
    let expected = (write_job(&last), bytes_of([first, second, ASKED, next]));
    let again = booking(&third(30), next);
    check.committed("(iii), booked after a commit", &taken, &again, (200, 80), Ok(expected));
}

fn short_buffers(check: &mut Check) {
    let asked = booking(&third(30), ASKED);
    let (job, plan) = NEEDED;
    for (rooms, needed) in [((job - 1, plan), job), ((job, plan - 1), plan), ((0, 0), job)] {
        let short = Err(Refusal::at(SHORT_BUFFER, needed as u64));
        check.committed("(iii), short buffers", &pair(), &asked, rooms, short);
    }
}

/// The booking by its numbers: deadline, three run times, link count, two links of two numbers; then
/// the four numbers.
const GOOD: [u64; 13] = [30, 2, 2, 2, 2, 0, 1, 1, 3, 0, 7, 1, 12];

/// Which number is set to what, the refusal and its offset.
const FAULTS: [(usize, u64, u8, u64); 12] = [
    (0, 0, VALUE, 0),
    (0, 1_000_001, VALUE, 0),
    (3, 1_000_001, VALUE, 12),
    (4, 513, COUNT, 16),
    (4, 512, LINK_ORDER, 36),
    (5, 2, VALUE, 20),
    (6, 1_000_001, VALUE, 24),
    (7, 0, LINK_ORDER, 28),
    (9, 3, VALUE, 36),
    (10, 1_000_001, VALUE, 40),
    (11, 4_294_967_295, VALUE, 44),
    (12, 1_000_001, VALUE, 48),
];

/// Faults of the description, which ends at 36, and of the booking.
fn misread(check: &mut Check) {
    for (at, number, refusal, offset) in FAULTS {
        let mut faulty = GOOD;
        faulty[at] = number;
        let (bytes, refused) = (numbers(&faulty), Err(Refusal::at(refusal, offset)));
        let sample = format!("(iii), number {at} set to {number}");
        check.committed(&sample, &pair(), &bytes, NEEDED, refused);
        if offset < 36 {
            check.asked(&sample, &pair(), &bytes[..36], Err(Refusal::at(refusal, offset)));
        }
    }
    let mut unable = GOOD;
    unable[2] = 0;
    let refused = Err(Refusal::at(UNABLE, 44));
    check.committed("(iii), unable", &pair(), &numbers(&unable), NEEDED, refused);
    let whole = numbers(&GOOD);
    check.asked("(iii), a booking asked for", &pair(), &whole, Err(Refusal::at(TAIL, 36)));
    let short = Err(Refusal::at(SHORT, 36));
    check.committed("(iii), a description booked", &pair(), &whole[..36], NEEDED, short);
    let tail = Err(Refusal::at(TAIL, 52));
    check.committed("(iii), a tail", &pair(), &[&whole[..], &[0]].concat(), NEEDED, tail);
}

/// The 65th task and the 513th link; the 64th and the 512th are booked.
fn full(check: &mut Check) {
    for (tasks, links, added) in [(64, 0, 0), (63, 0, 0), (63, 512, 1), (63, 511, 1)] {
        let case = planned(1, 16, tasks, links);
        let (mut job, mut plan) = read_pair(&case.job, &case.plan);
        // The last task is the only one that sends, so that the link comes last.
        let task = Task { ready: 0, deadline: 1_000_000, run: vec![1; 16] };
        let inputs = vec![Input { from: tasks - 1, delay: 0 }; added];
        let row = plan_of([[0, 900_000, 1, 990_000]]).rows[0];
        job.links.extend(inputs.iter().map(|input| Link { from: input.from, to: tasks, delay: 0 }));
        job.tasks.push(task.clone());
        plan.rows.push(row);
        let bytes = write_booking(1, &NewTask { task, inputs }, &row);
        let sample =
            format!("(iii), one task more than {tasks} and {added} more than {links} links");
        let (rooms, pair) = ((11_000, 1_100), (case.job, case.plan));
        let longer = (write_job(&job), write_plan(&plan));
        let is_full = tasks == 64 || links == 512;
        let refusal = Refusal::at(FULL, tasks as u64);
        let expected = if is_full { Err(refusal) } else { Ok(longer) };
        check.committed(&sample, &pair, &bytes, rooms, expected);
        if is_full {
            let description = &bytes[..bytes.len() - 16];
            check.asked(&sample, &pair, description, Err(refusal));
            let tail = Err(Refusal::at(TAIL, description.len() as u64));
            check.asked("(iii), a tail before full", &pair, &bytes, tail);
        }
    }
}

fn read_pair(job: &[u8], plan: &[u8]) -> (Job, Plan) {
    let job = read_job(job).expect("a planned job reads well");
    let plan = read_plan(&job, plan).expect("and so does its plan");
    (job, plan)
}
