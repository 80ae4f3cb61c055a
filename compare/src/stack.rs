//! How much stack the library's functions use, on jobs of the greatest size and on the longest
//! sentence.

use std::ffi::c_void;

use crate::console::{plan_bytes, replay_bytes, sets_bytes, table_bytes, Console};
use crate::files::NEWEST;
use crate::sentences::MAX_BYTES;
use crate::sized::{asked, planned};

/// A call has to use less than this.
pub const LIMIT: usize = 128 * 1024;

extern "C" {
    fn stack_used(call: extern "C" fn(*mut c_void), argument: *mut c_void) -> usize;
}

type Used = [(&'static str, usize); 14];

/// Each function with the bytes of stack that it uses, in the version that takes most.
pub fn used(console: &Console) -> Used {
    let mut most = used_in(console, 1);
    for version in 2..=NEWEST {
        let used = used_in(console, version);
        most.iter_mut().zip(used).for_each(|(most, used)| most.1 = most.1.max(used.1));
    }
    most
}

fn used_in(console: &Console, version: u64) -> Used {
    let case = planned(version, 16, 64, 512);
    let (job, plan) = (&case.job, &case.plan);
    let mut planned = vec![0; plan_bytes(case.tasks)];
    let mut replayed = vec![0; replay_bytes(case.tasks)];
    let mut sets = vec![0; sets_bytes(case.tasks)];
    let mut table = vec![0; table_bytes(case.nodes, case.tasks)];
    let mut renewed = vec![0; job.len()];
    let new = asked(version, 16, 64, 512);
    let (held, held_plan) = (&new.held.job, &new.held.plan);
    let (mut longer, mut booked) = (vec![0; new.rooms.0], vec![0; new.rooms.1]);
    let mut places = [0; 4];
    // The longest sentence has number 11.
    let (mut text, mut parts) = ([0; MAX_BYTES], [0; 3]);
    let said = measure(|| (console.sentence)(11, u64::MAX, u64::MAX, &mut text));
    let timed = |loss, out: &mut [u8]| (console.replay_times)(job, plan, loss, &case.times, out);
    let mut commit = || (console.commit)(held, held_plan, &new.booking, &mut longer, &mut booked);
    [
        ("judge", measure(|| (console.judge)(job, plan))),
        ("plan", measure(|| (console.plan)(job, &mut planned))),
        ("replay", measure(|| (console.replay)(job, plan, None, &mut replayed))),
        ("replay_loss", measure(|| (console.replay)(job, plan, Some(case.loss), &mut replayed))),
        ("replay_times", measure(|| timed(None, &mut replayed))),
        ("replay_times_loss", measure(|| timed(Some(case.loss), &mut replayed))),
        ("ask", measure(|| (console.ask)(held, held_plan, &new.task, &mut places))),
        ("commit", measure(&mut commit)),
        ("fault_sets", measure(|| (console.fault_sets)(job, plan, &mut sets))),
        ("trial", measure(|| (console.trial)(job, plan))),
        ("run_times", measure(|| (console.run_times)(job, &case.log, &mut table))),
        ("renew_job", measure(|| (console.renew_job)(job, &case.log, &mut renewed))),
        ("sentence", said),
        ("read_sentence", measure(|| (console.read_sentence)(&text, &mut parts))),
    ]
}

/// The stack that a call uses, which has to succeed or the measure says little.
fn measure(call: impl FnMut() -> u64) -> usize {
    let (used, answer) = on_painted_stack(call);
    assert_eq!(answer, 0, "planned, passed, with a place for the new task, and a sentence");
    used
}

/// A call's answer, and the bytes of stack that it and the little code around it used.
fn on_painted_stack<F: FnMut() -> u64>(call: F) -> (usize, u64) {
    extern "C" fn make<F: FnMut() -> u64>(pointer: *mut c_void) {
        // It points to the pair below, which lives until the thread is joined.
        let (call, answer) = unsafe { &mut *pointer.cast::<(F, Option<u64>)>() };
        *answer = Some(call());
    }
    let mut pair = (call, None);
    let used = unsafe { stack_used(make::<F>, (&raw mut pair).cast()) };
    (used, pair.1.expect("a thread could be started"))
}

#[cfg(test)]
mod tests {
    use std::hint::black_box;

    use super::*;

    fn use_array<const BYTES: usize>() -> u64 {
        let array = black_box([1u8; BYTES]);
        u64::from(array[BYTES / 2])
    }

    #[test]
    fn the_measure_is_what_was_used() {
        let (used, answer) = on_painted_stack(use_array::<50_000>);
        assert_eq!(answer, 1);
        // A build without optimisation keeps several copies of the array.
        assert!((50_000..210_000).contains(&used), "{used}");
        let (more, _) = on_painted_stack(use_array::<LIMIT>);
        assert!(more >= LIMIT, "{more}");
    }

    #[test]
    fn a_call_that_uses_little_is_far_from_the_limit() {
        let (used, _) = on_painted_stack(|| 7);
        assert!(used < 16_384, "{used}");
    }
}
