//! The three consoles behind a C interface: the proved library and the two baselines.

use crate::console::{Console, Places};
use crate::replay::Loss;
use crate::sentences::Parts;

/// The C functions of one prefix as a console. A slice crosses as a pointer and its length.
macro_rules! c_console {
    (
        $module:ident, $judge:ident, $plan:ident, $replay:ident, $replay_loss:ident,
        $replay_times:ident, $replay_times_loss:ident, $ask:ident, $commit:ident, $fault_sets:ident,
        $trial:ident, $run_times:ident, $renew_job:ident, $sentence:ident, $read_sentence:ident
    ) => {
        mod $module {
            use super::{Console, Loss, Parts, Places};

            extern "C" {
                fn $judge(job: *const u8, job_len: usize, plan: *const u8, plan_len: usize) -> u64;
                fn $plan(job: *const u8, job_len: usize, out: *mut u8, out_len: usize) -> u64;
                fn $replay(
                    job: *const u8,
                    job_len: usize,
                    plan: *const u8,
                    plan_len: usize,
                    out: *mut u8,
                    out_len: usize,
                ) -> u64;
                fn $replay_loss(
                    job: *const u8,
                    job_len: usize,
                    plan: *const u8,
                    plan_len: usize,
                    group: u32,
                    moment: u32,
                    out: *mut u8,
                    out_len: usize,
                ) -> u64;
                fn $replay_times(
                    job: *const u8,
                    job_len: usize,
                    plan: *const u8,
                    plan_len: usize,
                    times: *const u8,
                    times_len: usize,
                    out: *mut u8,
                    out_len: usize,
                ) -> u64;
                fn $replay_times_loss(
                    job: *const u8,
                    job_len: usize,
                    plan: *const u8,
                    plan_len: usize,
                    group: u32,
                    moment: u32,
                    times: *const u8,
                    times_len: usize,
                    out: *mut u8,
                    out_len: usize,
                ) -> u64;
                fn $ask(
                    job: *const u8,
                    job_len: usize,
                    plan: *const u8,
                    plan_len: usize,
                    task: *const u8,
                    task_len: usize,
                    places: *mut u32,
                ) -> u64;
                fn $commit(
                    job: *const u8,
                    job_len: usize,
                    plan: *const u8,
                    plan_len: usize,
                    booking: *const u8,
                    booking_len: usize,
                    out_job: *mut u8,
                    out_job_len: usize,
                    out_plan: *mut u8,
                    out_plan_len: usize,
                ) -> u64;
                fn $fault_sets(
                    job: *const u8,
                    job_len: usize,
                    plan: *const u8,
                    plan_len: usize,
                    out: *mut u8,
                    out_len: usize,
                ) -> u64;
                fn $trial(job: *const u8, job_len: usize, plan: *const u8, plan_len: usize) -> u64;
                fn $run_times(
                    job: *const u8,
                    job_len: usize,
                    log: *const u8,
                    log_len: usize,
                    out: *mut u8,
                    out_len: usize,
                ) -> u64;
                fn $renew_job(
                    job: *const u8,
                    job_len: usize,
                    log: *const u8,
                    log_len: usize,
                    out: *mut u8,
                    out_len: usize,
                ) -> u64;
                fn $sentence(
                    number: u32,
                    first: u64,
                    second: u64,
                    out: *mut u8,
                    out_len: usize,
                ) -> u64;
                fn $read_sentence(text: *const u8, text_len: usize, parts: *mut u64) -> u64;
            }

            pub const CONSOLE: Console = Console {
                name: stringify!($module),
                judge,
                plan,
                replay,
                replay_times,
                ask,
                commit,
                fault_sets,
                trial,
                run_times,
                renew_job,
                sentence,
                read_sentence,
            };

            // Each slice is live and borrowed for the whole call, and the C side keeps none.

            fn judge(job: &[u8], plan: &[u8]) -> u64 {
                unsafe { $judge(job.as_ptr(), job.len(), plan.as_ptr(), plan.len()) }
            }

            fn plan(job: &[u8], out: &mut [u8]) -> u64 {
                unsafe { $plan(job.as_ptr(), job.len(), out.as_mut_ptr(), out.len()) }
            }

            fn replay(job: &[u8], plan: &[u8], loss: Option<Loss>, out: &mut [u8]) -> u64 {
                let (job, job_len) = (job.as_ptr(), job.len());
                let (plan, plan_len) = (plan.as_ptr(), plan.len());
                let (out, out_len) = (out.as_mut_ptr(), out.len());
                match loss {
                    None => unsafe { $replay(job, job_len, plan, plan_len, out, out_len) },
                    Some(Loss { group, moment }) => unsafe {
                        $replay_loss(job, job_len, plan, plan_len, group, moment, out, out_len)
                    },
                }
            }

            fn replay_times(
                job: &[u8],
                plan: &[u8],
                loss: Option<Loss>,
                times: &[u8],
                out: &mut [u8],
            ) -> u64 {
                let (job, job_len) = (job.as_ptr(), job.len());
                let (plan, plan_len) = (plan.as_ptr(), plan.len());
                let (times, times_len) = (times.as_ptr(), times.len());
                let (out, out_len) = (out.as_mut_ptr(), out.len());
                match loss {
                    None => unsafe {
                        $replay_times(job, job_len, plan, plan_len, times, times_len, out, out_len)
                    },
                    Some(Loss { group, moment }) => unsafe {
                        $replay_times_loss(
                            job, job_len, plan, plan_len, group, moment, times, times_len, out,
                            out_len,
                        )
                    },
                }
            }

            fn ask(job: &[u8], plan: &[u8], task: &[u8], places: &mut Places) -> u64 {
                let (job, job_len) = (job.as_ptr(), job.len());
                let (plan, plan_len) = (plan.as_ptr(), plan.len());
                let (task, task_len) = (task.as_ptr(), task.len());
                unsafe { $ask(job, job_len, plan, plan_len, task, task_len, places.as_mut_ptr()) }
            }

            fn commit(
                job: &[u8],
                plan: &[u8],
                booking: &[u8],
                out_job: &mut [u8],
                out_plan: &mut [u8],
            ) -> u64 {
                unsafe {
                    $commit(
                        job.as_ptr(),
                        job.len(),
                        plan.as_ptr(),
                        plan.len(),
                        booking.as_ptr(),
                        booking.len(),
                        out_job.as_mut_ptr(),
                        out_job.len(),
                        out_plan.as_mut_ptr(),
                        out_plan.len(),
                    )
                }
            }

            fn fault_sets(job: &[u8], plan: &[u8], out: &mut [u8]) -> u64 {
                let (job, job_len) = (job.as_ptr(), job.len());
                let (plan, plan_len) = (plan.as_ptr(), plan.len());
                unsafe { $fault_sets(job, job_len, plan, plan_len, out.as_mut_ptr(), out.len()) }
            }

            fn trial(job: &[u8], plan: &[u8]) -> u64 {
                unsafe { $trial(job.as_ptr(), job.len(), plan.as_ptr(), plan.len()) }
            }

            fn run_times(job: &[u8], log: &[u8], out: &mut [u8]) -> u64 {
                let (job, job_len) = (job.as_ptr(), job.len());
                let (log, log_len) = (log.as_ptr(), log.len());
                unsafe { $run_times(job, job_len, log, log_len, out.as_mut_ptr(), out.len()) }
            }

            fn renew_job(job: &[u8], log: &[u8], out: &mut [u8]) -> u64 {
                let (job, job_len) = (job.as_ptr(), job.len());
                let (log, log_len) = (log.as_ptr(), log.len());
                unsafe { $renew_job(job, job_len, log, log_len, out.as_mut_ptr(), out.len()) }
            }

            fn sentence(number: u32, first: u64, second: u64, out: &mut [u8]) -> u64 {
                unsafe { $sentence(number, first, second, out.as_mut_ptr(), out.len()) }
            }

            fn read_sentence(text: &[u8], parts: &mut Parts) -> u64 {
                unsafe { $read_sentence(text.as_ptr(), text.len(), parts.as_mut_ptr()) }
            }
        }
    };
}

c_console!(
    library,
    seqopchi_judge,
    seqopchi_plan,
    seqopchi_replay,
    seqopchi_replay_loss,
    seqopchi_replay_times,
    seqopchi_replay_times_loss,
    seqopchi_ask,
    seqopchi_commit,
    seqopchi_fault_sets,
    seqopchi_trial,
    seqopchi_run_times,
    seqopchi_renew_job,
    seqopchi_sentence,
    seqopchi_read_sentence
);
c_console!(
    plain,
    plain_judge,
    plain_plan,
    plain_replay,
    plain_replay_loss,
    plain_replay_times,
    plain_replay_times_loss,
    plain_ask,
    plain_commit,
    plain_fault_sets,
    plain_trial,
    plain_run_times,
    plain_renew_job,
    plain_sentence,
    plain_read_sentence
);
c_console!(
    tuned,
    tuned_judge,
    tuned_plan,
    tuned_replay,
    tuned_replay_loss,
    tuned_replay_times,
    tuned_replay_times_loss,
    tuned_ask,
    tuned_commit,
    tuned_fault_sets,
    tuned_trial,
    tuned_run_times,
    tuned_renew_job,
    tuned_sentence,
    tuned_read_sentence
);

/// The library under test.
pub const LIBRARY: Console = library::CONSOLE;

/// Plain C: the documents as they read. The benchmark measures the library by it.
pub const PLAIN: Console = plain::CONSOLE;

/// C that is tuned for speed: how much a better method would gain.
pub const TUNED: Console = tuned::CONSOLE;
