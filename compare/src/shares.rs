//! Rounds with plans in which primaries and backups share time (request (ix)): judge and trial, and
//! the library's own replay of those that rule G alone turns down.

use crate::files::{read_plan, write_plan, Plan};
use crate::given::Given;
use crate::jobs::random_job;
use crate::losses::{lost, outlive};
use crate::moment_calls::try_moments;
use crate::patterns::{in_drawer, in_last_tick};
use crate::plans::changed_plan;
use crate::random::Random;
use crate::sharing::sharing_plan;
use crate::survival::Survival;
use crate::trial::{Mismatch, Trial};

/// A random job: plans that share time, and these changed.
pub fn share(trial: &mut Trial, random: &mut Random) -> Result<(), Mismatch> {
    let given = Given::new(random_job(random));
    for _ in 0..4 {
        let Some(plan) = sharing_plan(random, &given.job) else {
            continue;
        };
        try_shared(trial, &given, &plan)?;
        for _ in 0..3 {
            try_shared(trial, &given, &changed_plan(random, &given.job, &plan))?;
        }
    }
    let patterns = [in_drawer(random), in_drawer(random), in_last_tick(random)];
    for (job, plan) in patterns.into_iter().flatten() {
        try_shared(trial, &Given::new(job), &plan)?;
    }
    Ok(())
}

/// The judge and the trial of a plan. Where the trial says yes, demand 3 has to hold of the library's
/// own replay, with each group lost at the moments that matter.
fn try_shared(trial: &mut Trial, given: &Given, plan: &Plan) -> Result<(), Mismatch> {
    let bytes = write_plan(plan);
    let judged = trial.compare(&given.judge(&bytes))?;
    if try_moments(trial, given, &bytes, judged)? && judged != 0 {
        let plan = read_plan(&given.job, &bytes).expect("it was tried");
        let survival = Survival::new(&given.job, &plan);
        let losses: Vec<_> = survival.last_moments().map(lost).collect();
        outlive(trial, given, &bytes, None, &survival, &losses)?;
    }
    Ok(())
}
