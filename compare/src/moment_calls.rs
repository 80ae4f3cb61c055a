//! The trial of every moment on a round's plans (request (ix)): the call, what has to hold between it
//! and the judge, and what is counted.

use crate::earlier::{without_drawers, without_ready_times, without_send_times};
use crate::every_moment::Runs;
use crate::few_moments::{count_no, ends_at_deadline, own_copies_share, shares_time};
use crate::files::{read_plan, Plan};
use crate::given::Given;
use crate::refusal::{describe, number_of, OVERLAP};
use crate::tally::Tally;
use crate::trial::{Mismatch, Trial};

/// A plan that reads well, and what was said of it.
struct Tried<'a> {
    plan: &'a Plan,
    runs: Runs<'a>,
    /// The judge's answer.
    judged: u64,
    yes: bool,
    /// Whether a primary and a backup share time.
    shares: bool,
}

/// The trial of a plan that the judge was given, which need not read well. Answers whether it says
/// yes.
pub fn try_moments(
    trial: &mut Trial,
    given: &Given,
    bytes: &[u8],
    judged: u64,
) -> Result<bool, Mismatch> {
    let call = given.trial(bytes);
    let answer = trial.compare(&call)?;
    let Ok(plan) = read_plan(&given.job, bytes) else {
        return match answer == judged {
            true => Ok(false),
            false => Err(Mismatch::new(&call, format!("the judge gave {}", describe(judged)))),
        };
    };
    let runs = Runs::new(&given.job, &plan);
    let shares = shares_time(&runs);
    let tried = Tried { plan: &plan, runs, judged, yes: answer == 0, shares };
    if let Some(text) = tried.disagreement() {
        return Err(Mismatch::new(&call, text));
    }
    tried.count(&mut trial.tally);
    Ok(tried.yes)
}

impl Tried<'_> {
    fn is_overlap(&self) -> bool {
        number_of(self.judged) == usize::from(OVERLAP)
    }

    /// A passed plan gets yes; a refused one only if it is refused 14; and without sharing yes is
    /// passed and no is refused.
    fn disagreement(&self) -> Option<String> {
        let passed = self.judged == 0;
        let (said, judged) = (if self.yes { "yes" } else { "no" }, describe(self.judged));
        let agrees = match self.yes {
            true => passed || self.is_overlap() && self.shares,
            false => !passed,
        };
        (!agrees).then(|| format!("said {said}, shares time: {}; judged {judged}", self.shares))
    }

    fn count(&self, tally: &mut Tally) {
        let Tried { ref runs, plan, yes, shares, .. } = *self;
        let job = runs.job;
        let count = |counts: &mut [u64; 2]| counts[usize::from(!yes)] += 1;
        count(&mut tally.tried);
        if !shares {
            count(&mut tally.tried_unshared);
        }
        if self.is_overlap() && shares {
            count(&mut tally.tried_shared);
            count(&mut tally.shared_version[job.version as usize - 1]);
        }
        if yes && self.is_overlap() {
            tally.yes_in_drawers += u64::from(without_drawers(job).is_some());
            tally.yes_with_ready += u64::from(without_ready_times(job) != *job);
            tally.yes_with_send += u64::from(without_send_times(job).is_some());
        }
        tally.yes_at_every_tick += u64::from(yes && runs.is_short());
        tally.own_copies += u64::from(own_copies_share(runs));
        tally.yes_at_deadline += u64::from(yes && ends_at_deadline(runs));
        if !yes {
            count_no(tally, runs, plan);
        }
    }
}
