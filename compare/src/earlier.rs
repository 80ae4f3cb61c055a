//! What stood before a request changed it. No answer rests on it: it is there to count how often a
//! run meets what the request changed, and for plans that the request refuses.

use crate::files::{Job, Plan};
use crate::planner;
use crate::rules::{in_time, judge, layout};

/// Rule E of document 01: every backup waits for both copies of each sender.
///
/// It also tells whether the planner would plan otherwise under that rule. The rule only takes
/// places away: a plan that keeps it has the best place at each step still, and one that breaks
/// it cannot be planned.
pub fn keeps_rule_e_of_01(job: &Job, plan: &Plan) -> bool {
    let placed = layout(job, plan);
    job.links.iter().all(|link| {
        let senders = [placed.primaries[link.from], placed.backups[link.from]];
        senders.iter().all(|sender| in_time(link, sender, &placed.backups[link.to]))
    })
}

/// The job as it was before request (ii): every task is ready from the start.
pub fn without_ready_times(job: &Job) -> Job {
    let mut job = job.clone();
    job.tasks.iter_mut().for_each(|task| task.ready = 0);
    job
}

/// The job as it was before request (iv): results leave at once. None if they do so now.
pub fn without_send_times(job: &Job) -> Option<Job> {
    let mut earlier = job.clone();
    earlier.nodes.iter_mut().for_each(|node| node.send = 0);
    (earlier != *job).then_some(earlier)
}

/// The job as it was before request (vi): each node is its own group. None if no two share one.
pub fn without_drawers(job: &Job) -> Option<Job> {
    let mut earlier = job.clone();
    (0..).zip(&mut earlier.nodes).for_each(|(number, node)| node.group = number);
    (job.groups().len() < job.nodes.len()).then_some(earlier)
}

/// The plan of the job as it was, if it breaks a rule now. If it breaks none, it is the planner's
/// plan still: ready times, send times and drawers only take places away. (A result that arrives
/// later may make a link weak and fault sets greater, never the other way; fault sets that have no
/// group in common have no node in common.)
pub fn hasty_plan(job: &Job, earlier: &Job) -> Option<Plan> {
    let plan = planner::plan(earlier).ok()?;
    judge(job, &plan).is_err().then_some(plan)
}
