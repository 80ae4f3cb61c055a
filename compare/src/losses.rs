//! Losses of a group, tried on a plan.

use crate::console::Console;
use crate::drawers::count_losses;
use crate::earlier::without_send_times;
use crate::files::{Job, Plan};
use crate::given::Given;
use crate::random::Random;
use crate::replay::{replay, Loss};
use crate::survival::Survival;
use crate::trial::{Mismatch, Trial};

/// Up to so many runs of a passed plan, every group is lost at every tick.
const MOST_RUNS: u64 = 8_000;

/// Moments from the end of a plan on, up to the greatest that can be asked for.
pub fn moments_after(survival: &Survival) -> [u64; 4] {
    [survival.end(), survival.end() + 1, 2_000_000, u64::from(u32::MAX)]
}

/// No loss, and losses at every start and finish, one tick before each, and after the end. Of a
/// plan that was refused, or a long one, only some of them.
pub fn try_losses(
    trial: &mut Trial,
    random: &mut Random,
    given: &Given,
    plan: &[u8],
    survival: &Survival,
    passed: bool,
) -> Result<(), Mismatch> {
    let mut losses: Vec<(u64, u64)> = survival.moments().collect();
    let wanted = if passed { 256 } else { 24 };
    while losses.len() > wanted {
        losses.swap_remove(random.below(losses.len()));
    }
    let group = random.pick(&given.groups());
    losses.extend(moments_after(survival).map(|moment| (group, moment)));
    losses.push((group, random.between(0, survival.end() + 1)));
    let losses: Vec<Loss> = losses.into_iter().map(lost).collect();
    for loss in losses.iter().copied().map(Some).chain([None]) {
        trial.compare(&given.replay(plan, loss, given.replay_room()))?;
    }
    trial.tally.replayed_by_send += changed_by_send(&given.job, survival.plan, &losses);
    count_losses(&mut trial.tally, &given.job, survival.plan, &losses);
    Ok(())
}

pub fn lost((group, moment): (u64, u64)) -> Loss {
    Loss { group: group as u32, moment: moment as u32 }
}

/// How many runs, that without loss among them, are not what they would be with all send times 0.
fn changed_by_send(job: &Job, plan: &Plan, losses: &[Loss]) -> u64 {
    let Some(earlier) = without_send_times(job) else {
        return 0;
    };
    let runs = losses.iter().copied().map(Some).chain([None]);
    let changed = |&loss: &Option<Loss>| replay(job, plan, loss) != replay(&earlier, plan, loss);
    runs.filter(changed).count() as u64
}

/// Demand 3 on the console's own replay of a passed plan.
pub fn try_survival(
    trial: &mut Trial,
    random: &mut Random,
    given: &Given,
    plan: &[u8],
    survival: &Survival,
) -> Result<(), Mismatch> {
    let every_tick = at_every_tick(given, survival);
    trial.tally.every_tick += u64::from(every_tick.is_some());
    let losses = every_tick.unwrap_or_else(|| {
        let (groups, end) = (given.groups(), survival.end() + 1);
        let more = (0..200).map(|_| lost((random.pick(&groups), random.between(0, end))));
        survival.moments().map(lost).chain(more).collect()
    });
    trial.tally.survived += 1 + losses.len() as u64;
    outlive(trial, given, plan, None, survival, &losses)
}

/// Every group lost at every tick up to one after the end; none if that is too much.
pub fn at_every_tick(given: &Given, survival: &Survival) -> Option<Vec<Loss>> {
    let (groups, end) = (given.groups(), survival.end() + 1);
    let few = groups.len() as u64 * (end + 1) <= MOST_RUNS;
    let moments = |group: u64| (0..=end).map(move |moment| lost((group, moment)));
    few.then(|| groups.into_iter().flat_map(moments).collect())
}

/// Demand 3 with no loss and with each of the losses, with a list of actual times or as listed.
pub fn outlive(
    trial: &Trial,
    given: &Given,
    plan: &[u8],
    times: Option<&[u8]>,
    survival: &Survival,
    losses: &[Loss],
) -> Result<(), Mismatch> {
    let Console { replay, replay_times, .. } = trial.console;
    let mut rows = vec![0; given.replay_room()];
    for loss in [None].into_iter().chain(losses.iter().copied().map(Some)) {
        let code = match times {
            None => replay(&given.bytes, plan, loss, &mut rows),
            Some(times) => replay_times(&given.bytes, plan, loss, times, &mut rows),
        };
        let refused = (code != 0).then(|| "refused the replay of a passed plan".to_string());
        if let Some(text) = refused.or_else(|| survival.fault(loss, &rows)) {
            let call = match times {
                None => given.replay(plan, loss, rows.len()),
                Some(times) => given.replay_times(plan, loss, times, rows.len()),
            };
            return Err(Mismatch::new(&call, text));
        }
    }
    Ok(())
}
