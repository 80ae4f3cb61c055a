//! Replays with a list of actual times, tried on a plan (request (viii)): good lists and faulty
//! ones, and demand 3 for the good.

use std::collections::BTreeSet;

use crate::console::plan_bytes;
use crate::early_ends::count_run;
use crate::files::{read_job, read_plan, Plan, TASKS};
use crate::given::{some_room, Given};
use crate::losses::{at_every_tick, lost, moments_after, outlive};
use crate::random::Random;
use crate::refusal::{number_of, Refusal, NO_SUCH_NODE, SHORT_BUFFER};
use crate::replay::Loss;
use crate::rounds::missing_group;
use crate::survival::Survival;
use crate::time_lists::{all_ones, damaged_times, faulty, random_times, Fault, FAULTS};
use crate::times::{listed_times, read_times, write_times, Ticks};
use crate::trial::{Call, Function, Mismatch, Trial};

/// How a good list is made.
#[derive(Clone, Copy, PartialEq, Eq)]
enum Kind {
    Random,
    Ones,
    Listed,
}

/// A plan that reads well, and the judge's word on it.
pub struct Timed<'a> {
    pub given: &'a Given,
    pub plan: &'a Plan,
    pub bytes: &'a [u8],
    pub passed: bool,
}

/// Losses tried with a list of each kind, beside no loss.
const LOSSES: [(Kind, usize); 3] = [(Kind::Random, 3), (Kind::Ones, 1), (Kind::Listed, 1)];

/// In so many cases of a hundred a passed plan loses every group at every tick with each list.
const EVERY_TICK: u64 = 2;

impl Timed<'_> {
    /// All calls with lists on the plan. Where it passes, demand 3 is asked of each list.
    pub fn try_lists(&self, trial: &mut Trial, random: &mut Random) -> Result<(), Mismatch> {
        let listed = listed_times(&self.given.job, self.plan);
        let every_tick = random.percent(EVERY_TICK);
        for (kind, wanted) in LOSSES {
            let times = match kind {
                Kind::Random => random_times(random, &listed),
                Kind::Ones => all_ones(&listed),
                Kind::Listed => listed.clone(),
            };
            let survival = Survival::with_times(&self.given.job, self.plan, &times);
            let moments: Vec<(u64, u64)> = survival.moments().collect();
            let some = (0..wanted).map(|_| Some(lost(random.pick(&moments)))).chain([None]);
            self.try_list(trial, kind, &times, &some.collect::<Vec<_>>())?;
            if self.passed {
                let all = every_tick.then(|| at_every_tick(self.given, &survival)).flatten();
                trial.tally.timed_every_tick += u64::from(all.is_some());
                let losses = all.unwrap_or_else(|| self.losses(&survival));
                trial.tally.timed_survived[kind as usize] += 1 + losses.len() as u64;
                let list = write_times(&times);
                outlive(trial, self.given, self.bytes, Some(&list), &survival, &losses)?;
            }
        }
        let times = random_times(random, &listed);
        self.try_faulty_lists(trial, random, &times)?;
        self.try_rooms(trial, random, &times)
    }

    /// Each group lost at the last moments that stand for all, at 0 and after the end.
    fn losses(&self, survival: &Survival) -> Vec<Loss> {
        let around = [0, survival.end(), u64::from(u32::MAX)];
        let groups = self.given.groups().into_iter();
        let around = groups.flat_map(|group| around.map(|moment| (group, moment)));
        let losses: BTreeSet<(u64, u64)> = survival.last_moments().chain(around).collect();
        losses.into_iter().map(lost).collect()
    }

    fn try_list(
        &self,
        trial: &mut Trial,
        kind: Kind,
        times: &[Ticks],
        losses: &[Option<Loss>],
    ) -> Result<(), Mismatch> {
        let list = write_times(times);
        for &loss in losses {
            trial.compare(&self.replay(loss, &list, self.given.replay_room()))?;
            trial.tally.timed_lists[kind as usize] += 1;
            if kind == Kind::Listed {
                self.same_as_listed(trial, loss)?;
            } else {
                let Timed { given, plan, passed, .. } = self;
                count_run(&mut trial.tally, &given.job, plan, loss, times, *passed);
            }
        }
        Ok(())
    }

    /// After a replay with the listed times: without a list every byte is the same.
    fn same_as_listed(&self, trial: &mut Trial, loss: Option<Loss>) -> Result<(), Mismatch> {
        let rows = trial.written().to_vec();
        let call = self.given.replay(self.bytes, loss, rows.len());
        trial.compare(&call)?;
        if trial.written() != rows {
            return Err(Mismatch::new(&call, "another run than with the listed times".into()));
        }
        Ok(())
    }

    /// Two of the faults, and a list damaged in any way.
    fn try_faulty_lists(
        &self,
        trial: &mut Trial,
        random: &mut Random,
        times: &[Ticks],
    ) -> Result<(), Mismatch> {
        let first = random.below(FAULTS.len());
        for fault in [FAULTS[first], FAULTS[(first + 3) % FAULTS.len()]] {
            self.try_fault(trial, random, times, fault)?;
        }
        let list = damaged_times(random, &self.given.job, self.plan, times);
        let loss = self.some_loss(random);
        trial.compare(&self.replay(loss, &list, self.given.replay_room()))?;
        if random.percent(1) && times.len() <= 16 {
            self.try_every_length(trial, &write_times(times))?;
        }
        Ok(())
    }

    /// With a loss or with none, most often into a buffer that is too short; and after 18.
    fn try_fault(
        &self,
        trial: &mut Trial,
        random: &mut Random,
        times: &[Ticks],
        fault: Fault,
    ) -> Result<(), Mismatch> {
        let Some(list) = faulty(random, &self.given.job, self.plan, times, fault) else {
            return Ok(());
        };
        let needed = self.given.replay_room();
        let room = random.pick(&[needed, needed - 1, 0]);
        let loss = self.some_loss(random);
        trial.refuse(&self.replay(loss, &list.bytes, room), list.refusal)?;
        trial.tally.lists_refused[fault as usize] += 1;
        trial.tally.lists_before_room += u64::from(room < needed);
        if random.percent(50) {
            let group = missing_group(random, &self.given.job);
            let missing = Some(Loss { group, moment: random.between(0, 20) as u32 });
            let refusal = Refusal::at(NO_SUCH_NODE, group.into());
            trial.refuse(&self.replay(missing, &list.bytes, room), refusal)?;
            trial.tally.missing_before_list += 1;
        }
        Ok(())
    }

    /// A good list with short and long buffers, now and then of every length.
    fn try_rooms(
        &self,
        trial: &mut Trial,
        random: &mut Random,
        times: &[Ticks],
    ) -> Result<(), Mismatch> {
        let (list, needed) = (write_times(times), self.given.replay_room());
        let loss = self.some_loss(random);
        let code = trial.compare(&self.replay(loss, &list, some_room(random, needed)))?;
        trial.tally.timed_short += u64::from(number_of(code) == usize::from(SHORT_BUFFER));
        if random.percent(1) && times.len() <= 16 {
            for room in 0..=needed + 13 {
                trial.compare(&self.replay(None, &list, room))?;
                trial.compare(&self.replay(loss, &list, room))?;
            }
        }
        Ok(())
    }

    /// A list cut at every length, and with a tail.
    fn try_every_length(&self, trial: &mut Trial, list: &[u8]) -> Result<(), Mismatch> {
        let list = [list, &[1; 9]].concat();
        let loss = Some(Loss { group: self.given.groups()[0] as u32, moment: 3 });
        for length in 0..=list.len() {
            for loss in [None, loss] {
                trial.compare(&self.replay(loss, &list[..length], self.given.replay_room()))?;
            }
        }
        Ok(())
    }

    fn replay<'a>(&'a self, loss: Option<Loss>, list: &'a [u8], room: usize) -> Call<'a> {
        self.given.replay_times(self.bytes, loss, list, room)
    }

    /// No loss, or as often a group that is there at some moment.
    fn some_loss(&self, random: &mut Random) -> Option<Loss> {
        let group = random.pick(&self.given.groups()) as u32;
        let moment = random.between(0, 20) as u32;
        random.percent(50).then_some(Loss { group, moment })
    }
}

/// All comparisons on given files, as written after a mismatch, the third read as a list.
pub fn list(trial: &mut Trial, job: &[u8], plan: &[u8], times: &[u8]) -> Result<(), Mismatch> {
    let most = plan_bytes(TASKS.1 as usize);
    let lose = |group: u32| Function::ReplayTimes(Some(Loss { group, moment: 3 }), times);
    let whole = Function::ReplayTimes(None, times);
    for room in 0..=most {
        for function in [whole, lose(0), lose(u32::MAX)] {
            trial.compare(&Call { function, job, plan, room })?;
        }
    }
    match read_job(job) {
        Ok(job) => list_losses(trial, &Given::new(job), plan, times),
        Err(_) => Ok(()),
    }
}

/// Every group lost at every moment of interest, if all three read well.
fn list_losses(
    trial: &mut Trial,
    given: &Given,
    bytes: &[u8],
    list: &[u8],
) -> Result<(), Mismatch> {
    let Ok(plan) = read_plan(&given.job, bytes) else {
        return Ok(());
    };
    let Ok(times) = read_times(&given.job, &plan, list) else {
        return Ok(());
    };
    let survival = Survival::with_times(&given.job, &plan, &times);
    let moments = survival.moments().map(|(_, moment)| moment).chain(moments_after(&survival));
    let moments: BTreeSet<u64> = moments.collect();
    let losses = given
        .groups()
        .into_iter()
        .flat_map(|group| moments.iter().map(move |&moment| lost((group, moment))));
    let losses: Vec<Loss> = losses.collect();
    for &loss in &losses {
        trial.compare(&given.replay_times(bytes, Some(loss), list, given.replay_room()))?;
    }
    if trial.compare(&given.judge(bytes))? == 0 {
        let losses = at_every_tick(given, &survival).unwrap_or(losses);
        outlive(trial, given, bytes, Some(list), &survival, &losses)?;
    }
    Ok(())
}
