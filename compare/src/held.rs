//! A passed pair as it is held between calls; ask and commit on it, and what has to hold of them.

use crate::asking::{self, longer_job, longer_plan};
use crate::bookings::{write_booking, write_description, NewTask};
use crate::earlier::{keeps_rule_e_of_01, without_drawers, without_send_times};
use crate::files::{read_job, read_plan, write_plan, Job, Place, Plan, Row};
use crate::given::Given;
use crate::losses::try_survival;
use crate::order_of_time::goes_before;
use crate::random::Random;
use crate::refusal::{describe, Refusal, NO_BACKUP, NO_PRIMARY, STALE};
use crate::rules::{layout, sharing_backups};
use crate::survival::Survival;
use crate::trial::{Call, Mismatch, Trial};

pub struct Held {
    pub given: Given,
    pub plan: Plan,
    pub plan_bytes: Vec<u8>,
    /// Whether the plan is the planner's own.
    pub planned: bool,
    /// Whether a commit made it.
    is_longer: bool,
}

impl Held {
    /// A pair that passes.
    pub fn new(trial: &mut Trial, job: Job, plan: Plan, planned: bool) -> Result<Held, Mismatch> {
        let (given, plan_bytes) = (Given::new(job), write_plan(&plan));
        let held = Held { given, plan, plan_bytes, planned, is_longer: false };
        let call = held.given.judge(&held.plan_bytes);
        let code = trial.compare(&call)?;
        if code != 0 {
            let text = format!("answered {} to what is held", describe(code));
            return Err(Mismatch::new(&call, text));
        }
        trial.compare(&held.given.fault_sets(&held.plan_bytes, held.given.sets_room()))?;
        Ok(held)
    }

    pub fn job(&self) -> &Job {
        &self.given.job
    }

    pub fn tasks(&self) -> usize {
        self.given.job.tasks.len()
    }

    /// The lengths of the longer job and the longer plan.
    pub fn rooms(&self, new: &NewTask) -> (usize, usize) {
        let description = write_description(self.job().version, new).len();
        // The link count is there already, and a link in a job has a number more.
        let job = self.given.bytes.len() + description - 4 + 4 * new.inputs.len();
        (job, self.plan_bytes.len() + 16)
    }

    /// Ask, with the description in bytes, good or not.
    pub fn ask(&self, trial: &mut Trial, task: &[u8]) -> Result<u64, Mismatch> {
        counted(trial, &self.given.ask(&self.plan_bytes, task))
    }

    /// Commit, with the booking in bytes, good or not.
    pub fn commit(
        &self,
        trial: &mut Trial,
        booking: &[u8],
        rooms: (usize, usize),
    ) -> Result<u64, Mismatch> {
        counted(trial, &self.given.commit(&self.plan_bytes, booking, rooms))
    }

    /// The places of a new task, if there are any. If the plan is the planner's own, the planner
    /// has none for the longer job where there are none.
    pub fn places(&self, trial: &mut Trial, new: &NewTask) -> Result<Option<Row>, Mismatch> {
        let task = write_description(self.job().version, new);
        let code = self.ask(trial, &task)?;
        if code == 0 {
            let [node, start, backup_node, backup_start] = trial.written_places();
            let place = |node: u32, start: u32| Place { node: node as usize, start: start.into() };
            let (primary, backup) = (place(node, start), place(backup_node, backup_start));
            let row = Row { primary, backup };
            let into_gap = self.is_longer && goes_before(self.job(), &self.plan, &row);
            trial.tally.asked_into_gap += u64::from(into_gap);
            return Ok(Some(row));
        }
        let unplaced = [NO_PRIMARY, NO_BACKUP].map(|number| Refusal::of_task(number, self.tasks()));
        if self.planned && unplaced.map(Refusal::code).contains(&code) {
            let longer = Given::new(longer_job(self.job(), new).expect("full would come first"));
            if trial.compare(&longer.plan(longer.plan_room()))? != code {
                let call = self.given.ask(&self.plan_bytes, &task);
                return Err(Mismatch::new(&call, "refused otherwise than the planner".into()));
            }
            trial.tally.unplaced_as_planned += 1;
        }
        Ok(None)
    }

    /// Commits the places that the task would have with all send times 0, and with each node its
    /// own group, if they are others.
    pub fn try_hasty(&self, trial: &mut Trial, new: &NewTask, row: Row) -> Result<(), Mismatch> {
        let (sent_at_once, apart) = (without_send_times(self.job()), without_drawers(self.job()));
        trial.tally.asked_by_send += self.try_earlier(trial, new, row, sent_at_once)?;
        trial.tally.asked_by_group += self.try_earlier(trial, new, row, apart)?;
        Ok(())
    }

    /// Commits the places that the task would have in the job as it was, if they are others.
    /// Answers how many were tried.
    fn try_earlier(
        &self,
        trial: &mut Trial,
        new: &NewTask,
        row: Row,
        earlier: Option<Job>,
    ) -> Result<u64, Mismatch> {
        let hasty = earlier.and_then(|job| asking::ask(&job, &self.plan, new).ok());
        let Some(hasty) = hasty.filter(|&hasty| hasty != row) else {
            return Ok(0);
        };
        self.book(trial, new, hasty)?;
        Ok(1)
    }

    /// Commits with room for all. What is answered is the longer pair, if it was booked: just if
    /// the judge passes it.
    pub fn book(
        &self,
        trial: &mut Trial,
        new: &NewTask,
        row: Row,
    ) -> Result<Option<Held>, Mismatch> {
        let booking = write_booking(self.job().version, new, &row);
        let call = self.given.commit(&self.plan_bytes, &booking, self.rooms(new));
        let code = counted(trial, &call)?;
        if code == 0 {
            let job = read_job(trial.written()).expect("a longer job reads well");
            let plan = read_plan(&job, trial.written_plan()).expect("and so does its plan");
            let longer = Held::new(trial, job, plan, false)?;
            return Ok(Some(Held { is_longer: true, ..longer }));
        }
        assert_eq!(code, Refusal::of_task(STALE, self.tasks()).code(), "there is room for all");
        let longer = Given::new(longer_job(self.job(), new).expect("full would come first"));
        let plan = write_plan(&longer_plan(&self.plan, row));
        if trial.compare(&longer.judge(&plan))? == 0 {
            return Err(Mismatch::new(&call, "stale, but the judge passes it".into()));
        }
        Ok(None)
    }

    /// Books an asked place with no commit between, which is always possible.
    pub fn book_at_once(
        &self,
        trial: &mut Trial,
        new: &NewTask,
        row: Row,
    ) -> Result<Held, Mismatch> {
        let Some(longer) = self.book(trial, new, row)? else {
            let booking = write_booking(self.job().version, new, &row);
            let call = self.given.commit(&self.plan_bytes, &booking, self.rooms(new));
            return Err(Mismatch::new(&call, "an asked place was not booked".into()));
        };
        trial.tally.booked_at_once += 1;
        trial.tally.booked_version_1 += u64::from(self.job().version == 1);
        trial.tally.booked_with_ready += u64::from(new.task.ready > 0);
        let waits = keeps_rule_e_of_01(self.job(), &self.plan);
        let waits_still = keeps_rule_e_of_01(longer.job(), &longer.plan);
        trial.tally.booked_newly += u64::from(waits && !waits_still);
        trial.tally.booked_sharing += u64::from(shares(longer.job(), &longer.plan));
        Ok(longer)
    }

    /// After an asked place was booked beside the planner's own plan: it is the planner's again.
    pub fn check_planned(&mut self, trial: &mut Trial) -> Result<(), Mismatch> {
        let call = self.given.plan(self.given.plan_room());
        if trial.compare(&call)? != 0 || trial.written() != self.plan_bytes {
            return Err(Mismatch::new(&call, "planned otherwise than asked and booked".into()));
        }
        trial.tally.booked_as_planned += 1;
        self.planned = true;
        Ok(())
    }

    /// Demand 3 on what is held.
    pub fn outlives(&self, trial: &mut Trial, random: &mut Random) -> Result<(), Mismatch> {
        let survival = Survival::new(self.job(), &self.plan);
        try_survival(trial, random, &self.given, &self.plan_bytes, &survival)?;
        trial.tally.sequences_survived += 1;
        Ok(())
    }
}

/// Whether the last backup shares ticks of its node with another.
fn shares(job: &Job, plan: &Plan) -> bool {
    let last = plan.rows.len() - 1;
    sharing_backups(&layout(job, plan)).any(|(_, higher)| higher == last)
}

/// Compares a call of ask or commit on a pair that passes.
fn counted(trial: &mut Trial, call: &Call) -> Result<u64, Mismatch> {
    let code = trial.compare(call)?;
    trial.tally.count_held(call.function, code);
    Ok(code)
}
