//! A job, and the calls made on it.

use crate::console::{plan_bytes, replay_bytes, sets_bytes, table_bytes};
use crate::files::{write_job, Job};
use crate::random::Random;
use crate::replay::Loss;
use crate::trial::{Call, Function};

/// A job's value and bytes.
pub struct Given {
    pub job: Job,
    pub bytes: Vec<u8>,
}

impl Given {
    pub fn new(job: Job) -> Given {
        Given { bytes: write_job(&job), job }
    }

    pub fn judge<'a>(&'a self, plan: &'a [u8]) -> Call<'a> {
        Call { function: Function::Judge, job: &self.bytes, plan, room: 0 }
    }

    pub fn plan(&self, room: usize) -> Call<'_> {
        Call { function: Function::Plan, job: &self.bytes, plan: &[], room }
    }

    pub fn replay<'a>(&'a self, plan: &'a [u8], loss: Option<Loss>, room: usize) -> Call<'a> {
        Call { function: Function::Replay(loss), job: &self.bytes, plan, room }
    }

    pub fn replay_times<'a>(
        &'a self,
        plan: &'a [u8],
        loss: Option<Loss>,
        times: &'a [u8],
        room: usize,
    ) -> Call<'a> {
        Call { function: Function::ReplayTimes(loss, times), job: &self.bytes, plan, room }
    }

    pub fn fault_sets<'a>(&'a self, plan: &'a [u8], room: usize) -> Call<'a> {
        Call { function: Function::FaultSets, job: &self.bytes, plan, room }
    }

    pub fn trial<'a>(&'a self, plan: &'a [u8]) -> Call<'a> {
        Call { function: Function::Trial, job: &self.bytes, plan, room: 0 }
    }

    pub fn run_times<'a>(&'a self, log: &'a [u8], room: usize) -> Call<'a> {
        Call { function: Function::RunTimes(log), job: &self.bytes, plan: &[], room }
    }

    pub fn renew_job<'a>(&'a self, log: &'a [u8], room: usize) -> Call<'a> {
        Call { function: Function::RenewJob(log), job: &self.bytes, plan: &[], room }
    }

    pub fn ask<'a>(&'a self, plan: &'a [u8], task: &'a [u8]) -> Call<'a> {
        Call { function: Function::Ask(task), job: &self.bytes, plan, room: 0 }
    }

    /// The rooms are for the job and for the plan.
    pub fn commit<'a>(
        &'a self,
        plan: &'a [u8],
        booking: &'a [u8],
        rooms: (usize, usize),
    ) -> Call<'a> {
        Call { function: Function::Commit(booking, rooms.1), job: &self.bytes, plan, room: rooms.0 }
    }

    pub fn nodes(&self) -> u32 {
        self.job.nodes.len() as u32
    }

    /// The groups that have a node, rising.
    pub fn groups(&self) -> Vec<u64> {
        self.job.groups().into_iter().collect()
    }

    pub fn plan_room(&self) -> usize {
        plan_bytes(self.job.tasks.len())
    }

    pub fn replay_room(&self) -> usize {
        replay_bytes(self.job.tasks.len())
    }

    pub fn sets_room(&self) -> usize {
        sets_bytes(self.job.tasks.len())
    }

    pub fn table_room(&self) -> usize {
        table_bytes(self.job.nodes.len(), self.job.tasks.len())
    }
}

/// A buffer length near the one needed, or far too small.
pub fn some_room(random: &mut Random, needed: usize) -> usize {
    let near = (needed + random.below(14)).saturating_sub(5);
    if random.percent(20) {
        random.below(needed)
    } else {
        near
    }
}
