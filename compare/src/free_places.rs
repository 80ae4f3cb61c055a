//! Free places read from the order of time (request (vii)), and wrong ways to look for them. No
//! answer rests on them: they are there to count where each would place a copy otherwise.

use std::collections::BTreeSet;

use crate::files::{Job, Plan, Row};
use crate::order_of_time::{with_copies_lost, Kept, Lane};
use crate::planner::Draft;
use crate::rules::{arrival, copy, Copy};
use crate::tally::Tally;

/// The earliest start from a moment on, for so many ticks, beside copies that are in the way.
type Search = fn(lane: &Lane, from: u64, run: u64) -> u64;

/// A way to look for places. One that loses copies keeps one of those that start at once.
struct Way {
    search: Search,
    loses: bool,
}

const WRONG: [Way; 4] = [
    Way { search: behind_last, loses: false },
    Way { search: stopped_early, loses: false },
    Way { search: between_neighbours, loses: false },
    Way { search: first_gap, loses: true },
];

/// The right search. A copy that starts once the candidate has finished is no matter, nor are those
/// behind it; what was passed lies before the candidate and stays there.
fn first_gap(lane: &Lane, from: u64, run: u64) -> u64 {
    let mut start = from;
    for kept in lane.iter() {
        if kept.start >= start + run {
            break;
        }
        start = start.max(kept.finish);
    }
    start
}

/// Only the place behind the last copy is tried.
fn behind_last(lane: &Lane, from: u64, _run: u64) -> u64 {
    lane.iter().map(|kept| kept.finish).fold(from, u64::max)
}

/// It ends at a copy that starts behind the candidate's start, though maybe before its finish.
fn stopped_early(lane: &Lane, from: u64, _run: u64) -> u64 {
    first_gap(lane, from, 1)
}

/// Of the copies before a gap only the last counts, though an earlier one may last longer.
fn between_neighbours(lane: &Lane, from: u64, run: u64) -> u64 {
    let mut start = from;
    for kept in lane.iter() {
        if kept.start >= start + run {
            break;
        }
        start = from.max(kept.finish);
    }
    start
}

/// Counts the wrong ways that would not have planned the job as the planner did: along its plan,
/// each has another place for some copy.
pub fn count_planned(tally: &mut Tally, job: &Job, plan: &Plan) {
    let mut timetable = Timetable::new(job);
    plan.rows.iter().for_each(|row| timetable.place_next(row));
    let [behind_last, stopped_early, by_neighbours, with_lost] = timetable.otherwise;
    tally.planned_into_gap += u64::from(timetable.into_gap);
    tally.planned_behind += u64::from(behind_last);
    tally.planned_stopped += u64::from(stopped_early);
    tally.planned_by_neighbours += u64::from(by_neighbours);
    tally.planned_with_lost += u64::from(with_lost);
}

/// A plan in the making with the lane of each node.
struct Timetable<'a> {
    draft: Draft<'a>,
    lanes: Vec<Lane>,
    /// Whether some copy went before one that its node had already.
    into_gap: bool,
    /// Which of the wrong ways would have placed some copy otherwise.
    otherwise: [bool; WRONG.len()],
}

impl<'a> Timetable<'a> {
    fn new(job: &'a Job) -> Timetable<'a> {
        let (draft, lanes) = (Draft::new(job), vec![Lane::new(); job.nodes.len()]);
        Timetable { draft, lanes, into_gap: false, otherwise: [false; WRONG.len()] }
    }

    /// Places both copies of the next task.
    fn place_next(&mut self, row: &Row) {
        let primary = copy(self.draft.job, self.draft.task(), row.primary);
        self.note(&primary, Timetable::primary_by);
        self.place_primary(primary);
        let backup = copy(self.draft.job, self.draft.task(), row.backup);
        self.note(&backup, Timetable::backup_by);
        self.place_backup(backup);
    }

    fn place_primary(&mut self, primary: Copy) {
        self.keep(primary.node, Kept::new(self.draft.task(), false, &primary));
        self.draft.place_primary(primary);
    }

    fn place_backup(&mut self, backup: Copy) {
        self.keep(backup.node, Kept::new(self.draft.task(), true, &backup));
        self.draft.place_backup(backup);
    }

    fn keep(&mut self, node: usize, kept: Kept) {
        let lane = &mut self.lanes[node];
        let at = lane.partition_point(|other| *other < kept);
        self.into_gap |= at < lane.len();
        lane.insert(at, kept);
    }

    /// Notes which of the wrong ways would not have placed this copy where it is.
    fn note(&mut self, right: &Copy, place: fn(&Self, &Way) -> Option<Copy>) {
        for (at, way) in WRONG.iter().enumerate() {
            self.otherwise[at] = self.otherwise[at] || place(self, way).as_ref() != Some(right);
        }
    }

    fn primary_by(&self, way: &Way) -> Option<Copy> {
        self.earliest_by(way, |node| self.primary_from(node), |_| true, |_| true)
    }

    fn backup_by(&self, way: &Way) -> Option<Copy> {
        let sets = &self.draft.fault_sets;
        let own = &sets[self.draft.task()];
        let bars = |kept: &Kept| !kept.is_backup || !sets[kept.task].is_disjoint(own);
        let apart = |copy: &Copy| !own.contains(&copy.group);
        self.earliest_by(way, |node| self.backup_from(node), bars, apart)
    }

    /// The next copy's place, given from when on it may start on a node, which copies there are in
    /// its way, and what else it has to keep.
    fn earliest_by(
        &self,
        way: &Way,
        from: impl Fn(usize) -> u64,
        bars: impl Fn(&Kept) -> bool,
        keeps: impl Fn(&Copy) -> bool,
    ) -> Option<Copy> {
        let next = &self.draft.job.tasks[self.draft.task()];
        let start = |node: usize| {
            let lane = &self.lanes[node];
            let mut lane = if way.loses { with_copies_lost(lane) } else { lane.clone() };
            lane.retain(|kept| bars(kept));
            BTreeSet::from([(way.search)(&lane, from(node), next.run[node])])
        };
        self.draft.earliest(start, |copy| copy.finish <= next.deadline && keeps(copy))
    }

    /// The ready time and rule D.
    fn primary_from(&self, node: usize) -> u64 {
        let (job, placed, task) = (self.draft.job, &self.draft.layout, self.draft.task());
        let inputs = job.links_into(task);
        let there = inputs.map(|link| arrival(link, &placed.primaries[link.from], node));
        there.fold(job.tasks[task].ready, u64::max)
    }

    /// Rules B and E.
    fn backup_from(&self, node: usize) -> u64 {
        let (job, placed, task) = (self.draft.job, &self.draft.layout, self.draft.task());
        let (sets, primary) = (&self.draft.fault_sets, &placed.primaries[task]);
        let detected = primary.finish + job.nodes[primary.node].detect;
        job.links_into(task).fold(detected, |from, link| {
            let of_primary = arrival(link, &placed.primaries[link.from], node);
            let waits = !sets[link.from].is_disjoint(&sets[task]);
            let of_backup = arrival(link, &placed.backups[link.from], node);
            from.max(of_primary).max(if waits { of_backup } else { 0 })
        })
    }
}

#[cfg(test)]
mod tests {
    use super::*;
    use crate::crowded::crowded_job;
    use crate::jobs::random_job;
    use crate::order_samples::{beside_shared, BESIDE_SHARED};
    use crate::planner;
    use crate::random::Random;
    use crate::samples::plan_of;

    /// The planner by the lanes.
    fn plan_by_lanes(job: &Job) -> Option<Plan> {
        let right = Way { search: first_gap, loses: false };
        let mut timetable = Timetable::new(job);
        for _ in &job.tasks {
            timetable.place_primary(timetable.primary_by(&right)?);
            timetable.place_backup(timetable.backup_by(&right)?);
        }
        Some(timetable.draft.plan())
    }

    #[test]
    fn the_places_found_in_order_of_time_are_the_planners() {
        let random = &mut Random::new(17);
        let mut tally = Tally::default();
        for round in 0..1500 {
            let (nodes, tasks) = (random.between(3, 6) as usize, random.between(3, 12) as usize);
            let crowded = crowded_job(random, nodes, tasks).job;
            let job = if round % 2 == 0 { crowded } else { random_job(random) };
            let plan = planner::plan(&job).ok();
            assert_eq!(plan_by_lanes(&job), plan);
            plan.iter().for_each(|plan| count_planned(&mut tally, &job, plan));
        }
        let rare = [tally.planned_by_neighbours, tally.planned_with_lost];
        assert!(rare.iter().all(|&count| count > 20), "only {rare:?} were planned otherwise");
    }

    #[test]
    fn the_samples_are_planned_otherwise() {
        let planned_by = |job: Job| {
            let mut timetable = Timetable::new(&job);
            plan_of(BESIDE_SHARED).rows.iter().for_each(|row| timetable.place_next(row));
            timetable.otherwise
        };
        assert_eq!(planned_by(beside_shared(6, 3, 3)), [false, true, true, false]);
        assert_eq!(planned_by(beside_shared(3, 6, 3)), [false, true, false, true]);
    }
}
