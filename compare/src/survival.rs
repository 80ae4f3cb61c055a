//! Demand 3 on what replay wrote for a passed plan. It takes nothing from the rules or the replay
//! of this package: only the job, the plan, the ticks that copies take, the loss and the bytes.

use crate::files::{Job, Plan, Row};
use crate::replay::Loss;
use crate::times::{listed_times, Ticks};

/// A planned copy: task, whether it is the backup, and the ticks from its start to its end.
struct Span {
    task: usize,
    is_backup: bool,
    node: usize,
    start: u64,
    finish: u64,
}

pub struct Survival<'a> {
    job: &'a Job,
    pub plan: &'a Plan,
    /// The end of each task's primary and backup, if nothing stops them.
    ends: Vec<[u64; 2]>,
    /// All copies by node, then start.
    spans: Vec<Span>,
}

const NOT_STARTED: u64 = 0;
const CUT: u64 = 1;
const FINISHED: u64 = 2;

/// What replay wrote for one task.
#[derive(Clone, Copy)]
struct Written {
    primary: u64,
    backup: u64,
    finish: u64,
}

fn written(rows: &[u8], task: usize) -> Written {
    let number = |at: usize| {
        let four = &rows[12 * task + at..12 * task + at + 4];
        u64::from(u32::from_le_bytes([four[0], four[1], four[2], four[3]]))
    };
    Written { primary: number(0), backup: number(4), finish: number(8) }
}

impl<'a> Survival<'a> {
    /// Every copy takes the time that is listed for it.
    pub fn new(job: &'a Job, plan: &'a Plan) -> Survival<'a> {
        Survival::with_times(job, plan, &listed_times(job, plan))
    }

    pub fn with_times(job: &'a Job, plan: &'a Plan, times: &[Ticks]) -> Survival<'a> {
        let rows = plan.rows.iter().zip(times);
        let end = |(row, ticks): (&Row, &Ticks)| {
            [row.primary.start + ticks.primary, row.backup.start + ticks.backup]
        };
        let ends: Vec<[u64; 2]> = rows.map(end).collect();
        let mut spans = Vec::new();
        for (task, row) in plan.rows.iter().enumerate() {
            let copies = [(false, row.primary), (true, row.backup)];
            for ((is_backup, place), finish) in copies.into_iter().zip(ends[task]) {
                spans.push(Span { task, is_backup, node: place.node, start: place.start, finish });
            }
        }
        spans.sort_by_key(|span| (span.node, span.start));
        Survival { job, plan, ends, spans }
    }

    /// The latest finish of all copies.
    pub fn end(&self) -> u64 {
        self.spans.iter().map(|span| span.finish).max().unwrap_or(0)
    }

    /// The moments worth a trial for each group: every start and finish on its nodes and the tick
    /// before.
    pub fn moments(&self) -> impl Iterator<Item = (u64, u64)> + '_ {
        self.spans.iter().flat_map(|span| {
            let moments = [span.start.saturating_sub(1), span.start, span.finish - 1, span.finish];
            moments.map(|moment| (self.job.nodes[span.node].group, moment))
        })
    }

    /// The last moments for each group at which its loss does what it does: a tick later one copy
    /// more has started there, or has ended. They stand for all up to the end.
    pub fn last_moments(&self) -> impl Iterator<Item = (u64, u64)> + '_ {
        self.spans.iter().flat_map(|span| {
            [span.start, span.finish - 1].map(|moment| (self.job.nodes[span.node].group, moment))
        })
    }

    /// What is wrong with the rows written for a loss, if anything is.
    pub fn fault(&self, loss: Option<Loss>, rows: &[u8]) -> Option<String> {
        let fault = self.unfinished(rows).or_else(|| self.doubly_held(loss, rows));
        fault.or_else(|| self.unfed(rows)).or_else(|| self.too_soon(rows))
    }

    /// Exactly one copy of each task is finished, at its end, from 1 to the deadline.
    fn unfinished(&self, rows: &[u8]) -> Option<String> {
        let sound = |task: usize| {
            let row = written(rows, task);
            row.primary <= FINISHED
                && row.backup <= FINISHED
                && (row.primary == FINISHED) != (row.backup == FINISHED)
                && row.finish == self.ends[task][usize::from(row.backup == FINISHED)]
                && (1..=self.job.tasks[task].deadline).contains(&row.finish)
        };
        let task = (0..self.job.tasks.len()).find(|&task| !sound(task))?;
        Some(format!("task {task} has no copy, or two, finished by its deadline"))
    }

    /// No tick of a node is held by two started copies. Along the spans by node and start, a copy
    /// shares a tick with an earlier one just if it starts before the latest of their ends.
    fn doubly_held(&self, loss: Option<Loss>, rows: &[u8]) -> Option<String> {
        let mut free = (0, 0);
        for span in &self.spans {
            let row = written(rows, span.task);
            let state = if span.is_backup { row.backup } else { row.primary };
            let end = match (state, loss) {
                (FINISHED, _) => span.finish,
                (CUT, Some(loss)) => u64::from(loss.moment),
                (CUT, None) => return Some(format!("task {} is cut with no loss", span.task)),
                _ => continue,
            };
            if span.node == free.0 && span.start < free.1 {
                return Some(format!("a copy of task {} starts on a held node", span.task));
            }
            free = (span.node, if span.node == free.0 { end.max(free.1) } else { end });
        }
        None
    }

    /// A backup is called on if its primary did not finish; then it lacks no input.
    fn unfed(&self, rows: &[u8]) -> Option<String> {
        for link in &self.job.links {
            if written(rows, link.to).primary == FINISHED {
                continue;
            }
            let (sender, receiver) = (written(rows, link.from), self.plan.rows[link.to].backup);
            let places = self.plan.rows[link.from];
            let there = [(sender.primary, places.primary), (sender.backup, places.backup)];
            let fed =
                there.into_iter().zip(self.ends[link.from]).any(|((state, place), finish)| {
                    let sent = finish + self.job.nodes[place.node].send + link.delay;
                    let there = if place.node == receiver.node { finish } else { sent };
                    state == FINISHED && there <= receiver.start
                });
            if !fed {
                return Some(format!("the backup of task {} lacks task {}", link.to, link.from));
            }
        }
        None
    }

    /// No primary started before its task was ready.
    fn too_soon(&self, rows: &[u8]) -> Option<String> {
        let started = |task: usize| written(rows, task).primary != NOT_STARTED;
        let waits = |task: usize| self.plan.rows[task].primary.start < self.job.tasks[task].ready;
        let task = (0..self.job.tasks.len()).find(|&task| started(task) && waits(task))?;
        Some(format!("the primary of task {task} started before it was ready"))
    }
}

#[cfg(test)]
mod tests {
    use super::*;
    use crate::console::{replay_bytes, SECOND};
    use crate::files::{write_job, write_plan};
    use crate::samples::{
        job, plan_of, with_groups, with_ready, with_send, without_link, Listed, SAMPLE_1,
    };

    fn fault_of(job: &Job, plan: &Plan, loss: Option<Loss>) -> Option<String> {
        let mut rows = vec![0; replay_bytes(job.tasks.len())];
        assert_eq!((SECOND.replay)(&write_job(job), &write_plan(plan), loss, &mut rows), 0);
        Survival::new(job, plan).fault(loss, &rows)
    }

    fn lost(group: u32, moment: u32) -> Option<Loss> {
        Some(Loss { group, moment })
    }

    #[test]
    fn a_passed_plan_has_no_fault() {
        let (job, plan) = (job(), plan_of(SAMPLE_1));
        assert_eq!(fault_of(&job, &plan, None), None);
        for node in 0..3 {
            for moment in 0..14 {
                assert_eq!(fault_of(&job, &plan, lost(node, moment)), None);
            }
        }
    }

    #[test]
    fn a_common_loss_is_found() {
        let plan = plan_of([[0, 0, 1, 5], [2, 10, 0, 15]]);
        assert!(fault_of(&job(), &plan, lost(0, 3)).is_some_and(|text| text.contains("no copy")));
    }

    #[test]
    fn a_loss_of_both_nodes_of_a_drawer_is_found() {
        // Each node its own, sample 1 has no fault; here node 1 goes with node 0.
        let (job, plan) = (with_groups([5, 5, 9]), plan_of(SAMPLE_1));
        assert!(fault_of(&job, &plan, lost(5, 3)).is_some_and(|text| text.contains("no copy")));
        assert_eq!(fault_of(&with_groups([5, 6, 9]), &plan, lost(5, 3)), None);
    }

    #[test]
    fn a_group_is_lost_at_the_moments_of_all_its_nodes() {
        let (job, plan) = (with_groups([5, 5, 9]), plan_of([[0, 0, 2, 5], [1, 6, 2, 10]]));
        let survival = Survival::new(&job, &plan);
        let moments = survival.moments().filter(|&(group, _)| group == 5);
        assert_eq!(moments.map(|(_, moment)| moment).collect::<Vec<_>>(), [0, 0, 3, 4, 5, 6, 8, 9]);
    }

    #[test]
    fn a_late_finish_is_found() {
        let mut job = job();
        job.tasks[1].deadline = 11;
        let plan = plan_of(SAMPLE_1);
        assert!(fault_of(&job, &plan, lost(0, 3)).is_some_and(|text| text.contains("deadline")));
    }

    #[test]
    fn an_overlap_is_found() {
        let plan = plan_of([[0, 0, 2, 8], [0, 4, 2, 8]]);
        let fault = fault_of(&without_link(), &plan, lost(0, 3));
        assert!(fault.is_some_and(|text| text.contains("held node")));
    }

    fn fault_in(job: &Job, plan: &Plan, loss: Option<Loss>, rows: [u32; 6]) -> Option<String> {
        let rows: Vec<u8> = rows.into_iter().flat_map(u32::to_le_bytes).collect();
        Survival::new(job, plan).fault(loss, &rows)
    }

    #[test]
    fn a_missing_input_is_found() {
        // The rows say that both backups ran, but the result of the first comes too late.
        let plan = plan_of([[0, 0, 1, 5], [0, 4, 2, 9]]);
        let fault = fault_in(&job(), &plan, lost(0, 3), [1, 2, 9, 0, 2, 12]);
        assert!(fault.is_some_and(|text| text.contains("lacks")));
    }

    #[test]
    fn an_input_sent_too_late_is_found() {
        // The first primary's result is on node 1 at 6, and later by the send time of node 0.
        let fault = |send: [u64; 3]| {
            fault_in(&with_send(send), &plan_of(SAMPLE_1), lost(0, 5), [2, 0, 4, 1, 2, 12])
        };
        assert_eq!(fault([3, 1000, 1000]), None);
        assert!(fault([4, 0, 0]).is_some_and(|text| text.contains("lacks")));
    }

    #[test]
    fn a_start_before_the_ready_time_is_found() {
        let plan = plan_of(SAMPLE_1);
        let fault = |ready, rows| fault_in(&with_ready(0, ready), &plan, lost(0, 5), rows);
        let cut = [2, 0, 4, 1, 2, 12];
        assert_eq!(fault(4, cut), None);
        assert!(fault(5, cut).is_some_and(|text| text.contains("before it was ready")));
        // Held back, the primary is not started, and the backup need not wait.
        assert_eq!(fault(20, [2, 0, 4, 0, 2, 12]), None);
    }

    /// The fault of a run with a list: the ticks of both copies of both tasks.
    fn fault_with(rows: [Listed; 2], list: [u64; 4], told: [u32; 6]) -> Option<String> {
        let (job, plan) = (job(), plan_of(rows));
        let ticks = |at: usize| Ticks { primary: list[at], backup: list[at + 1] };
        let told: Vec<u8> = told.into_iter().flat_map(u32::to_le_bytes).collect();
        Survival::with_times(&job, &plan, &[ticks(0), ticks(2)]).fault(lost(0, 3), &told)
    }

    #[test]
    fn a_copy_holds_its_node_until_it_ends() {
        // The second primary starts at 2.
        let rows = [[0, 0, 1, 5], [0, 2, 1, 9]];
        assert_eq!(fault_with(rows, [2, 4, 1, 3], [2, 0, 2, 2, 0, 3]), None);
        let fault = fault_with(rows, [3, 4, 1, 3], [2, 0, 3, 2, 0, 3]);
        assert!(fault.is_some_and(|text| text.contains("held node")));
    }

    #[test]
    fn a_finish_told_as_listed_is_found() {
        assert_eq!(fault_with(SAMPLE_1, [2, 4, 3, 1], [2, 0, 2, 0, 2, 10]), None);
        for told in [[2, 0, 4, 0, 2, 10], [2, 0, 2, 0, 2, 12]] {
            let fault = fault_with(SAMPLE_1, [2, 4, 3, 1], told);
            assert!(fault.is_some_and(|text| text.contains("no copy")));
        }
    }

    #[test]
    fn an_input_leaves_when_its_copy_ends() {
        // The first backup's result is on node 2 two ticks after its end, at 9 if it takes 2.
        let rows = [[0, 0, 1, 5], [0, 4, 2, 9]];
        assert_eq!(fault_with(rows, [4, 2, 3, 3], [1, 2, 7, 0, 2, 12]), None);
        let fault = fault_with(rows, [4, 3, 3, 3], [1, 2, 8, 0, 2, 12]);
        assert!(fault.is_some_and(|text| text.contains("lacks")));
    }

    #[test]
    fn a_group_is_lost_at_the_moments_of_early_ends() {
        let (job, plan) = (job(), plan_of(SAMPLE_1));
        let times = [Ticks { primary: 2, backup: 4 }, Ticks { primary: 1, backup: 3 }];
        let survival = Survival::with_times(&job, &plan, &times);
        let moments = survival.moments().filter(|&(group, _)| group == 0);
        assert_eq!(moments.map(|(_, moment)| moment).collect::<Vec<_>>(), [0, 0, 1, 2, 3, 4, 4, 5]);
        let last = survival.last_moments().filter(|&(group, _)| group == 0);
        assert_eq!(last.map(|(_, moment)| moment).collect::<Vec<_>>(), [0, 1, 4, 4]);
        assert_eq!(survival.end(), 12);
    }
}
