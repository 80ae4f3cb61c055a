//! Request (vii): the copies of each node in order of time, and wrong ways to find overlaps in it.
//! No answer rests on them: they are there to count where each would answer otherwise.

use crate::files::{Job, Plan, Row};
use crate::refusal::{number_of, OVERLAP};
use crate::rules::{layout, Copy, FaultSet, Layout};
use crate::tally::Tally;

/// A copy among those of its node. Its fields stand in the order by which copies are kept: by
/// start, then task, primary before backup.
#[derive(Clone, Copy, Debug, PartialEq, Eq, PartialOrd, Ord)]
pub struct Kept {
    pub start: u64,
    pub task: usize,
    pub is_backup: bool,
    pub finish: u64,
}

/// The copies of one node in order of time.
pub type Lane = Vec<Kept>;

impl Kept {
    pub fn new(task: usize, is_backup: bool, copy: &Copy) -> Kept {
        Kept { start: copy.start, task, is_backup, finish: copy.finish }
    }
}

/// The lane of each node.
pub fn lanes(nodes: usize, placed: &Layout) -> Vec<Lane> {
    let mut lanes = vec![Lane::new(); nodes];
    for (is_backup, copies) in [(false, &placed.primaries), (true, &placed.backups)] {
        for (task, copy) in copies.iter().enumerate() {
            lanes[copy.node].push(Kept::new(task, is_backup, copy));
        }
    }
    lanes.iter_mut().for_each(|lane| lane.sort());
    lanes
}

/// A wrong turn: of copies with one start only the first is kept.
pub fn with_copies_lost(lane: &Lane) -> Lane {
    let mut lane = lane.clone();
    lane.dedup_by_key(|kept| kept.start);
    lane
}

/// Whether a copy of a new task goes before one that its node has. At one start it goes behind: its
/// number is the highest.
pub fn goes_before(job: &Job, plan: &Plan, row: &Row) -> bool {
    let lanes = lanes(job.nodes.len(), &layout(job, plan));
    let last = |node: usize| lanes[node].last().map(|kept| kept.start);
    [row.primary, row.backup].iter().any(|place| Some(place.start) < last(place.node))
}

/// Two tasks with copies that may not overlap but do, the lower one first.
type Clash = (usize, usize);

/// What a plan has on its nodes, and which backups may share time.
struct Judged<'a> {
    lanes: Vec<Lane>,
    sets: &'a [FaultSet],
}

/// Counts starts that are equal in a plan that reads well, and the wrong ways that would not answer
/// as the judge did. They only miss overlaps, so that they pass what is passed.
pub fn count_judged(
    tally: &mut Tally,
    nodes: usize,
    placed: &Layout,
    sets: &[FaultSet],
    judged: u64,
) {
    let judge = Judged { lanes: lanes(nodes, placed), sets };
    let unlike = judge.begins_at_once(|one, other| one.is_backup != other.is_backup);
    let backups = || judge.begins_at_once(|one, other| one.is_backup && other.is_backup);
    tally.begun_unlike += u64::from(unlike);
    tally.begun_alike += u64::from(judged == 0 && backups());
    if number_of(judged) != usize::from(OVERLAP) {
        return;
    }
    let right = judge.first();
    tally.passed_by_neighbours += u64::from(judge.first_of_neighbours().is_none());
    tally.named_by_time += u64::from(judge.first_in_time() != right);
    tally.named_by_finish += u64::from(judge.first_by_finish() != right);
    tally.named_with_lost += u64::from(judge.with_copies_lost().first() != right);
}

impl Judged<'_> {
    /// The first pair of tasks that rule G refuses, found in order of time.
    fn first(&self) -> Option<Clash> {
        self.lanes.iter().flat_map(|lane| self.clashes(lane)).min()
    }

    /// The clashes of a lane in order of time. Those behind a copy are looked at as long as they
    /// start before its finish.
    fn clashes<'a>(&'a self, lane: &'a Lane) -> impl Iterator<Item = Clash> + 'a {
        (0..lane.len()).flat_map(move |at| {
            let (copy, behind) = (&lane[at], &lane[at + 1..]);
            let met = behind.iter().take_while(|later| later.start < copy.finish);
            met.filter_map(move |later| self.clash(copy, later))
        })
    }

    /// Two copies of a lane, the first one first.
    fn clash(&self, copy: &Kept, later: &Kept) -> Option<Clash> {
        let apart = || self.sets[copy.task].is_disjoint(&self.sets[later.task]);
        let shared = copy.is_backup && later.is_backup && apart();
        let clash = (copy.task.min(later.task), copy.task.max(later.task));
        (later.start < copy.finish && !shared).then_some(clash)
    }

    /// Each copy compared with the next one only.
    fn first_of_neighbours(&self) -> Option<Clash> {
        let neighbours = self.lanes.iter().flat_map(|lane| lane.windows(2));
        neighbours.filter_map(|two| self.clash(&two[0], &two[1])).min()
    }

    /// The first clash that is met, node by node, taken for the first by tasks.
    fn first_in_time(&self) -> Option<Clash> {
        self.lanes.iter().find_map(|lane| self.clashes(lane).next())
    }

    /// Each copy compared with those before it back to the first that has finished, as if finishes
    /// rose with starts. Those of backups that share time need not.
    fn first_by_finish(&self) -> Option<Clash> {
        let before = |lane: &Lane, at: usize| {
            let held = lane[..at].iter().rev().take_while(|copy| copy.finish > lane[at].start);
            held.filter_map(|copy| self.clash(copy, &lane[at])).min()
        };
        let in_lane = |lane: &Lane| (0..lane.len()).filter_map(|at| before(lane, at)).min();
        self.lanes.iter().filter_map(in_lane).min()
    }

    fn with_copies_lost(&self) -> Judged<'_> {
        Judged { lanes: self.lanes.iter().map(with_copies_lost).collect(), sets: self.sets }
    }

    /// Whether two such copies with one start are neighbours on a node.
    fn begins_at_once(&self, are: impl Fn(&Kept, &Kept) -> bool) -> bool {
        let mut neighbours = self.lanes.iter().flat_map(|lane| lane.windows(2));
        neighbours.any(|two| two[0].start == two[1].start && are(&two[0], &two[1]))
    }
}

#[cfg(test)]
mod tests {
    use super::*;
    use crate::crowded::{crowded_job, on_one_node, with_meetings};
    use crate::fault_sets::fault_sets;
    use crate::order_samples::{alike, long_and_short, nested, BEGUN_AT_ONCE};
    use crate::plans::passing_plan_on;
    use crate::random::Random;
    use crate::rules::no_overlap;
    use crate::samples::plan_of;

    /// The words of the request, one after the other.
    fn in_order(copy: &Kept, later: &Kept) -> bool {
        let sooner = copy.start < later.start;
        let lower = copy.start == later.start && copy.task < later.task;
        let same = copy.start == later.start && copy.task == later.task;
        sooner || lower || (same && !copy.is_backup && later.is_backup)
    }

    /// Whether the plan places this copy on the node.
    fn is_placed(placed: &Layout, node: usize, kept: &Kept) -> bool {
        let copies = if kept.is_backup { &placed.backups } else { &placed.primaries };
        let copy = copies[kept.task];
        (copy.node, copy.start, copy.finish) == (node, kept.start, kept.finish)
    }

    #[test]
    fn a_lane_has_each_copy_of_its_node_once_and_in_order() {
        let random = &mut Random::new(15);
        for _ in 0..500 {
            let (nodes, tasks) = (random.between(2, 6) as usize, random.between(1, 64) as usize);
            let crowded = crowded_job(random, nodes, tasks);
            let mut plan = on_one_node(random, &crowded.job, crowded.standby[0]);
            if random.percent(50) {
                let moved = plan.rows.iter_mut().filter(|_| random.percent(50));
                moved.for_each(|row| row.backup.node = crowded.standby[1]);
            }
            let placed = layout(&crowded.job, &plan);
            let lanes = lanes(nodes, &placed);
            // In strict order none is there twice; so many that are placed are all there are.
            assert!(lanes.iter().all(|lane| lane.windows(2).all(|two| in_order(&two[0], &two[1]))));
            assert_eq!(lanes.iter().map(Vec::len).sum::<usize>(), 2 * tasks);
            for (node, lane) in lanes.iter().enumerate() {
                assert!(lane.iter().all(|kept| is_placed(&placed, node, kept)));
            }
        }
    }

    /// Plans that keep rule A, with backups that share time and may or not.
    #[test]
    fn the_first_overlap_in_order_of_time_is_that_of_rule_g() {
        let random = &mut Random::new(16);
        let (mut refused, mut missed) = (0, 0);
        for _ in 0..1500 {
            let (nodes, tasks) = (random.between(3, 6) as usize, random.between(3, 12) as usize);
            let crowded = crowded_job(random, nodes, tasks);
            let standby = crowded.standby[0];
            let nodes_for = [&crowded.beside(standby)[..], &[standby]];
            let plan = passing_plan_on(random, &crowded.job, nodes_for).expect("it has a place");
            let plan = with_meetings(random, &crowded.job, &plan);
            let placed = layout(&crowded.job, &plan);
            let sets = fault_sets(&crowded.job, &placed);
            let judge = Judged { lanes: lanes(nodes, &placed), sets: &sets };
            let rule_g = no_overlap(&placed, &sets).err();
            let clash = rule_g.map(|refusal| (refusal.first as usize, refusal.second as usize));
            assert_eq!(judge.first(), clash);
            refused += u64::from(clash.is_some());
            missed += u64::from(judge.first_of_neighbours() != clash);
        }
        assert!(refused > 500 && missed > 50, "{refused} refused, {missed} by neighbours");
    }

    /// What each way refuses first of three tasks: the right one, by neighbours, by finishes that
    /// rise, and with copies lost.
    fn refused_by_each(job: &Job, rows: [[u64; 4]; 3]) -> [Option<Clash>; 4] {
        let placed = layout(job, &plan_of(rows));
        let sets = fault_sets(job, &placed);
        let judge = Judged { lanes: lanes(job.nodes.len(), &placed), sets: &sets };
        let lossy = judge.with_copies_lost().first();
        [judge.first(), judge.first_of_neighbours(), judge.first_by_finish(), lossy]
    }

    #[test]
    fn the_samples_are_refused_otherwise() {
        let (job, missed) = (long_and_short(), Some((0, 2)));
        assert_eq!(refused_by_each(&job, nested(0, 8)), [missed, None, None, missed]);
        assert_eq!(refused_by_each(&job, nested(0, 6)), [missed, None, missed, missed]);
        assert_eq!(refused_by_each(&alike(), BEGUN_AT_ONCE), [missed, None, missed, None]);
    }
}
