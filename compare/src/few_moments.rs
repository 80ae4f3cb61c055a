//! Trials of too few moments, and other wrong readings of request (ix). No answer rests on them: they
//! are there to count where each would answer otherwise.

use crate::every_moment::{says_yes, share, Runs, Span};
use crate::files::{Job, Plan};
use crate::tally::Tally;

/// Counts the wrong readings that would say yes to a plan to which the trial says no.
pub fn count_no(tally: &mut Tally, runs: &Runs, plan: &Plan) {
    let whole = runs.is_good(None);
    if !runs.every_primary_finishes() {
        let unseen = whole && runs.outlives_before(&runs.primaries());
        tally.no_by_primary += u64::from(unseen);
        return;
    }
    if !whole {
        tally.no_by_whole_run += u64::from(runs.outlives_before(&runs.primaries()));
        return;
    }
    tally.no_beside_starts += u64::from(runs.outlives_at(|copy| copy.start));
    tally.no_beside_finishes += u64::from(runs.outlives_at(|copy| copy.finish));
    tally.no_by_later_node += u64::from(runs.outlives_before(&runs.on_first_nodes()));
    tally.no_by_deadline += u64::from(says_yes(&with_longer_deadlines(runs.job), plan));
}

/// Whether a backup ends at its deadline. Where the trial says yes, some loss calls for it: a tick
/// less would be a tick too few.
pub fn ends_at_deadline(runs: &Runs) -> bool {
    let mut ends = runs.copies.iter().zip(&runs.job.tasks);
    ends.any(|([_, backup], task)| backup.finish == task.deadline)
}

/// Whether some primary and some backup share time on a node. A task's own two count.
pub fn shares_time(runs: &Runs) -> bool {
    let primaries = || runs.copies.iter().map(|[primary, _]| primary);
    runs.copies.iter().any(|[_, backup]| primaries().any(|primary| share(primary, backup)))
}

/// Whether a task's own two copies share time on a node.
pub fn own_copies_share(runs: &Runs) -> bool {
    runs.copies.iter().any(|[primary, backup]| share(primary, backup))
}

impl Runs<'_> {
    fn primaries(&self) -> Vec<Span> {
        self.copies.iter().map(|[primary, _]| *primary).collect()
    }

    /// The primaries on the first node of each group.
    fn on_first_nodes(&self) -> Vec<Span> {
        let first = |copy: &Span| {
            let mut groups = self.job.nodes.iter().map(|node| node.group);
            groups.position(|group| group == self.group(copy)) == Some(copy.node)
        };
        self.primaries().into_iter().filter(first).collect()
    }

    /// The groups of some copies are lost, each at the tick before the copy's finish.
    fn outlives_before(&self, copies: &[Span]) -> bool {
        copies.iter().all(|copy| self.outlives(self.group(copy), copy.finish - 1))
    }

    /// Each group is lost at one moment for each of its copies.
    fn outlives_at(&self, moment: impl Fn(&Span) -> u64) -> bool {
        let mut copies = self.copies.as_flattened().iter();
        copies.all(|copy| self.outlives(self.group(copy), moment(copy)))
    }
}

/// A tick beyond their limit, where they are at it.
fn with_longer_deadlines(job: &Job) -> Job {
    let mut job = job.clone();
    job.tasks.iter_mut().for_each(|task| task.deadline += 1);
    job
}

#[cfg(test)]
mod tests {
    use super::*;
    use crate::every_moment::tests::some_pairs;
    use crate::every_moment::Fate;
    use crate::random::Random;
    use crate::replay::Loss;

    /// The finite trial: no loss, and the primaries' moments.
    #[test]
    fn the_moments_of_primaries_suffice() {
        let random = &mut Random::new(33);
        let mut met = [0; 2];
        for _ in 0..1500 {
            for (job, plan) in some_pairs(random) {
                let runs = Runs::new(&job, &plan);
                let yes = runs.every_primary_finishes()
                    && runs.is_good(None)
                    && runs.outlives_before(&runs.primaries());
                assert_eq!(yes, runs.are_all_good());
                met[usize::from(yes)] += 1;
            }
        }
        assert!(met.iter().all(|&met| met > 1000), "{met:?}");
    }

    /// Where every loss is outlived, the run without loss is good too, and by the primaries: one
    /// that does not finish leaves its task to the backup, whose group can be lost.
    #[test]
    fn the_losses_at_every_moment_say_all() {
        let random = &mut Random::new(34);
        let mut outlived = 0;
        for _ in 0..1500 {
            for (job, plan) in some_pairs(random) {
                let runs = Runs::new(&job, &plan);
                if runs.outlives_every_loss() {
                    assert!(runs.every_primary_finishes() && runs.is_good(None));
                    outlived += 1;
                }
            }
        }
        assert!(outlived > 1000, "{outlived}");
    }

    /// Once the run without loss is good, a cut copy decides nothing. A cut backup leaves its task
    /// undone. A cut primary would meet a primary without loss too, and no backup starts on its node
    /// before the loss, as the primary of that one is finished by then.
    #[test]
    fn a_cut_copy_decides_nothing() {
        let random = &mut Random::new(36);
        let mut met = 0;
        for _ in 0..1500 {
            for (job, plan) in some_pairs(random) {
                let runs = Runs::new(&job, &plan);
                if !runs.every_primary_finishes() || !runs.is_good(None) {
                    continue;
                }
                let moment = random.between(0, 40) as u32;
                for group in job.groups() {
                    let loss = Some(Loss { group: group as u32, moment });
                    let fates = runs.run(loss);
                    let unless_cut = |f: Fate| if f == Fate::Cut { Fate::Unstarted } else { f };
                    let done: Vec<_> = fates.iter().map(|both| both.map(unless_cut)).collect();
                    if runs.is_in_time(&fates) {
                        assert_eq!(runs.overlaps(loss, &done), runs.overlaps(loss, &fates));
                        met += usize::from(done != fates);
                    }
                }
            }
        }
        assert!(met > 500, "{met}");
    }

    /// Rule B keeps a backup back that would meet its own primary.
    #[test]
    fn a_tasks_own_copies_never_both_start_where_they_meet() {
        let random = &mut Random::new(35);
        let mut met = 0;
        for _ in 0..1500 {
            for (job, plan) in some_pairs(random) {
                let runs = Runs::new(&job, &plan);
                let moment = random.between(0, 40) as u32;
                let lost = |group: u64| Some(Loss { group: group as u32, moment });
                for loss in job.groups().into_iter().map(lost).chain([None]) {
                    let fates = runs.run(loss);
                    for ([primary, backup], fate) in runs.copies.iter().zip(fates) {
                        assert!(!share(primary, backup) || fate[1] == Fate::Unstarted);
                    }
                }
                met += usize::from(own_copies_share(&runs));
            }
        }
        assert!(met > 20, "{met}");
    }
}
