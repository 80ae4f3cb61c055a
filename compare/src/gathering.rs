//! Fault sets in the words of request (v), task by task with all links that arrive at it; and two
//! other orders of work, to count by.

use crate::files::{Job, Link};
use crate::rules::{is_weak, FaultSet, Layout};

/// What the sets of a plan are gathered from. A strong link brings nothing.
pub struct Gathering {
    weak: Vec<Link>,
    /// The sets before any task is gathered: each holds its own primary's group.
    own: Vec<FaultSet>,
}

impl Gathering {
    pub fn new(job: &Job, layout: &Layout) -> Gathering {
        let weak = job.links.iter().filter(|link| is_weak(layout, link));
        let own = layout.primaries.iter().map(|primary| FaultSet::from([primary.group]));
        Gathering { weak: weak.copied().collect(), own: own.collect() }
    }

    /// The request's sentence, with the sets of the rules given: once a task is gathered, its set
    /// and those before it are these, and each later one holds its own primary's group alone.
    pub fn keeps_to(&self, sets: &[FaultSet]) -> bool {
        let mut states = self.states(|link| link.to);
        states.all(|(task, state)| {
            let (gathered, later) = state.split_at(task + 1);
            gathered == &sets[..=task] && later == &self.own[task + 1..]
        })
    }

    /// Whether a state between tasks is another one by sending task, as the links are listed.
    pub fn differs_by_sender(&self) -> bool {
        self.states(|link| link.to).ne(self.states(|link| link.from))
    }

    /// The sets if the last link is followed first. A sender's set has then only its own group.
    pub fn in_reverse(&self) -> Vec<FaultSet> {
        let mut sets = self.own.clone();
        self.weak.iter().rev().for_each(|link| follow(&mut sets, link));
        sets
    }

    /// Each task with the sets after its turn, in which its links are followed.
    fn states<'a>(
        &'a self,
        turn: impl Fn(&Link) -> usize + 'a,
    ) -> impl Iterator<Item = (usize, Vec<FaultSet>)> + 'a {
        let mut sets = self.own.clone();
        (0..self.own.len()).map(move |task| {
            let links = self.weak.iter().filter(|link| turn(link) == task);
            links.for_each(|link| follow(&mut sets, link));
            (task, sets.clone())
        })
    }
}

/// What stops the sender stops the receiver.
fn follow(sets: &mut [FaultSet], link: &Link) {
    let brought = sets[link.from].clone();
    sets[link.to].extend(brought);
}

#[cfg(test)]
mod tests {
    use super::*;
    use crate::rules::layout;
    use crate::samples::plan_of;
    use crate::set_samples::{chain, CHAINED};

    /// Tasks 0 to 1 to 2 over weak links, with primaries on nodes 0, 1 and 2.
    fn chained() -> Gathering {
        Gathering::new(&chain(), &layout(&chain(), &plan_of(CHAINED)))
    }

    fn states_of(gathering: &Gathering, turn: fn(&Link) -> usize) -> Vec<[Vec<u64>; 3]> {
        let listed =
            |sets: Vec<FaultSet>| [0, 1, 2].map(|task| sets[task].iter().copied().collect());
        gathering.states(turn).map(|(_, sets)| listed(sets)).collect()
    }

    #[test]
    fn a_chain_by_receiver_and_by_sender() {
        let last = [vec![0], vec![0, 1], vec![0, 1, 2]];
        let by_receiver =
            [[vec![0], vec![1], vec![2]], [vec![0], vec![0, 1], vec![2]], last.clone()];
        assert_eq!(states_of(&chained(), |link| link.to), by_receiver);
        let by_sender = [[vec![0], vec![0, 1], vec![2]], last.clone(), last];
        assert_eq!(states_of(&chained(), |link| link.from), by_sender);
        assert!(chained().differs_by_sender());
    }

    #[test]
    fn a_chain_in_reverse() {
        let expected = [vec![0], vec![0, 1], vec![1, 2]];
        assert_eq!(chained().in_reverse(), expected.map(FaultSet::from_iter));
    }

    #[test]
    fn the_sentence_is_no_empty_one() {
        let whole = [vec![0], vec![0, 1], vec![0, 1, 2]].map(FaultSet::from_iter);
        assert!(chained().keeps_to(&whole));
        assert!(!chained().keeps_to(&chained().in_reverse()));
        assert!(!chained().keeps_to(&chained().own));
    }
}
