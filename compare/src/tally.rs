//! How often each outcome was met, so that a run that tries little is seen to do so.

use std::collections::HashSet;
use std::fmt;

use crate::files::NEWEST;
use crate::other_windows::READINGS;
use crate::random_logs::FAULTS as LOG_FAULTS;
use crate::random_sentences::{Damage, DAMAGES, LAST};
use crate::refusal::{number_of, TOO_SOON, WORDS};
use crate::time_lists::FAULTS;
use crate::trial::Function;

/// The columns of results. The last two count again what was asked and committed on a pair that
/// passes, where the fault, if any, is in the description or the booking.
const COLUMNS: [&str; 16] = [
    "judge",
    "plan",
    "replay",
    "replay_loss",
    "ask",
    "commit",
    "fault_sets",
    "replay_times",
    "times_loss",
    "trial",
    "run_times",
    "renew_job",
    "sentence",
    "read_back",
    "held: ask",
    "held: commit",
];
const HELD_ASK: usize = 14;
const HELD_COMMIT: usize = 15;

/// The refusals that ask, commit, fault_sets, replays with a list, trial, run_times, renew_job,
/// sentence and read_sentence can give, and which of the first two on a pair that passes.
const WANTED: [(usize, &[usize]); 12] = [
    (4, &[1, 2, 3, 4, 5, 6, 7, 8, 9, 10, 11, 12, 13, 14, 15, 16, 19, 20]),
    (5, &[1, 2, 3, 4, 5, 6, 7, 8, 9, 10, 11, 12, 13, 14, 17, 19, 20, 21]),
    (6, &[1, 2, 3, 4, 5, 6, 7, 17]),
    (7, &[1, 2, 3, 4, 5, 6, 7, 17]),
    (8, &[1, 2, 3, 4, 5, 6, 7, 17, 18]),
    (9, &[1, 2, 3, 4, 5, 6, 7]),
    (10, &[1, 2, 3, 4, 5, 6, 7, 17]),
    (11, &[1, 2, 3, 4, 5, 6, 7, 17]),
    (12, &[17, 22]),
    (13, &[22]),
    (HELD_ASK, &[1, 3, 4, 5, 6, 15, 16, 20]),
    (HELD_COMMIT, &[1, 3, 4, 5, 6, 7, 17, 20, 21]),
];

#[derive(Default)]
pub struct Tally {
    /// By column and number of the result.
    results: [[u64; WORDS.len()]; COLUMNS.len()],
    // What else was met; `counts` says it in words.
    pub passed: u64,
    pub passed_deep: u64,
    pub passed_large: u64,
    pub every_tick: u64,
    pub survived: u64,
    pub passed_newly: u64,
    pub planned_newly: u64,
    pub passed_version: [u64; NEWEST as usize],
    pub planned_version: [u64; NEWEST as usize],
    pub passed_with_ready: u64,
    pub planned_later: u64,
    pub held_back: u64,
    pub backup_sooner: u64,
    pub later_version: u64,
    pub booked_at_once: u64,
    pub booked_version_1: u64,
    pub booked_with_ready: u64,
    pub booked_newly: u64,
    pub booked_sharing: u64,
    pub booked_as_planned: u64,
    pub unplaced_as_planned: u64,
    pub booked_later: u64,
    pub stale_later: u64,
    pub moved_booked: u64,
    pub moved_stale: u64,
    pub full_of_tasks: u64,
    pub full_of_links: u64,
    pub sequences_survived: u64,
    pub planned_by_send: u64,
    pub refused_by_send: u64,
    pub replayed_by_send: u64,
    pub asked_by_send: u64,
    pub planned_forgetfully: u64,
    pub sets_passed: u64,
    pub sets_refused: u64,
    pub sets_unjudged: u64,
    pub sets_of_two: u64,
    pub sets_of_three: u64,
    pub sets_in_reverse: u64,
    pub sets_by_sender: u64,
    pub sets_by_send: u64,
    pub passed_in_drawers: u64,
    pub shared_in_drawers: u64,
    pub planned_by_group: u64,
    pub one_group_refused: u64,
    pub refused_by_group: u64,
    pub judged_by_group: u64,
    pub rule_a_by_nodes: u64,
    pub rule_e_by_nodes: u64,
    pub rule_f_by_nodes: u64,
    pub rule_g_by_nodes: u64,
    pub overlap_in_drawer: u64,
    pub sent_in_drawer: u64,
    pub fed_without_delay: u64,
    pub cut_on_two: u64,
    pub lost_by_nodes: u64,
    pub missing_below: u64,
    pub lost_beyond: u64,
    pub asked_by_group: u64,
    pub sets_by_group: u64,
    pub passed_by_neighbours: u64,
    pub named_by_time: u64,
    pub named_by_finish: u64,
    pub named_with_lost: u64,
    pub begun_alike: u64,
    pub begun_unlike: u64,
    pub planned_into_gap: u64,
    pub planned_behind: u64,
    pub planned_stopped: u64,
    pub planned_by_neighbours: u64,
    pub planned_with_lost: u64,
    pub asked_into_gap: u64,
    pub one_node: u64,
    pub one_node_full: u64,
    pub two_nodes_passed: u64,
    pub two_nodes_refused: u64,
    /// By kind of list.
    pub timed_lists: [u64; 3],
    pub timed_survived: [u64; 3],
    pub timed_every_tick: u64,
    pub timed_version: [u64; NEWEST as usize],
    pub timed_otherwise: u64,
    pub outlived_otherwise: u64,
    pub timed_sooner: u64,
    pub outlasted_by_end: u64,
    pub fed_by_end: u64,
    pub fed_without_loss: u64,
    pub kept_back: u64,
    pub timed_by_swap: u64,
    /// By kind of fault.
    pub lists_refused: [u64; FAULTS.len()],
    pub lists_before_room: u64,
    pub missing_before_list: u64,
    pub timed_short: u64,
    /// Yes and no: of all plans, of those without sharing, of those refused 14 with it.
    pub tried: [u64; 2],
    pub tried_unshared: [u64; 2],
    pub tried_shared: [u64; 2],
    pub shared_version: [[u64; 2]; NEWEST as usize],
    pub yes_in_drawers: u64,
    pub yes_with_ready: u64,
    pub yes_with_send: u64,
    pub yes_at_deadline: u64,
    pub yes_at_every_tick: u64,
    pub no_beside_starts: u64,
    pub no_beside_finishes: u64,
    pub no_by_whole_run: u64,
    pub no_by_primary: u64,
    pub no_by_later_node: u64,
    pub no_by_deadline: u64,
    pub own_copies: u64,
    /// By length: none, some, 255, 256, 257, more, and 10,000 or more.
    pub logs_of: [u64; 7],
    pub tables_version: [u64; NEWEST as usize],
    pub tables_below: u64,
    pub tables_above: u64,
    pub tables_least: u64,
    pub tables_most: u64,
    /// By wrong reading.
    pub tables_otherwise: [u64; READINGS.len()],
    pub renewed: u64,
    pub renewed_planned: u64,
    pub renewed_otherwise: u64,
    pub steps: u64,
    pub steps_lower: u64,
    pub steps_back: u64,
    /// By kind of fault.
    pub logs_refused: [u64; LOG_FAULTS.len()],
    pub log_faults_first: u64,
    pub log_faults_last: u64,
    pub log_faults_left: u64,
    pub logs_short: u64,
    /// The refusals that calls gave, but for those of sentences; and those not yet told.
    met: HashSet<u64>,
    pub untold: Vec<u64>,
    /// By number, from 1 on: refusals that were drawn, and those that other calls gave.
    pub told: [u64; LAST as usize],
    pub told_met: [u64; LAST as usize],
    /// The second place in the phrase, not said, and said behind it.
    pub told_second: [u64; 3],
    pub told_far: u64,
    pub told_most: u64,
    pub told_longest: u64,
    pub told_short: u64,
    /// Numbers outside the tables, with room for any sentence and with less.
    pub outside: [u64; 2],
    /// By kind of damage: no sentence, and that of another refusal.
    pub texts: [[u64; 2]; DAMAGES.len()],
    pub texts_cut: u64,
}

/// Something counted: how often it was met, in words, and how often a run of the default count has
/// to meet it.
pub struct Count {
    pub met: u64,
    pub words: String,
    pub least: u64,
}

impl Tally {
    pub fn count(&mut self, function: Function, code: u64) {
        let column = match function {
            Function::Judge => 0,
            Function::Plan => 1,
            Function::Replay(None) => 2,
            Function::Replay(Some(_)) => 3,
            Function::Ask(_) => 4,
            Function::Commit(..) => 5,
            Function::FaultSets => 6,
            Function::ReplayTimes(None, _) => 7,
            Function::ReplayTimes(Some(_), _) => 8,
            Function::Trial => 9,
            Function::RunTimes(_) => 10,
            Function::RenewJob(_) => 11,
            Function::Sentence(..) => 12,
            Function::ReadSentence(_) => 13,
        };
        self.results[column][number_of(code)] += 1;
        if column < 12 && number_of(code) > 0 && self.met.insert(code) {
            self.untold.push(code);
        }
    }

    /// Counts a result of ask or commit once more, as one on a pair that passes.
    pub fn count_held(&mut self, function: Function, code: u64) {
        let is_ask = matches!(function, Function::Ask(_));
        self.results[if is_ask { HELD_ASK } else { HELD_COMMIT }][number_of(code)] += 1;
    }

    pub fn met(&self, number: usize) -> u64 {
        self.results.iter().map(|column| column[number]).sum()
    }

    /// What the functions of `WANTED` should have given, in words.
    pub fn not_given(&self) -> impl Iterator<Item = String> + '_ {
        let all =
            WANTED.iter().flat_map(|&(column, numbers)| numbers.iter().map(move |&n| (column, n)));
        let missed = all.filter(|&(column, number)| self.results[column][number] == 0);
        missed.map(|(column, number)| format!("{} never gave {number}", COLUMNS[column]))
    }

    /// What was met beside results, in the order in which it is printed.
    pub fn counts(&self) -> impl Iterator<Item = Count> + '_ {
        let counts = [
            (self.passed, 10_000, "passed plans"),
            (self.passed_deep, 1_000, "passed plans with a path of two weak links or more"),
            (self.passed_large, 0, "passed plans of 32 tasks or more"),
            (self.every_tick, 0, "passed plans with every group lost at every tick"),
            (self.survived, 0, "runs of passed plans held to demand 3"),
            // Request (i).
            (self.passed_newly, 200, "passed plans that rule E of document 01 refused"),
            (self.planned_newly, 100, "planned jobs whose plan rule E of document 01 would move"),
            // Request (ii).
            (self.passed_with_ready, 2_000, "passed plans of jobs with ready times above 0"),
            (self.planned_later, 300, "planned jobs whose plan the ready times moved"),
            (self.results[0][usize::from(TOO_SOON)], 5_000, "plans refused as too soon"),
            (self.held_back, 500, "replays without loss in which a primary was not ready"),
            (self.backup_sooner, 250, "replays without loss with a backup run before ready"),
            (self.later_version, 3_000, "calls with a job of a later version, refused 2 at 0"),
        ];
        let counts = counts.into_iter().chain(self.version_counts());
        let counts = counts.chain(self.sequence_counts()).chain(self.send_counts());
        let counts = counts.chain(self.set_counts()).chain(self.group_counts());
        let counts = counts.chain(self.order_counts()).chain(self.crowd_counts());
        let counts = counts.chain(self.timed_counts()).chain(self.list_counts());
        let counts = counts.chain(self.trial_counts()).chain(self.moment_counts());
        let counts = counts.chain(self.log_counts()).chain(self.window_counts());
        let counts = counts.chain(self.log_fault_counts());
        let counts = counts.map(|(met, least, words)| (met, least, words.to_string()));
        let counts = counts.chain(self.told_counts()).chain(self.text_counts());
        counts.map(|(met, least, words)| Count { met, words, least })
    }

    fn version_counts(&self) -> [(u64, u64, &'static str); 2 * NEWEST as usize] {
        let ([p1, p2, p3, p4], [q1, q2, q3, q4]) = (self.passed_version, self.planned_version);
        [
            (p1, 2_000, "passed plans of version 1 jobs"),
            (p2, 2_000, "passed plans of version 2 jobs"),
            (p3, 2_000, "passed plans of version 3 jobs"),
            (p4, 2_000, "passed plans of version 4 jobs"),
            (q1, 500, "planned jobs of version 1"),
            (q2, 500, "planned jobs of version 2"),
            (q3, 500, "planned jobs of version 3"),
            (q4, 500, "planned jobs of version 4"),
        ]
    }

    /// Request (iii).
    fn sequence_counts(&self) -> [(u64, u64, &'static str); 14] {
        [
            (self.booked_at_once, 5_000, "asked places booked, with no commit between"),
            (self.booked_version_1, 2_000, "asked places booked in jobs of version 1"),
            (self.booked_with_ready, 1_000, "asked places booked for tasks with a ready time"),
            (self.booked_newly, 30, "asked places booked that rule E of document 01 refused"),
            (self.booked_sharing, 300, "asked places booked whose backup shares time"),
            (self.booked_as_planned, 2_000, "longer plans that are the planner's own"),
            (self.unplaced_as_planned, 2_000, "asks refused as the planner refuses the longer job"),
            (self.booked_later, 400, "asked places booked after another commit"),
            (self.stale_later, 500, "asked places stale after another commit"),
            (self.moved_booked, 2_000, "asked places moved in time by hand and booked"),
            (self.moved_stale, 2_000, "asked places changed by hand and stale"),
            (self.full_of_tasks, 20, "jobs filled to 64 tasks"),
            (self.full_of_links, 20, "jobs filled to 512 links"),
            (self.sequences_survived, 100, "plans held to demand 3 at the end of a sequence"),
        ]
    }

    /// Request (iv): what would be otherwise with all send times 0.
    fn send_counts(&self) -> [(u64, u64, &'static str); 5] {
        [
            (self.planned_by_send, 200, "planned jobs whose plan the send times moved"),
            (self.refused_by_send, 250, "plans refused that pass with send times 0"),
            (self.replayed_by_send, 8_000, "replays that go otherwise with send times 0"),
            (self.asked_by_send, 400, "asked places that the send times moved"),
            (self.planned_forgetfully, 150, "planned jobs that the forgetful shortcut would move"),
        ]
    }

    /// Request (v).
    fn set_counts(&self) -> [(u64, u64, &'static str); 8] {
        [
            (self.sets_passed, 20_000, "calls for the fault sets of a passed plan"),
            (self.sets_refused, 50_000, "calls for the fault sets of a refused plan"),
            (self.sets_unjudged, 20_000, "plans refused before rule E with a set of two or more"),
            (self.sets_of_two, 150_000, "fault sets of two groups or more"),
            (self.sets_of_three, 60_000, "fault sets of three groups or more"),
            (self.sets_in_reverse, 15_000, "plans whose sets go wrong with the links in reverse"),
            (self.sets_by_sender, 40_000, "plans whose sets grow too soon by sending task"),
            (self.sets_by_send, 2_000, "plans whose sets are others with send times 0"),
        ]
    }

    /// Request (vi). In a drawer are nodes of one group; by nodes is the reading in which each node
    /// is its own.
    fn group_counts(&self) -> [(u64, u64, &'static str); 19] {
        [
            (self.passed_in_drawers, 1_000, "passed plans of jobs with a drawer"),
            (self.shared_in_drawers, 40, "passed plans of such jobs with backups that share time"),
            (self.planned_by_group, 100, "planned jobs whose plan the drawers moved"),
            (self.one_group_refused, 30, "jobs of one group, not planned"),
            (self.refused_by_group, 2_000, "plans refused that pass by nodes"),
            (self.judged_by_group, 3_000, "plans that are judged otherwise by nodes"),
            (self.rule_a_by_nodes, 2_500, "plans refused 8 with copies on two nodes of a drawer"),
            (self.rule_e_by_nodes, 10, "plans refused 12 over a link that rule E by nodes passes"),
            (self.rule_f_by_nodes, 150, "plans refused 13 for a task that rule F by nodes passes"),
            (self.rule_g_by_nodes, 150, "plans refused 14 for tasks that rule G by nodes passes"),
            (self.overlap_in_drawer, 1_500, "passed plans that overlap on two nodes of a drawer"),
            (self.sent_in_drawer, 250, "passed plans with a delay between nodes of a drawer"),
            (self.fed_without_delay, 250, "plans refused 11 or 12 by the delay in a drawer"),
            (self.cut_on_two, 200, "replays with copies cut on two nodes of a drawer"),
            (self.lost_by_nodes, 25_000, "replays that differ with one node of a drawer lost"),
            (self.missing_below, 400, "losses refused 18 for a group below the node count"),
            (self.lost_beyond, 25_000, "losses replayed of a group not below the node count"),
            (self.asked_by_group, 150, "asked places that the drawers moved"),
            (self.sets_by_group, 15_000, "plans whose sets are others by nodes"),
        ]
    }

    /// Request (vii): where a wrong way to keep or to read the order of time answers otherwise.
    fn order_counts(&self) -> [(u64, u64, &'static str); 12] {
        [
            (self.passed_by_neighbours, 350, "plans refused 14 that pass by neighbours in time"),
            (self.named_by_time, 400, "plans refused 14 for others than the first in time"),
            (self.named_by_finish, 130, "plans refused 14 otherwise if finishes rose with starts"),
            (self.named_with_lost, 2_000, "plans refused 14 otherwise with a lost equal start"),
            (self.begun_alike, 4_000, "passed plans with two backups at one start of a node"),
            (self.begun_unlike, 4_000, "plans with a primary and a backup at one start of a node"),
            (self.planned_into_gap, 1_500, "planned jobs with a copy before one placed earlier"),
            (self.planned_behind, 1_500, "planned jobs that places behind the last would move"),
            (self.planned_stopped, 900, "planned jobs that an early end of the search would move"),
            (self.planned_by_neighbours, 70, "planned jobs that gaps of neighbours would move"),
            (self.planned_with_lost, 80, "planned jobs that a lost equal start would move"),
            (self.asked_into_gap, 1_800, "asked places before a copy held, after a commit"),
        ]
    }

    /// Request (vii): the most that a node can hold.
    fn crowd_counts(&self) -> [(u64, u64, &'static str); 4] {
        [
            (self.one_node, 100, "plans with all copies on one node"),
            (self.one_node_full, 40, "plans with 128 copies on one node"),
            (self.two_nodes_passed, 20, "passed plans with 64 copies on each of two nodes"),
            (self.two_nodes_refused, 40, "plans refused 14 with 64 copies on each of two nodes"),
        ]
    }

    /// Request (viii): runs with a list, and what early ends do in them.
    fn timed_counts(&self) -> [(u64, u64, &'static str); 19] {
        let ([random, ones, listed], [a, b, c]) = (self.timed_lists, self.timed_survived);
        let [v1, v2, v3, v4] = self.timed_version;
        [
            (random, 50_000, "replays with a list at random"),
            (ones, 25_000, "replays with a list of ones"),
            (listed, 25_000, "replays with the listed times, as without a list"),
            (v1, 15_000, "replays with a list for version 1 jobs"),
            (v2, 15_000, "replays with a list for version 2 jobs"),
            (v3, 15_000, "replays with a list for version 3 jobs"),
            (v4, 15_000, "replays with a list for version 4 jobs"),
            (self.timed_otherwise, 5_000, "replays that go otherwise with the listed times"),
            (self.outlived_otherwise, 1_500, "such replays of passed plans"),
            (self.timed_sooner, 50_000, "replays with a finish before the listed one"),
            (self.outlasted_by_end, 3_000, "replays with a copy done before the loss by its end"),
            (self.fed_by_end, 1_800, "replays with an input there by an early end"),
            (self.fed_without_loss, 600, "such replays of refused plans without loss"),
            (self.kept_back, 600, "replays of refused plans that rule B by ends would change"),
            (self.timed_by_swap, 35_000, "replays that go otherwise with a task's times swapped"),
            (a, 200_000, "runs with a list at random held to demand 3"),
            (b, 200_000, "runs with a list of ones held to demand 3"),
            (c, 200_000, "runs with a list of the listed times held to demand 3"),
            (self.timed_every_tick, 250, "lists with every group lost at every tick"),
        ]
    }

    /// Request (viii): refusals of a list, and beside it.
    fn list_counts(&self) -> [(u64, u64, &'static str); 10] {
        let [cut, tail, zero, one_more, greatest, other_node, swapped] = self.lists_refused;
        [
            (cut, 3_000, "lists refused 1, cut"),
            (tail, 3_000, "lists refused 6, with a tail"),
            (zero, 3_000, "lists refused 4 for a 0"),
            (one_more, 3_000, "lists refused 4 for a tick more than listed"),
            (greatest, 3_000, "lists refused 4 for 4,294,967,295"),
            (other_node, 2_500, "lists refused 4 for the time of another node"),
            (swapped, 2_500, "lists refused 4 for a task's listed times swapped"),
            (self.lists_before_room, 15_000, "lists refused before 17"),
            (self.missing_before_list, 12_000, "losses refused 18 before a faulty list"),
            (self.timed_short, 6_000, "good lists refused 17"),
        ]
    }

    /// Request (ix): yes and no, beside the judge. Sharing is that of a primary and a backup.
    fn trial_counts(&self) -> [(u64, u64, &'static str); 19] {
        let ([yes, no], [alike_yes, alike_no]) = (self.tried, self.tried_unshared);
        let [shared_yes, shared_no] = self.tried_shared;
        let [[y1, n1], [y2, n2], [y3, n3], [y4, n4]] = self.shared_version;
        let unread: u64 = self.results[9][1..].iter().sum();
        [
            (yes, 40_000, "trials that say yes"),
            (no, 80_000, "trials that say no"),
            (self.yes_at_every_tick, 40_000, "trials that say yes, with every tick tried"),
            (alike_yes, 40_000, "plans without sharing, passed and yes"),
            (alike_no, 60_000, "plans without sharing, refused and no"),
            (shared_yes, 3_000, "plans with sharing refused 14, and yes"),
            (shared_no, 4_000, "plans with sharing refused 14, and no"),
            (y1, 400, "such plans of version 1 jobs, yes"),
            (y2, 400, "such plans of version 2 jobs, yes"),
            (y3, 300, "such plans of version 3 jobs, yes"),
            (y4, 2_000, "such plans of version 4 jobs, yes"),
            (n1, 1_000, "such plans of version 1 jobs, no"),
            (n2, 900, "such plans of version 2 jobs, no"),
            (n3, 900, "such plans of version 3 jobs, no"),
            (n4, 1_300, "such plans of version 4 jobs, no"),
            (self.yes_in_drawers, 2_000, "such plans of jobs with a drawer, yes"),
            (self.yes_with_ready, 900, "such plans of jobs with ready times above 0, yes"),
            (self.yes_with_send, 2_300, "such plans of jobs with send times above 0, yes"),
            (unread, 35_000, "trials refused as the judge refuses to read"),
        ]
    }

    /// Request (ix): where a wrong reading would say otherwise.
    fn moment_counts(&self) -> [(u64, u64, &'static str); 8] {
        [
            (self.no_beside_starts, 250, "trials that say no, not shown by losses at starts"),
            (self.no_beside_finishes, 18_000, "trials that say no, not shown by those at finishes"),
            (
                self.no_by_later_node,
                2_000,
                "trials that say no, shown by a group's later node only",
            ),
            (self.no_by_whole_run, 1_600, "trials that say no, shown by the run without loss only"),
            (self.no_by_primary, 5_000, "trials that say no for a primary, each task being done"),
            (self.no_by_deadline, 3_500, "trials that say no for one tick after a deadline"),
            (self.yes_at_deadline, 3_500, "trials that say yes with a backup at its deadline"),
            (self.own_copies, 1_200, "plans with a task's own two copies overlapping"),
        ]
    }

    /// Request (x): tables, the jobs that they renew, and logs that grow.
    fn log_counts(&self) -> [(u64, u64, &'static str); 20] {
        let [none, _, below, just, above, more, many] = self.logs_of;
        let [v1, v2, v3, v4] = self.tables_version;
        [
            (v1, 1_200, "tables of version 1 jobs"),
            (v2, 1_200, "tables of version 2 jobs"),
            (v3, 1_200, "tables of version 3 jobs"),
            (v4, 1_200, "tables of version 4 jobs"),
            (none, 200, "tables of an empty log"),
            (below, 300, "tables of 255 records"),
            (just, 300, "tables of 256 records"),
            (above, 300, "tables of 257 records"),
            (above + more + many, 3_000, "tables of logs longer than the window"),
            (many, 50, "tables of 10,000 records or more"),
            (self.tables_below, 1_400, "tables with a time below the job's"),
            (self.tables_above, 4_500, "tables with a time above the job's"),
            (self.tables_least, 600, "tables with a time of 1 that is not the job's"),
            (self.tables_most, 1_500, "tables with a time of 1,000,000 that is not the job's"),
            (self.renewed, 4_500, "renewed jobs that are not the old one"),
            (self.renewed_planned, 2_300, "such jobs planned"),
            (self.renewed_otherwise, 2_800, "renewed jobs planned otherwise than the old one"),
            (self.steps, 75_000, "records by which a log grew"),
            (self.steps_lower, 8_000, "records that left, another being the largest then"),
            (self.steps_back, 150, "records that left, the job's time being back then"),
        ]
    }

    /// Request (x): where a wrong reading would give another table.
    fn window_counts(&self) -> [(u64, u64, &'static str); READINGS.len()] {
        let [shorter, longer, whole, first, before, listed, staying, last, each, by_node] =
            self.tables_otherwise;
        [
            (shorter, 800, "tables that a window of 255 would change"),
            (longer, 700, "tables that a window of 257 would change"),
            (whole, 1_700, "tables that the whole log would change"),
            (first, 2_200, "tables that the first 256 records would change"),
            (before, 1_900, "tables that the records before the newest would change"),
            (listed, 1_400, "tables that the job's time as one more would change"),
            (staying, 1_200, "tables that a largest that left but stays would change"),
            (last, 3_500, "tables that the last ticks for the largest would change"),
            (each, 1_700, "tables that a window for each task and node would change"),
            (by_node, 4_500, "tables that are others node by node"),
        ]
    }

    /// Request (x): refusals of a log, and beside it.
    fn log_fault_counts(&self) -> [(u64, u64, &'static str); 13] {
        let [cut, between, task, node, unable, unable_first, no_ticks, many_ticks] =
            self.logs_refused;
        [
            (cut, 1_800, "logs refused 1, cut within a number"),
            (between, 1_800, "logs refused 1, cut between numbers"),
            (task, 1_800, "logs refused 4 for a task"),
            (node, 1_800, "logs refused 4 for a node"),
            (unable, 1_000, "logs refused 7, the ticks being good"),
            (unable_first, 1_000, "logs refused 7 before bad ticks"),
            (no_ticks, 1_800, "logs refused 4 for ticks of 0"),
            (many_ticks, 1_800, "logs refused 4 for more than 1,000,000 ticks"),
            (self.log_faults_first, 4_500, "logs refused for their oldest record"),
            (self.log_faults_last, 2_000, "logs refused for their newest record"),
            (self.log_faults_left, 3_000, "logs refused for a record that counts no more"),
            (self.logs_refused.iter().sum::<u64>(), 12_000, "logs with a fault refused 17 first"),
            (self.logs_short, 4_500, "good logs refused 17"),
        ]
    }

    /// Request (xi): refusals printed and read back.
    fn told_counts(&self) -> Vec<(u64, u64, String)> {
        let each = self.told.iter().zip(&WORDS[1..]).zip(1..);
        let each = each.map(|((&met, word), number)| {
            (met, 1_500, format!("refusals {number}, {word}, printed and read back"))
        });
        let [shown, unsaid, said] = self.told_second;
        let [outside, outside_short] = self.outside;
        let numbers = self.told_met.iter().filter(|&&met| met > 0).count();
        let other = [
            (shown, 4_500, "sentences with the second place in the phrase"),
            (unsaid, 15_000, "sentences without the second place"),
            (said, 15_000, "sentences with the second place behind the phrase"),
            (self.told_far, 15_000, "sentences with a place that no call can give"),
            (self.told_most, 800, "sentences with a place of 2 to the power 64, less 1"),
            (self.told_longest, 100, "sentences of 120 bytes"),
            (self.told_short, 50_000, "sentences refused 17"),
            (outside, 12_000, "numbers outside the tables refused 22, with room"),
            (outside_short, 12_000, "numbers outside the tables refused 22 before 17"),
            (self.told_met.iter().sum(), 7_000, "refusals that other calls gave, as sentences"),
            (numbers as u64, LAST - 1, "numbers of these refusals"),
        ];
        each.chain(other.map(|(met, least, words)| (met, least, words.to_string()))).collect()
    }

    /// Request (xi): texts that are no sentence, and those that are that of another refusal.
    fn text_counts(&self) -> Vec<(u64, u64, String)> {
        let mut counts = Vec::new();
        for ((damage, words), [none, other]) in DAMAGES.into_iter().zip(self.texts) {
            let (least_none, least_other) = match damage {
                Damage::Digit => (Some(800), Some(2_000)),
                Damage::Swapped => (Some(100), Some(3_000)),
                Damage::SaidLeftOut => (None, Some(3_000)),
                _ => (Some(2_500), None),
            };
            let refused = least_none.map(|least| (none, least, format!("texts refused, {words}")));
            let read = least_other
                .map(|least| (other, least, format!("texts that are another refusal's, {words}")));
            counts.extend(refused.into_iter().chain(read));
        }
        let others = self.texts.iter().map(|&[_, other]| other).sum();
        counts.push((self.texts_cut, 2_000, "texts refused, cut at every length".into()));
        counts.push((others, 9_000, "damaged texts that are another refusal's".into()));
        counts
    }
}

impl fmt::Display for Tally {
    fn fmt(&self, f: &mut fmt::Formatter) -> fmt::Result {
        write!(f, "{:>2} {:<14}", "", "result")?;
        COLUMNS.iter().try_for_each(|name| write!(f, "{name:>13}"))?;
        for (number, word) in WORDS.iter().enumerate() {
            write!(f, "\n{number:>2} {word:<14}")?;
            self.results.iter().try_for_each(|column| write!(f, "{:>13}", column[number]))?;
        }
        self.counts().try_for_each(|count| write!(f, "\n{}: {}", count.words, count.met))
    }
}
