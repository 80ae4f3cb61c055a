//! Random plans: kept to the rules, changed a little, and wild.

use crate::files::{Job, Place, Plan, Row, Task, MAX_TIME};
use crate::planner::Draft;
use crate::random::Random;
use crate::rules::{arrival, Copy};

/// A plan that keeps the rules but is not the planner's: each copy stands on a random node at a
/// random start of those where rules just hold, or a little later. None if no place was found.
pub fn passing_plan(random: &mut Random, job: &Job) -> Option<Plan> {
    let nodes: Vec<usize> = (0..job.nodes.len()).collect();
    passing_plan_on(random, job, [&nodes, &nodes])
}

/// The same with the nodes for primaries and those for backups given.
pub fn passing_plan_on(random: &mut Random, job: &Job, nodes: [&[usize]; 2]) -> Option<Plan> {
    let mut draft = Draft::new(job);
    let haste = random.between(20, 100);
    for _ in 0..job.tasks.len() {
        let placed = (0..4).any(|_| place_next(random, &mut draft, nodes, haste));
        if !placed {
            return None;
        }
    }
    Some(draft.plan())
}

/// Places both copies of the next task, or neither.
fn place_next(random: &mut Random, draft: &mut Draft, nodes: [&[usize]; 2], haste: u64) -> bool {
    let Some(primary) = some_primary(random, draft, nodes[0], haste) else {
        return false;
    };
    draft.place_primary(primary);
    let Some(backup) = some_backup(random, draft, nodes[1], haste) else {
        draft.withdraw_primary();
        return false;
    };
    draft.place_backup(backup);
    true
}

pub fn some_primary(
    random: &mut Random,
    draft: &Draft,
    nodes: &[usize],
    haste: u64,
) -> Option<Copy> {
    from_random_node(random, nodes, |random, node| {
        let mut starts = draft.primary_starts(node);
        // Where backups have arrived too, links are strong.
        for link in draft.job.links_into(draft.task()) {
            starts.insert(arrival(link, &draft.layout.backups[link.from], node));
        }
        let starts = starts.into_iter().collect();
        some_start(random, draft, haste, node, starts, &|copy| draft.primary_fits(copy))
    })
}

pub fn some_backup(
    random: &mut Random,
    draft: &Draft,
    nodes: &[usize],
    haste: u64,
) -> Option<Copy> {
    from_random_node(random, nodes, |random, node| {
        let starts = draft.backup_starts(node).into_iter().collect();
        some_start(random, draft, haste, node, starts, &|copy| draft.backup_fits(copy))
    })
}

/// Asks all of the nodes in turn, the first of them at random.
fn from_random_node(
    random: &mut Random,
    nodes: &[usize],
    ask: impl Fn(&mut Random, usize) -> Option<Copy>,
) -> Option<Copy> {
    let first = random.below(nodes.len());
    (0..nodes.len()).find_map(|step| ask(random, nodes[(first + step) % nodes.len()]))
}

/// A fitting start: with some haste the first one, else a later one, or one with some slack.
fn some_start(
    random: &mut Random,
    draft: &Draft,
    haste: u64,
    node: usize,
    starts: Vec<u64>,
    fits: &dyn Fn(&Copy) -> bool,
) -> Option<Copy> {
    let mut kept = None;
    for start in starts {
        let slack = if random.percent(haste) { 0 } else { random.between(0, 3) };
        let candidate = draft.candidate(node, start + slack).filter(|copy| fits(copy));
        kept = candidate.or(kept);
        if kept.is_some() && random.percent(haste) {
            break;
        }
    }
    kept
}

/// A plan with a few changes, most of them by one tick.
pub fn changed_plan(random: &mut Random, job: &Job, plan: &Plan) -> Plan {
    let mut changed = plan.clone();
    for _ in 0..random.pick(&[1, 1, 1, 2, 4]) {
        change(random, job, &mut changed);
    }
    changed
}

fn change(random: &mut Random, job: &Job, plan: &mut Plan) {
    let task = random.below(plan.rows.len());
    let other = random.below(plan.rows.len());
    let nodes = job.nodes.len();
    let start = plan_time(random, plan);
    let met = plan.rows[other];
    let row = &mut plan.rows[task];
    match random.between(0, 18) {
        0..=3 => nudge(random, row, 1),
        4 | 5 => nudge(random, row, 6),
        6 => some_place(random, row).node = random.below(nodes),
        7 => some_place(random, row).start = start,
        8 => plan.rows.swap(task, other),
        9 => std::mem::swap(&mut row.primary, &mut row.backup),
        10 => row.backup = met.backup,
        11 => shift_from(random, plan, task),
        12 | 13 => row.backup.node = in_drawer(random, job, met.primary.node),
        14 => start_too_soon(random, &job.tasks[task], &mut row.primary),
        15 => row.backup.node = in_drawer(random, job, row.primary.node),
        16 => {
            let place = some_place(random, row);
            place.node = in_drawer(random, job, place.node);
        }
        _ => meet_later(random, row, &met),
    }
}

/// A node of the same group; the node itself, if it is alone there.
fn in_drawer(random: &mut Random, job: &Job, node: usize) -> usize {
    let mates = |&other: &usize| job.nodes[other].group == job.nodes[node].group;
    random.pick(&(0..job.nodes.len()).filter(mates).collect::<Vec<usize>>())
}

fn some_place<'a>(random: &mut Random, row: &'a mut Row) -> &'a mut Place {
    if random.percent(50) {
        &mut row.primary
    } else {
        &mut row.backup
    }
}

fn nudge(random: &mut Random, row: &mut Row, most: u64) {
    let (by, earlier) = (random.between(1, most), random.percent(60));
    let place = some_place(random, row);
    let start = if earlier { place.start.saturating_sub(by) } else { place.start + by };
    place.start = start.min(MAX_TIME);
}

/// Puts the primary before the task's ready time, if there is a tick before it.
fn start_too_soon(random: &mut Random, task: &Task, primary: &mut Place) {
    if task.ready > 0 {
        primary.start = task.ready - random.between(1, task.ready.min(3));
    }
}

/// Puts the backup on a node of another task, at a time that keeps more rules than not.
fn meet_later(random: &mut Random, row: &mut Row, met: &Row) {
    row.backup.node = random.pick(&[met.primary.node, met.backup.node, met.backup.node]);
    let start = row.backup.start.max(met.backup.start) + random.between(0, 4);
    row.backup.start = start.min(MAX_TIME);
}

/// Moves a task and all above it later: slack for some rules, nothing lost for others.
fn shift_from(random: &mut Random, plan: &mut Plan, task: usize) {
    let by = random.between(1, 4);
    for row in &mut plan.rows[task..] {
        row.primary.start = (row.primary.start + by).min(MAX_TIME);
        row.backup.start = (row.backup.start + by).min(MAX_TIME);
    }
}

/// A start not far beyond those of the plan.
fn plan_time(random: &mut Random, plan: &Plan) -> u64 {
    let last = plan.rows.iter().map(|row| row.backup.start).max().unwrap_or(0);
    random.between(0, (last + 2).min(MAX_TIME))
}

/// A plan that keeps no rule on purpose. Most read well.
pub fn wild_plan(random: &mut Random, job: &Job) -> Plan {
    let span = random.pick(&[3, 10, 40, 200, MAX_TIME]);
    let careful = !random.percent(15);
    let rows = job.tasks.iter().map(|task| {
        let mut place = || Place {
            node: wild_node(random, &task.run, careful),
            start: random.between(0, span),
        };
        Row { primary: place(), backup: place() }
    });
    Plan { rows: rows.collect() }
}

/// Any node; if careful, one that can run the task, where there is one.
fn wild_node(random: &mut Random, run: &[u64], careful: bool) -> usize {
    let able: Vec<usize> = (0..run.len()).filter(|&node| run[node] > 0).collect();
    if careful && !able.is_empty() {
        random.pick(&able)
    } else {
        random.below(run.len())
    }
}
