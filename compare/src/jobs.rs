//! Random jobs. Numbers are small, so that copies get in each other's way.

use crate::files::{
    Job, Link, Node, Task, GROUP, LINKS, MAX_DETECT, MAX_GROUP, MAX_SEND, MAX_TIME, NEWEST, NODES,
    READY, SEND,
};
use crate::random::Random;

/// What a job's numbers are drawn from.
struct Style {
    version: u64,
    nodes: u64,
    tasks: u64,
    max_ready: u64,
    max_run: u64,
    max_detect: u64,
    max_send: u64,
    min_delay: u64,
    max_delay: u64,
    /// Chances in a hundred. A node that is lame for a task takes longer than all that are not.
    lame: u64,
    unable: u64,
    linked: u64,
    chained: u64,
    /// All times are multiples of this, so that large numbers meet as often as small ones.
    unit: u64,
}

pub fn random_job(random: &mut Random) -> Job {
    let mut style = if random.percent(30) { slow_style(random) } else { random_style(random) };
    if GROUP.is_in(style.version) && random.percent(60) {
        // Nodes that share their supply take more of them.
        style.nodes = (2 * style.nodes).min(NODES.1);
    }
    let tasks = deadlines(random, &style).into_iter();
    let groups = random_groups(random, &style).into_iter();
    let mut job = Job {
        version: style.version,
        nodes: groups.map(|group| random_node(random, &style, group)).collect(),
        tasks: tasks.map(|deadline| random_task(random, &style, deadline)).collect(),
        links: random_links(random, &style),
    };
    if random.percent(3) {
        push_to_limits(random, &mut job);
    }
    job
}

fn random_style(random: &mut Random) -> Style {
    let (nodes, tasks) = random_size(random);
    let full = tasks == 64 && nodes == 16;
    let version = random.between(1, NEWEST);
    Style {
        version,
        nodes,
        tasks,
        max_ready: if READY.is_in(version) { random.pick(&[2, 8, 8, 20, 60]) } else { 0 },
        max_run: random.pick(&[1, 2, 4, 4, 8]),
        max_detect: random.pick(&[0, 1, 1, 3]),
        max_send: if SEND.is_in(version) { random.pick(&[1, 3, 3, 8, 20]) } else { 0 },
        min_delay: 0,
        max_delay: random.pick(&[0, 1, 3, 3, 8, 30]),
        lame: 0,
        unable: random.pick(&[0, 0, 5, 20, 40]),
        linked: if full { 100 } else { random.pick(&[0, 5, 15, 30, 60, 100]) },
        chained: random.pick(&[0, 30, 80]),
        unit: if random.percent(4) { random.pick(&[251, 9_973, 100_000]) } else { 1 },
    }
}

/// Slow links between nodes of unlike speed. A primary then often goes where a sender's backup
/// stands, whose result is long on its way elsewhere: request (i) is about the backup there.
fn slow_style(random: &mut Random) -> Style {
    let max_run = random.pick(&[4, 8]);
    Style {
        nodes: random.between(3, 6),
        tasks: random.between(3, 11),
        max_run,
        min_delay: max_run,
        max_delay: 2 * max_run,
        lame: 30,
        unable: 5,
        linked: 30,
        chained: 80,
        ..random_style(random)
    }
}

/// Mostly small jobs, some of every size, some full.
fn random_size(random: &mut Random) -> (u64, u64) {
    match random.between(0, 999) {
        0..=599 => (random.between(2, 5), random.between(1, 7)),
        600..=899 => (random.between(2, 8), random.between(3, 14)),
        900..=989 => (random.between(2, 16), random.between(1, 64)),
        _ => (16, 64),
    }
}

/// Each node alone; drawers of two, neighbours or not; drawers of any size; or one drawer for all.
/// As often as not their numbers are drawn too, so that there are gaps.
fn random_groups(random: &mut Random, style: &Style) -> Vec<u64> {
    let nodes = 0..style.nodes;
    if !GROUP.is_in(style.version) {
        return nodes.collect();
    }
    let pairs = style.nodes.div_ceil(2);
    let most = random.between(2, style.nodes);
    let mut numbers: Vec<u64> = (0..=MAX_GROUP).collect();
    if random.percent(50) {
        random.shuffle(&mut numbers);
    }
    let kind = random.between(0, 99);
    let mut drawer = |node: u64| match kind {
        0..=19 => node,
        20..=49 => node / 2,
        50..=64 => node % pairs,
        65..=94 => random.between(0, most - 1),
        _ => 0,
    };
    nodes.map(|node| numbers[drawer(node) as usize]).collect()
}

fn random_node(random: &mut Random, style: &Style, group: u64) -> Node {
    let detect = (random.between(0, style.max_detect) * style.unit).min(MAX_DETECT);
    Node { detect, send: random_send(random, style), group }
}

/// Two cards of five are quick, and one of a hundred is as slow as can be.
fn random_send(random: &mut Random, style: &Style) -> u64 {
    match random.between(0, 99) {
        _ if style.max_send == 0 => 0,
        0..=39 => 0,
        40 => MAX_SEND,
        _ => (random.between(0, style.max_send) * style.unit).min(MAX_SEND),
    }
}

fn random_delay(random: &mut Random, style: &Style) -> u64 {
    (random.between(style.min_delay, style.max_delay) * style.unit).min(MAX_TIME)
}

/// Nothing to wait for in half of the cases.
fn random_ready(random: &mut Random, style: &Style) -> u64 {
    let ready = if random.percent(50) { random.between(0, style.max_ready) } else { 0 };
    (ready * style.unit).min(MAX_TIME)
}

/// The deadline is counted from the ready time on.
fn random_task(random: &mut Random, style: &Style, deadline: u64) -> Task {
    let ready = random_ready(random, style);
    let mut run = || {
        let lame = if random.percent(style.lame) { 5 * style.max_run } else { 0 };
        let able = !random.percent(style.unable);
        let run = if able { lame + random.between(1, style.max_run) } else { 0 };
        (run * style.unit).min(MAX_TIME)
    };
    let run = (0..style.nodes).map(|_| run()).collect();
    Task { ready, deadline: (ready + deadline).min(MAX_TIME), run }
}

/// Loose for most jobs; for the others near the times at which backups may finish.
fn deadlines(random: &mut Random, style: &Style) -> Vec<u64> {
    let step = style.max_run + style.max_delay / 2 + 1;
    let tightness = random.pick(&[0, 0, 0, 10, 100]);
    let mut deadline = |task: u64| {
        let near = random.between(2, 3 + (task + 4) * step) * style.unit;
        let loose = random.pick(&[MAX_TIME, MAX_TIME, 400 * style.unit]);
        (if random.percent(tightness) { near } else { loose }).clamp(1, MAX_TIME)
    };
    (0..style.tasks).map(&mut deadline).collect()
}

fn random_links(random: &mut Random, style: &Style) -> Vec<Link> {
    let mut links = Vec::new();
    for from in 0..style.tasks {
        for to in from + 1..style.tasks {
            let chance =
                if to == from + 1 { style.linked.max(style.chained) } else { style.linked };
            if random.percent(chance) {
                let delay = random_delay(random, style);
                links.push(Link { from: from as usize, to: to as usize, delay });
            }
        }
    }
    while links.len() > LINKS.1 as usize {
        links.remove(random.below(links.len()));
    }
    links
}

/// Sets some numbers to the greatest that the reader takes, or near it.
fn push_to_limits(random: &mut Random, job: &mut Job) {
    for node in &mut job.nodes {
        if random.percent(30) {
            node.detect = MAX_DETECT;
        }
        if SEND.is_in(job.version) && random.percent(30) {
            node.send = random.pick(&[MAX_SEND, MAX_SEND - 1]);
        }
        if GROUP.is_in(job.version) && random.percent(30) {
            node.group = random.pick(&[MAX_GROUP, MAX_GROUP - 1, 0]);
        }
    }
    for task in &mut job.tasks {
        let node = random.below(task.run.len());
        task.run[node] = random.pick(&[task.run[node], MAX_TIME, MAX_TIME - 1]);
        if READY.is_in(job.version) && random.percent(20) {
            task.ready = random.pick(&[MAX_TIME, MAX_TIME - 1, MAX_TIME - 40]);
        }
    }
    for link in &mut job.links {
        if random.percent(20) {
            link.delay = MAX_TIME;
        }
    }
}
