//! Times the exported functions beside C, plain and tuned: same input, in turns, a Markdown table.

use std::hint::black_box;
use std::process::ExitCode;
use std::time::Instant;
use std::{env, fs};

use compare::console::{plan_bytes, replay_bytes, table_bytes, Console, Places};
use compare::foreign::{LIBRARY, PLAIN, TUNED};
use compare::refusal::{Refusal, NO, NOT_A_SENTENCE, SAME_NODE, SHORT};
use compare::sentences::{printed, Parts, MAX_BYTES};
use compare::sized::{asked, crowded_on, planned, AskedJob, Kind, PlannedJob};

const DEFAULT_ROUNDS: usize = 2001;

const SIDES: [Console; 3] = [LIBRARY, PLAIN, TUNED];

/// Who goes first, and who comes after whom, changes from round to round.
const ORDERS: [[usize; 3]; 6] = [[0, 1, 2], [2, 1, 0], [1, 2, 0], [0, 2, 1], [2, 0, 1], [1, 0, 2]];

/// The times of each side.
type Times = [Vec<f64>; 3];

/// A sample repeats its call for about this long, so that the clock's own time is no matter.
const SAMPLE_NANOSECONDS: f64 = 20_000.0;

struct Case {
    name: &'static str,
    sized: PlannedJob,
    asked: AskedJob,
    /// Whether this work is timed.
    is_timed: fn(Work) -> bool,
    /// The judge's answer.
    judged: u64,
}

#[derive(Clone, Copy)]
enum Work {
    /// The judge with an empty plan file reads the whole job and then refuses 1 at 0.
    Reading,
    Judge,
    Plan,
    Replay,
    ReplayLoss,
    ReplayTimes,
    ReplayTimesLoss,
    // On a job of 64 tasks they would be refused as full. There the job has a task fewer, and the
    // links of the one that is asked for: the longer job has the size of the other rows.
    Ask,
    Commit,
    FaultSets,
    Trial,
    RunTimes,
    RenewJob,
}

const WORKS: [(Work, &str); 13] = [
    (Work::Reading, "reading the job"),
    (Work::Judge, "judge"),
    (Work::Plan, "plan"),
    (Work::Replay, "replay"),
    (Work::ReplayLoss, "replay_loss"),
    (Work::ReplayTimes, "replay_times"),
    (Work::ReplayTimesLoss, "replay_times_loss"),
    (Work::Ask, "ask"),
    (Work::Commit, "commit"),
    (Work::FaultSets, "fault_sets"),
    (Work::Trial, "trial"),
    (Work::RunTimes, "run_times"),
    (Work::RenewJob, "renew_job"),
];

/// The job for which the library's trial is set beside its replay, and which has the long logs.
const LARGEST: &str = "maximum";

/// Logs for run_times: what they are about, and how many records they have. Without a record it is
/// the cost of any call.
const LONG: usize = 1_000_000;
const LONG_LOGS: [(&str, Kind, usize); 5] = [
    ("no record", Kind::AnyCell, 0),
    ("any task on any node", Kind::AnyCell, LONG),
    ("one task on one node, falling ticks", Kind::Falling, LONG),
    ("one task on one node, rising ticks", Kind::Rising, LONG),
    ("one task on eight nodes", Kind::EightCells, LONG),
];

/// A call with a long log takes so long that fewer rounds will do: one for so many of the others.
const ROUNDS_A_LONG_LOG: usize = 50;

/// Refusals for sentence, and for read_sentence: a usual one, a file's fault, and the longest.
const TOLD: [(&str, Parts); 3] = [
    ("13, one task", [13, 10, 10]),
    ("4, an offset", [4, 56, 0]),
    ("11, two places of 20 digits", [11, u64::MAX, u64::MAX]),
];

/// A call of sentence, or of read_sentence on a text, and its answer.
struct Telling {
    name: String,
    parts: Parts,
    text: Option<Vec<u8>>,
    answer: u64,
}

/// All that a call about sentences may write.
#[derive(PartialEq)]
struct Told {
    bytes: [u8; MAX_BYTES],
    parts: Parts,
}

/// All that a call may write.
#[derive(PartialEq)]
struct Output {
    bytes: Vec<u8>,
    places: Places,
    longer_job: Vec<u8>,
    longer_plan: Vec<u8>,
}

fn main() -> ExitCode {
    let words: Vec<String> = env::args().skip(1).collect();
    let rounds = match words.as_slice() {
        [] => Some(DEFAULT_ROUNDS),
        [name, value] if name == "--rounds" => value.parse().ok().filter(|&rounds| rounds > 0),
        _ => None,
    };
    let Some(rounds) = rounds else {
        eprintln!("usage: bench [--rounds NUMBER]");
        return ExitCode::from(2);
    };
    print_head(rounds);
    let mut largest = Vec::new();
    for case in cases() {
        for (work, name) in WORKS.into_iter().filter(|&(work, _)| (case.is_timed)(work)) {
            if !same_answers(&case, work) {
                println!("{}, {name}: the sides differ", case.name);
                return ExitCode::FAILURE;
            }
            let times = time_work(&case, work, rounds);
            print_row(&case, work, name, &times);
            if case.name == LARGEST && matches!(work, Work::Replay | Work::Trial) {
                let [library, ..] = &times;
                largest.push((least(library), median(library)));
            }
        }
    }
    if let [replay, trial] = largest[..] {
        let (low, middle) = (trial.0 / replay.0, trial.1 / replay.1);
        println!("\nThe library on {LARGEST}, trial / replay: {low:.1} / {middle:.1}");
    }
    if time_long_logs(rounds) && time_sentences(rounds) {
        ExitCode::SUCCESS
    } else {
        ExitCode::FAILURE
    }
}

/// The table for long logs, of the greatest job. Answers whether the sides agree.
fn time_long_logs(rounds: usize) -> bool {
    let few = rounds.div_ceil(ROUNDS_A_LONG_LOG);
    print_long_head(few);
    let mut case = case(LARGEST, 1, 16, 64, 512);
    for (name, kind, records) in LONG_LOGS {
        case.sized.log = kind.log(case.sized.nodes, case.sized.tasks, records);
        if !same_answers(&case, Work::RunTimes) {
            println!("{name}: the sides differ");
            return false;
        }
        let rounds = if records == 0 { rounds } else { few };
        print!("| {name} | {records} ");
        print_times(&time_work(&case, Work::RunTimes, rounds), records.max(1) as f64);
    }
    true
}

/// The table for sentences. Answers whether the sides agree.
fn time_sentences(rounds: usize) -> bool {
    print_told_head(rounds);
    for telling in tellings() {
        let outputs = SIDES.map(|console| {
            let mut out = told();
            (tell(&console, &telling, &mut out) == telling.answer).then_some(out)
        });
        if !agree(&outputs) {
            println!("{}: the sides differ", telling.name);
            return false;
        }
        let call = |console: &Console, out: &mut Told| tell(console, black_box(&telling), out);
        let function = if telling.text.is_some() { "read_sentence" } else { "sentence" };
        print!("| {} | {function} ", telling.name);
        print_times(&time(rounds, &mut told(), call), 1.0);
    }
    true
}

fn tellings() -> Vec<Telling> {
    let said =
        TOLD.map(|(name, parts)| Telling { name: name.into(), parts, text: None, answer: 0 });
    let read = TOLD.map(|(name, parts)| {
        let text = printed(parts).expect("the number is one of the tables").into_bytes();
        Telling { name: name.into(), parts, text: Some(text), answer: 0 }
    });
    let none = read.each_ref().map(|telling| {
        let mut text = telling.text.clone().unwrap_or_default();
        let answer = Refusal::at(NOT_A_SENTENCE, text.len() as u64).code();
        text.last_mut().into_iter().for_each(|byte| *byte = b'!');
        let name = format!("none: {}, the last byte changed", telling.name);
        Telling { name, text: Some(text), answer, ..*telling }
    });
    said.into_iter().chain(read).chain(none).collect()
}

fn told() -> Told {
    Told { bytes: [0; MAX_BYTES], parts: [0; 3] }
}

fn tell(console: &Console, telling: &Telling, out: &mut Told) -> u64 {
    let [number, first, second] = telling.parts;
    match &telling.text {
        Some(text) => (console.read_sentence)(text, &mut out.parts),
        None => (console.sentence)(number as u32, first, second, &mut out.bytes),
    }
}

/// In nanoseconds; the times rise.
fn least(side: &[f64]) -> f64 {
    side[0]
}

fn median(side: &[f64]) -> f64 {
    side[side.len() / 2]
}

fn print_head(rounds: usize) {
    println!("Microseconds for a call, reading included; least and median of {rounds} samples of");
    println!("each side, taken in turns. The last two columns divide the library's times by those");
    println!("of plain and of tuned C, least / median: below 1 the library is the faster.");
    println!("Machine: {}. C: {}, -O3.\n", processor(), env!("BASELINE_COMPILER"));
    print!("| job | nodes | tasks | links | function | library least | median ");
    println!("| plain least | median | tuned least | median | to plain | to tuned |");
    print!("| --- | ---: | ---: | ---: | --- | ---: | ---: ");
    println!("| ---: | ---: | ---: | ---: | ---: | ---: |");
}

fn print_long_head(rounds: usize) {
    println!("\nNanoseconds for a record in run_times with a long log, the job being {LARGEST};");
    println!("{rounds} samples of each side. Where there is no record, for the call, with as many");
    println!("samples as above.\n");
    print!("| log | records | library least | median | plain least | median ");
    println!("| tuned least | median | to plain | to tuned |");
    println!("| --- | ---: | ---: | ---: | ---: | ---: | ---: | ---: | ---: | ---: |");
}

fn print_told_head(rounds: usize) {
    println!("\nNanoseconds for a call of sentence, with a buffer of {MAX_BYTES} bytes, and of");
    println!("read_sentence; {rounds} samples of each side.\n");
    print!("| refusal | function | library least | median | plain least | median ");
    println!("| tuned least | median | to plain | to tuned |");
    println!("| --- | --- | ---: | ---: | ---: | ---: | ---: | ---: | ---: | ---: |");
}

fn processor() -> String {
    let text = fs::read_to_string("/proc/cpuinfo").unwrap_or_default();
    let line = text.lines().find(|line| line.starts_with("model name"));
    line.and_then(|line| line.split(": ").nth(1)).unwrap_or("an unnamed processor").to_string()
}

fn print_row(case: &Case, work: Work, function: &str, times: &Times) {
    let is_asked = matches!(work, Work::Ask | Work::Commit);
    let job = if is_asked { &case.asked.held } else { &case.sized };
    let PlannedJob { nodes, tasks, links, .. } = job;
    print!("| {} | {nodes} | {tasks} | {links} | {function} ", case.name);
    print_times(times, 1000.0);
}

/// The rest of a row, with the times in that many nanoseconds.
fn print_times(times: &Times, unit: f64) {
    for side in times {
        print!("| {:.3} | {:.3} ", least(side) / unit, median(side) / unit);
    }
    let [library, baselines @ ..] = times;
    for side in baselines {
        let ratios = (least(library) / least(side), median(library) / median(side));
        print!("| {:.2} / {:.2} ", ratios.0, ratios.1);
    }
    println!("|");
}

fn cases() -> Vec<Case> {
    let mut cases = vec![
        case("four tasks", 1, 3, 4, 4),
        case("middling", 1, 8, 24, 72),
        case(LARGEST, 1, 16, 64, 512),
    ];
    // How the cost grows with tasks, and then with links.
    cases.extend([8, 16, 32, 64].map(|tasks| case("by tasks", 1, 8, tasks, 3 * tasks)));
    cases.extend([0, 128, 256, 512].map(|links| case("by links", 1, 16, 64, links)));
    cases.push(case("maximum, version 2", 2, 16, 64, 512));
    cases.push(case("maximum, version 3", 3, 16, 64, 512));
    // Nodes are in drawers of two, and a drawer is lost.
    cases.push(case("maximum, version 4", 4, 16, 64, 512));
    // As many copies on a node as can be: 64 where the plan passes, 128 where it reads well.
    cases.push(case("two nodes", 1, 2, 64, 0));
    cases.push(Case {
        sized: crowded_on(0, 1),
        is_timed: |work| matches!(work, Work::Judge | Work::Trial),
        ..case("one node each", 1, 2, 64, 0)
    });
    cases.push(Case {
        sized: crowded_on(0, 0),
        is_timed: is_for_any_plan,
        judged: Refusal::of_task(SAME_NODE, 0).code(),
        ..case("all on one node", 1, 2, 64, 0)
    });
    cases
}

fn case(name: &'static str, version: u64, nodes: usize, tasks: usize, links: usize) -> Case {
    let (sized, asked) =
        (planned(version, nodes, tasks, links), asked(version, nodes, tasks, links));
    Case { name, sized, asked, is_timed: |_| true, judged: 0 }
}

/// The works on a plan that the judge refuses, its own among them.
fn is_for_any_plan(work: Work) -> bool {
    use Work::{Ask, Commit, Plan, Reading, RenewJob, RunTimes};
    !matches!(work, Reading | Plan | Ask | Commit | RunTimes | RenewJob)
}

fn call(console: &Console, case: &Case, work: Work, out: &mut Output) -> u64 {
    let PlannedJob { job, plan, loss, times, log, .. } = &case.sized;
    let AskedJob { held, task, booking, .. } = &case.asked;
    let Output { bytes, places, longer_job, longer_plan } = out;
    match work {
        Work::Reading => (console.judge)(job, &[]),
        Work::Judge => (console.judge)(job, plan),
        Work::Plan => (console.plan)(job, bytes),
        Work::Replay => (console.replay)(job, plan, None, bytes),
        Work::ReplayLoss => (console.replay)(job, plan, Some(*loss), bytes),
        Work::ReplayTimes => (console.replay_times)(job, plan, None, times, bytes),
        Work::ReplayTimesLoss => (console.replay_times)(job, plan, Some(*loss), times, bytes),
        Work::Ask => (console.ask)(&held.job, &held.plan, task, places),
        Work::Commit => (console.commit)(&held.job, &held.plan, booking, longer_job, longer_plan),
        Work::FaultSets => (console.fault_sets)(job, plan, bytes),
        Work::Trial => (console.trial)(job, plan),
        Work::RunTimes => (console.run_times)(job, log, bytes),
        Work::RenewJob => (console.renew_job)(job, log, bytes),
    }
}

fn output(case: &Case) -> Output {
    let PlannedJob { nodes, tasks, .. } = case.sized;
    let (job, plan) = case.asked.rooms;
    let rooms = [plan_bytes(tasks), replay_bytes(tasks), table_bytes(nodes, tasks), job];
    Output {
        bytes: vec![0; rooms.into_iter().max().unwrap_or(0)],
        places: [0; 4],
        longer_job: vec![0; job],
        longer_plan: vec![0; plan],
    }
}

/// All sides do the same work, or the times say nothing.
fn same_answers(case: &Case, work: Work) -> bool {
    let expected = match work {
        Work::Reading => Refusal::at(SHORT, 0).code(),
        Work::Judge => case.judged,
        // A plan refused 8 gets no.
        Work::Trial if case.judged != 0 => NO,
        _ => 0,
    };
    let outputs = SIDES.map(|console| {
        let mut out = output(case);
        (call(&console, case, work, &mut out) == expected).then_some(out)
    });
    agree(&outputs)
}

/// Each side's output, if its answer was the one expected.
fn agree<T: PartialEq>(outputs: &[Option<T>; 3]) -> bool {
    outputs[0].is_some() && outputs.iter().all(|out| *out == outputs[0])
}

fn time_work(case: &Case, work: Work, rounds: usize) -> Times {
    let call = |console: &Console, out: &mut Output| call(console, black_box(case), work, out);
    time(rounds, &mut output(case), call)
}

/// The nanoseconds of a call on each side, rising.
fn time<T>(rounds: usize, out: &mut T, call: impl Fn(&Console, &mut T) -> u64) -> Times {
    let mut times = SIDES.map(|_| Vec::new());
    let repeats = SIDES.map(|console| repeats(&console, out, &call));
    for round in 0..rounds {
        for side in ORDERS[round % ORDERS.len()] {
            times[side].push(sample(&SIDES[side], out, &call, repeats[side]));
        }
    }
    times.iter_mut().for_each(|side| side.sort_by(f64::total_cmp));
    times
}

fn sample<T>(
    console: &Console,
    out: &mut T,
    call: &impl Fn(&Console, &mut T) -> u64,
    repeats: usize,
) -> f64 {
    let start = Instant::now();
    for _ in 0..repeats {
        black_box(call(console, out));
    }
    start.elapsed().as_nanos() as f64 / repeats as f64
}

fn repeats<T>(console: &Console, out: &mut T, call: &impl Fn(&Console, &mut T) -> u64) -> usize {
    if sample(console, out, call, 1) > 10.0 * SAMPLE_NANOSECONDS {
        return 1;
    }
    let tries = (0..20).map(|_| sample(console, out, call, 10));
    let quickest = tries.fold(f64::INFINITY, f64::min);
    ((SAMPLE_NANOSECONDS / quickest) as usize).max(1)
}
