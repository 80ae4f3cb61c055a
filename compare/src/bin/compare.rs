//! Compares the library with the second implementation on random jobs, plans and damaged files.

use std::path::{Path, PathBuf};
use std::process::ExitCode;
use std::{env, fs};

use compare::console::{Console, SECOND};
use compare::foreign::{LIBRARY, PLAIN, TUNED};
use compare::random::Random;
use compare::refusal::WORDS;
use compare::tally::Tally;
use compare::trial::{Mismatch, Trial};
use compare::{crowds, entries, fills, logged, rounds, sequences, shares, timed, told};

const DEFAULT_COUNT: u64 = 5_000;
const DEFAULT_SEED: u64 = 1;

/// So many jobs for each one that is filled with tasks, and one with links.
const ROUNDS_A_FILL: u64 = 200;

/// So many jobs for each one whose copies crowd on few nodes, and for each one with all on one.
const ROUNDS_A_CROWD: u64 = 2;
const ROUNDS_A_FULL_CROWD: u64 = 50;

const USAGE: &str = "usage: compare [--count JOBS] [--seed NUMBER] [--out FOLDER] [--pair FOLDER]
               [--console library|plain|tuned|second]
  --count    random jobs to try
  --seed     where the random numbers start
  --out      where job.bin, plan.bin, task.bin, times.bin, log.bin and sentence.bin are
             written after a mismatch (default: here)
  --pair     try these of a folder instead of random jobs
  --console  which implementation to hold to the second one (default: library)";

struct Options {
    count: u64,
    seed: u64,
    out: PathBuf,
    pair: Option<PathBuf>,
    console: Console,
}

fn main() -> ExitCode {
    let Some(options) = read_options() else {
        eprintln!("{USAGE}");
        return ExitCode::from(2);
    };
    let mut trial = Trial::new(options.console);
    let outcome = match &options.pair {
        Some(folder) => try_pair(&mut trial, folder),
        None => try_random(&mut trial, &options),
    };
    println!("{}", trial.tally);
    if let Err(mismatch) = outcome {
        report(&mismatch, &options.out);
        return ExitCode::FAILURE;
    }
    let complaints =
        if options.pair.is_some() { vec![] } else { missed(&trial.tally, options.count) };
    for complaint in &complaints {
        println!("too little was tried: {complaint}");
    }
    if !complaints.is_empty() {
        return ExitCode::FAILURE;
    }
    println!("no difference");
    ExitCode::SUCCESS
}

fn read_options() -> Option<Options> {
    let mut options = Options {
        count: DEFAULT_COUNT,
        seed: DEFAULT_SEED,
        out: PathBuf::from("."),
        pair: None,
        console: LIBRARY,
    };
    let mut words = env::args().skip(1);
    while let Some(word) = words.next() {
        let value = words.next()?;
        match word.as_str() {
            "--count" => options.count = value.parse().ok()?,
            "--seed" => options.seed = value.parse().ok()?,
            "--out" => options.out = value.into(),
            "--pair" => options.pair = Some(value.into()),
            "--console" => options.console = console_named(&value)?,
            _ => return None,
        }
    }
    Some(options)
}

fn console_named(name: &str) -> Option<Console> {
    [LIBRARY, PLAIN, TUNED, SECOND].into_iter().find(|console| console.name == name)
}

fn try_random(trial: &mut Trial, options: &Options) -> Result<(), Mismatch> {
    println!(
        "{} against second: {} jobs, seed {}",
        trial.console.name, options.count, options.seed
    );
    // Six sources, so that the rounds of a seed are the same whatever the sequences draw, the
    // sequences whatever the crowds, the crowds whatever shares time, that whatever the logs, and
    // the logs whatever the sentences.
    let (mut random, mut other) = (Random::new(options.seed), Random::new(!options.seed));
    let (mut third, mut fourth) =
        (Random::new(options.seed ^ 1 << 63), Random::new(options.seed ^ 1 << 62));
    let (mut fifth, mut sixth) =
        (Random::new(options.seed ^ 1 << 61), Random::new(options.seed ^ 1 << 60));
    for round in 0..options.count {
        rounds::round(trial, &mut random)?;
        sequences::sequence(trial, &mut other)?;
        match round % ROUNDS_A_FILL {
            0 => fills::fill_tasks(trial, &mut other)?,
            1 => fills::fill_links(trial, &mut other)?,
            _ => {}
        }
        if round % ROUNDS_A_CROWD == 0 {
            crowds::crowd(trial, &mut third)?;
        }
        if round % ROUNDS_A_FULL_CROWD == 0 {
            crowds::crowd_fully(trial, &mut third)?;
        }
        shares::share(trial, &mut fourth)?;
        logged::logs(trial, &mut fifth)?;
        told::sentences(trial, &mut sixth)?;
    }
    Ok(())
}

fn try_pair(trial: &mut Trial, folder: &Path) -> Result<(), Mismatch> {
    println!("{} against second: one pair of files", trial.console.name);
    let read = |name: &str| {
        let path = folder.join(name);
        fs::read(&path).unwrap_or_else(|error| panic!("{}: {error}", path.display()))
    };
    let (job, plan) = (read("job.bin"), read("plan.bin"));
    rounds::pair(trial, &job, &plan)?;
    if let Ok(entry) = fs::read(folder.join("task.bin")) {
        entries::entry(trial, &job, &plan, &entry)?;
    }
    if let Ok(times) = fs::read(folder.join("times.bin")) {
        timed::list(trial, &job, &plan, &times)?;
    }
    if let Ok(log) = fs::read(folder.join("log.bin")) {
        logged::log(trial, &job, &log)?;
    }
    match fs::read(folder.join("sentence.bin")) {
        Ok(sentence) => told::text(trial, &sentence),
        Err(_) => Ok(()),
    }
}

fn report(mismatch: &Mismatch, folder: &Path) {
    println!("MISMATCH: {}", mismatch.text);
    let Mismatch { job, plan, entry, times, log, sentence, .. } = mismatch;
    let files = [
        ("job.bin", job),
        ("plan.bin", plan),
        ("task.bin", entry),
        ("times.bin", times),
        ("log.bin", log),
        ("sentence.bin", sentence),
    ];
    for (name, bytes) in files {
        let path = folder.join(name);
        match fs::write(&path, bytes) {
            Ok(()) => println!("written: {}", path.display()),
            Err(error) => println!("not written: {}: {error}", path.display()),
        }
    }
}

/// What a run did not meet. Beside refusals it is asked for from the default count on.
fn missed(tally: &Tally, count: u64) -> Vec<String> {
    let numbers = (1..WORDS.len()).filter(|&number| tally.met(number) == 0);
    let mut complaints: Vec<String> =
        numbers.map(|number| format!("refusal {number}, {}, was not met", WORDS[number])).collect();
    if count >= DEFAULT_COUNT {
        let short = tally.counts().filter(|count| count.met < count.least);
        complaints.extend(tally.not_given());
        complaints.extend(short.map(|c| format!("{}: {}, not {}", c.words, c.met, c.least)));
    }
    complaints
}
