//! Runs the samples of document 01 and of requests (ii) to (xi) on all implementations, and looks
//! at the library's stack.

use std::process::ExitCode;

use compare::console::SECOND;
use compare::foreign::{LIBRARY, PLAIN, TUNED};
use compare::{samples, stack};

fn main() -> ExitCode {
    let mut good = true;
    for console in [LIBRARY, SECOND, PLAIN, TUNED] {
        let (count, faults) = samples::run(&console);
        println!("{}: {count} results looked at, {} differ", console.name, faults.len());
        for fault in &faults {
            println!("  {fault}");
        }
        good &= faults.is_empty();
    }
    // A library that differs may refuse the jobs on which stack is measured.
    if good && stack_suffices() {
        ExitCode::SUCCESS
    } else {
        ExitCode::FAILURE
    }
}

fn stack_suffices() -> bool {
    let used = stack::used(&LIBRARY);
    let listed = used.map(|(name, bytes)| format!("{name} {} KiB", bytes.div_ceil(1024)));
    println!("stack: {} (limit {})", listed.join(", "), stack::LIMIT / 1024);
    used.iter().all(|&(_, bytes)| bytes < stack::LIMIT)
}
