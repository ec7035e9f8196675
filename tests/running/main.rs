//! The tests that run the product: its static library, called through the C interface, against references that are
//! written by the scope paper alone. One seed makes the whole run; another may be given as the first argument.

mod buffers;
#[allow(dead_code)] // each part may be left out of the list below
mod canonical;
#[allow(dead_code)]
mod checking;
#[allow(dead_code)]
mod codes;
mod counts;
mod damage;
#[allow(dead_code)]
mod decoding;
mod draw;
mod faults;
#[allow(dead_code)]
mod format;
mod image;
mod library;
#[allow(dead_code)]
mod packing;
mod random;
mod reference;
mod sketch;
#[allow(dead_code)]
mod stock;
mod ways;
mod work;

use std::process::{Command, ExitCode, Stdio};
use std::time::Instant;

const SEED: u64 = 20_240_501;

/// Takes the seed, and says how many faults there are.
type Part = fn(u64) -> usize;

/// What is run. A library that does not export some calls is tested with the line of their part commented out.
const PARTS: &[(&str, Part)] = &[
    ("the format page", format::run),
    ("checking", checking::run),
    ("words and codes", codes::run),
    ("stock lists", stock::run),
    ("canonical images", canonical::run),
    ("packed codes", packing::run),
    ("decoding", decoding::run),
];

fn main() -> ExitCode {
    let mut words = std::env::args().skip(1);
    let seed = words.next().and_then(|word| word.parse().ok()).unwrap_or(SEED);
    match words.next() {
        Some(part) => run_part(seed, &part),
        None => run_all(seed),
    }
}

/// Runs each part as a process of its own, side by side, and prints what they say in the order of the list.
fn run_all(seed: u64) -> ExitCode {
    println!("seed {seed}");
    let program = std::env::current_exe().expect("the program's own path");
    let start = |(name, _): &(&str, Part)| {
        let mut command = Command::new(&program);
        command.args([&seed.to_string(), *name]).stdout(Stdio::piped());
        command.spawn().expect("a process")
    };
    let running: Vec<_> = PARTS.iter().map(start).collect();
    let mut failed = 0;
    for part in running {
        let ended = part.wait_with_output().expect("what the part said");
        print!("{}", String::from_utf8_lossy(&ended.stdout));
        failed += usize::from(!ended.status.success());
    }
    if failed == 0 {
        ExitCode::SUCCESS
    } else {
        println!("FAILED: {failed} parts");
        ExitCode::FAILURE
    }
}

fn run_part(seed: u64, part: &str) -> ExitCode {
    let (name, run) = PARTS.iter().find(|(name, _)| *name == part).expect("a part of this name");
    println!("\n{name}");
    let begun = Instant::now();
    let faults = run(seed);
    println!("{name}: {:.1} s", begun.elapsed().as_secs_f64());
    if faults == 0 {
        ExitCode::SUCCESS
    } else {
        println!("{name}: FAILED: {faults} faults");
        ExitCode::FAILURE
    }
}
