//! Independent tests of the engine: documents 01 and 02, as far as its requests have landed, implemented again, for
//! obviousness, and compared with the static library and the program on generated inputs.
//!
//! `independent PATH_OF_NEARBY_PROGRAM [--seed S]` prints a line for each part and ends with status 0, or prints the
//! part, the seed and the case of the first failure and ends with status 1.
//!
//! The parts whose names end in -3 are the same over towns with height; `heights` has what is new with them.
//!
//! `independent recorded` runs the part `recorded` alone; `independent record` writes recorded/plan.txt anew and tests
//! nothing: see parts/recorded.rs for when that is due.

mod compare;
mod damage;
mod divide;
mod fillings;
mod host;
mod paper;
mod parts;
mod rng;
mod tally;
mod towns;

use compare::Failure;
use rng::Rng;
use std::process::ExitCode;
use tally::Tally;

const SEED: u64 = 20_210_101;

/// Prints the failure; the file of the case is saved for repeating.
fn report(part: &str, seed: u64, failure: &Failure) {
    println!("FAILED in part {part}, seed {seed}");
    println!("{}", failure.text);
    if let Some(file) = &failure.file {
        let path = std::env::temp_dir().join(format!("independent-failure-{part}.bin"));
        match std::fs::write(&path, file) {
            Ok(()) => println!("the input of {} bytes is in {}", file.len(), path.display()),
            Err(error) => println!("the input of {} bytes could not be saved: {error}", file.len()),
        }
    }
}

/// Prints what a part gave.
fn ended(part: &str, seed: u64, outcome: Result<String, Failure>) -> ExitCode {
    match outcome {
        Ok(line) => {
            println!("{part}: {line}");
            ExitCode::SUCCESS
        }
        Err(failure) => {
            report(part, seed, &failure);
            ExitCode::from(1)
        }
    }
}

type Part<'a> = (&'a str, Box<dyn Fn(&mut Rng, &mut Tally) -> Result<String, Failure> + 'a>);

/// Runs the parts up to the first that fails. They have one tally. Part i has the generator numbered first + i: each has
/// one of its own, so that a change in one leaves the cases of the others.
fn run_all(parts: &[Part], first: u64, seed: u64) -> ExitCode {
    let mut tally = Tally::default();
    for (at, (name, part)) in (first..).zip(parts) {
        let mut rng = Rng::new(seed.wrapping_add(at * 1_000_003));
        let code = ended(name, seed, part(&mut rng, &mut tally));
        if code != ExitCode::SUCCESS {
            return code;
        }
    }
    ExitCode::SUCCESS
}

fn main() -> ExitCode {
    let arguments: Vec<String> = std::env::args().skip(1).collect();
    match arguments.as_slice() {
        [word] if word == "record" => return ended("record", SEED, parts::recorded::record()),
        [word] if word == "recorded" => return ended("recorded", SEED, parts::recorded::run()),
        _ => {}
    }
    let (program, seed) = match arguments.as_slice() {
        [program] => (program.clone(), Some(SEED)),
        [program, flag, seed] if flag == "--seed" => (program.clone(), seed.parse().ok()),
        _ => (String::new(), None),
    };
    let Some(seed) = seed else {
        println!("use: independent PATH_OF_NEARBY_PROGRAM [--seed S], independent recorded, or independent record");
        return ExitCode::from(2);
    };
    let plan: Vec<Part> = vec![
        ("margins", Box::new(|rng, _| parts::margins::run::<2>(rng))),
        ("checks", Box::new(parts::checks::run)),
        ("writing", Box::new(parts::writing::run::<2>)),
        ("damaged", Box::new(parts::damaged::run::<2>)),
        ("mismatches", Box::new(parts::mismatches::run::<2>)),
        ("faults", Box::new(parts::faults::run::<2>)),
        ("joins", Box::new(parts::joins::run::<2, 3>)),
        ("strikes", Box::new(parts::strikes::run::<2, 3>)),
        ("unread", Box::new(parts::unread::run::<2>)),
        ("muted", Box::new(parts::muted::run::<2>)),
        ("numbers", Box::new(|_, tally| tally.verdict().map_err(Failure::new))),
        ("program", Box::new(|rng, _| parts::programs::run(&program, rng))),
        ("recorded", Box::new(|_, _| parts::recorded::run())),
        ("levels", Box::new(|rng, _| parts::levels::run(rng))),
        ("streams", Box::new(parts::streams::run::<2, 3>)),
    ];
    let height: Vec<Part> = vec![
        ("heights", Box::new(parts::heights::run)),
        ("margins-3", Box::new(|rng, _| parts::margins::run::<3>(rng))),
        ("writing-3", Box::new(parts::writing::run::<3>)),
        ("damaged-3", Box::new(parts::damaged::run::<3>)),
        ("mismatches-3", Box::new(parts::mismatches::run::<3>)),
        ("faults-3", Box::new(parts::faults::run::<3>)),
        ("joins-3", Box::new(parts::joins::run::<3, 2>)),
        ("strikes-3", Box::new(parts::strikes::run::<3, 2>)),
        ("unread-3", Box::new(parts::unread::run::<3>)),
        ("muted-3", Box::new(parts::muted::run::<3>)),
        ("numbers-3", Box::new(|_, tally| tally.verdict().map_err(Failure::new))),
        ("streams-3", Box::new(parts::streams::run::<3, 2>)),
    ];
    let code = run_all(&plan, 0, seed);
    if code != ExitCode::SUCCESS {
        return code;
    }
    run_all(&height, 100, seed)
}
