//! Compares the proved store, as it is built, with plain Rust that was written apart from it.
//!
//!     compare test [SEED]     random and adversarial inputs; a SEED that was printed is replayed
//!     compare bench           times, side by side in one run, as ratios
mod bench;
mod codes;
mod lists;
mod packs;
mod plain;
mod random;
mod shapes;
mod store;

use random::Random;
use std::{env, process::ExitCode, time};

fn main() -> ExitCode {
    let words: Vec<String> = env::args().skip(1).collect();
    match words.iter().map(String::as_str).collect::<Vec<_>>().as_slice() {
        ["test"] => test(clock()),
        ["test", seed] => match seed.parse() {
            Ok(seed) => test(seed),
            Err(_) => usage(),
        },
        ["bench"] => {
            bench::run();
            ExitCode::SUCCESS
        }
        _ => usage(),
    }
}

fn test(seed: u64) -> ExitCode {
    println!("seed {seed}");
    let mut random = Random::new(seed);
    let outcome = compare("cell codes", codes::compare(&mut random))
        .and_then(|()| compare("number lists", lists::compare(&mut random)))
        .and_then(|()| compare("packed spots", packs::compare(&mut random)));
    match outcome {
        Ok(()) => ExitCode::SUCCESS,
        Err(difference) => {
            println!("DIFFERENCE: {difference}\nreplay it with: compare test {seed}");
            ExitCode::FAILURE
        }
    }
}

/// Tells how many operations agreed, if all did.
fn compare(name: &str, outcome: Result<u64, String>) -> Result<(), String> {
    println!("{name}: {} operations agree", outcome?);
    Ok(())
}

/// A seed that differs from run to run.
fn clock() -> u64 {
    time::SystemTime::now().duration_since(time::UNIX_EPOCH).map_or(1, |d| d.as_nanos() as u64)
}

fn usage() -> ExitCode {
    eprintln!("usage: compare test [SEED] | compare bench");
    ExitCode::FAILURE
}
