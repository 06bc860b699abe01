//! The program `compare`: our static library and our program against the reference.
//! `compare [SEED]` runs the same cases for the same seed.

mod compare;

use std::process::ExitCode;

const SEED: u64 = 20_250_403;

fn main() -> ExitCode {
    let seed = match std::env::args().nth(1).map(|word| word.parse()) {
        None => SEED,
        Some(Ok(seed)) => seed,
        Some(Err(_)) => {
            eprintln!("usage: compare [SEED], the seed a number");
            return ExitCode::FAILURE;
        }
    };
    if compare::run(seed) {
        ExitCode::SUCCESS
    } else {
        ExitCode::FAILURE
    }
}
