//! Runs the real programs against the reference: the measurement of speed and memory, and the
//! differential test. `bench/run` builds what this needs and starts it.
//!
//! usage: bench speed WORK ARRIVAL TURNS
//!        bench differential WORK ARRIVAL TURNS CASES COUNT FIRST_SEED
//!
//! WORK is the folder with the built `reference` and `generate`, and takes the files that are made.

#[path = "bench/differential.rs"]
mod differential;
#[path = "bench/program.rs"]
mod program;
#[path = "bench/speed.rs"]
mod speed;
#[path = "bench/tally.rs"]
mod tally;

use std::env;
use std::error::Error;
use std::path::Path;
use std::process::ExitCode;

use program::Pair;

/// Whether all was as it should be, or what kept it from being tried.
type Verdict = Result<bool, Box<dyn Error>>;

fn main() -> ExitCode {
    let arguments: Vec<String> = env::args().skip(1).collect();
    let verdict = match arguments.iter().map(String::as_str).collect::<Vec<_>>()[..] {
        ["speed", work, arrival, turns] => {
            speed::run(Path::new(work), &Pair::both(work, arrival, turns))
        }
        ["differential", work, arrival, turns, cases, count, first] => {
            differential_run(work, arrival, turns, cases, count, first)
        }
        _ => {
            eprintln!("usage: bench speed WORK ARRIVAL TURNS");
            eprintln!("       bench differential WORK ARRIVAL TURNS CASES COUNT FIRST_SEED");
            return ExitCode::from(2);
        }
    };
    match verdict {
        Ok(true) => ExitCode::SUCCESS,
        Ok(false) => ExitCode::FAILURE,
        Err(error) => {
            eprintln!("bench: {error}");
            ExitCode::FAILURE
        }
    }
}

fn differential_run(
    work: &str,
    arrival: &str,
    turns: &str,
    cases: &str,
    count: &str,
    first: &str,
) -> Verdict {
    let number = |text: &str| {
        text.parse::<u64>()
            .map_err(|_| format!("COUNT and FIRST_SEED are numbers, and {text} is none"))
    };
    let seeds = number(first)?..number(first)?.saturating_add(number(count)?);
    let pairs = Pair::both(work, arrival, turns);
    differential::run(Path::new(work), &pairs, Path::new(cases), seeds)
}
