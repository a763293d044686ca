//! Wall time and memory of each real program beside the reference, on the file of 1,000,000 messages.

use std::io;
use std::path::Path;
use std::time::Duration;

use crate::Verdict;
use crate::program::{Pair, Program};

/// How often each program runs at least and at most. On a shared machine a run may take twice the
/// time of the one before, so the runs go on until each program has come near its best three times.
const FEWEST: usize = 8;
const MOST: usize = 40;

const MESSAGES: f64 = 1e6;

/// A real program passes when it takes at most this many times the reference's time, and no more
/// memory.
const BOUND: f64 = 1.05;

struct Measured {
    times: Vec<Duration>,
    memory: u64,
}

impl Measured {
    fn new(program: &Program, file: &Path) -> io::Result<Measured> {
        Ok(Measured {
            times: Vec::new(),
            memory: program.peak_memory(file)?,
        })
    }

    fn best(&self) -> Duration {
        self.times.iter().copied().min().unwrap_or_default()
    }

    /// Whether at least three runs took hardly more than the best.
    fn is_settled(&self) -> bool {
        let near = self.best().mul_f64(1.02);
        self.times.iter().filter(|&&time| time <= near).count() >= 3
    }

    fn row(&self, method: &str, name: &str) -> String {
        let seconds = self.best().as_secs_f64();
        let nanoseconds = seconds / MESSAGES * 1e9;
        let memory = self.memory;
        format!("{method:<10}{name:<11}{seconds:>10.3}{nanoseconds:>16.0}{memory:>11}")
    }
}

pub fn run(work: &Path, pairs: &[Pair; 2]) -> Verdict {
    let file = work.join("million.clo");
    for pair in pairs {
        // This reads the file once before it is timed.
        if pair.real.tape(&file)? != pair.reference.tape(&file)? {
            println!(
                "FAIL: the tapes of {} differ on {}",
                pair.method,
                file.display()
            );
            return Ok(false);
        }
    }

    let mut measured = Vec::new();
    for pair in pairs {
        measured.push((
            Measured::new(&pair.real, &file)?,
            Measured::new(&pair.reference, &file)?,
        ));
    }
    let mut runs = 0;
    while runs < MOST && (runs < FEWEST || !all_settled(&measured)) {
        // The order changes, so that none of the programs always has the same one before it.
        for step in 0..2 {
            let at = (runs / 2 + step) % 2;
            let (pair, (real, reference)) = (&pairs[at], &mut measured[at]);
            let mut programs = [(&pair.real, real), (&pair.reference, reference)];
            if runs % 2 == 1 {
                programs.reverse();
            }
            for (program, measured) in programs {
                measured.times.push(program.time(&file)?);
            }
        }
        runs += 1;
    }

    println!("1,000,000 messages, the best of {runs} runs");
    println!("method    program       seconds  ns per message   peak KiB   ratio");
    let mut passes = true;
    for (pair, (real, reference)) in pairs.iter().zip(&measured) {
        let ratio = middle_ratio(real, reference);
        passes &= ratio <= BOUND && real.memory <= reference.memory;
        println!("{}{ratio:>8.2}", real.row(pair.method, "real"));
        println!("{}", reference.row(pair.method, "reference"));
    }
    if passes {
        println!("PASS: every ratio is at most {BOUND}, and no more memory is taken");
    } else {
        println!("FAIL: a ratio is above {BOUND}, or more memory is taken");
    }
    Ok(passes)
}

/// The middle one of the ratios of each run of a real program to the run of the reference beside it.
/// What else the machine does slows both, so this is steadier than the ratio of the best times.
fn middle_ratio(real: &Measured, reference: &Measured) -> f64 {
    let pairs = real.times.iter().zip(&reference.times);
    let mut ratios: Vec<f64> = pairs
        .map(|(real, reference)| real.as_secs_f64() / reference.as_secs_f64())
        .collect();
    ratios.sort_by(f64::total_cmp);
    ratios[ratios.len() / 2]
}

fn all_settled(measured: &[(Measured, Measured)]) -> bool {
    measured
        .iter()
        .all(|(real, reference)| real.is_settled() && reference.is_settled())
}
