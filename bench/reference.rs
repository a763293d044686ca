//! A second implementation of the closing session, written from docs/RULE.md, docs/SESSION.md,
//! docs/SHARING.md and the file format alone. It shares no code with the crates: the differential
//! test compares the two, and the measurement compares times with it.
//!
//! usage: reference arrival|turns     reads a file from standard input and writes its tape

#[path = "reference/book.rs"]
mod book;
#[path = "reference/file.rs"]
mod file;
#[path = "reference/list.rs"]
mod list;
#[path = "reference/rule.rs"]
mod rule;
#[path = "reference/run.rs"]
mod run;
#[path = "reference/session.rs"]
mod session;
#[path = "reference/sharing.rs"]
mod sharing;

use std::io::{self, ErrorKind, Read, Write};
use std::process::ExitCode;

use run::Run;
use sharing::Method;

/// How many bytes are read at once.
const BUFFER: usize = 64 * 1024;

fn main() -> ExitCode {
    let arguments: Vec<String> = std::env::args().skip(1).collect();
    let method = match arguments.iter().map(String::as_str).collect::<Vec<_>>()[..] {
        ["arrival"] => Method::Arrival,
        ["turns"] => Method::Turns,
        _ => {
            eprintln!("usage: reference arrival|turns  (the file on standard input)");
            return ExitCode::from(2);
        }
    };
    match carry_out(method) {
        Ok(()) => ExitCode::SUCCESS,
        Err(error) => {
            eprintln!("reference: {error}");
            ExitCode::FAILURE
        }
    }
}

/// Reads the file piece by piece. What a piece makes due is written before the next one is awaited.
fn carry_out(method: Method) -> io::Result<()> {
    let mut input = io::stdin().lock();
    let mut output = io::stdout().lock();
    let mut buffer = [0; BUFFER];
    let mut run = Run::new(method);
    while !run.has_ended() {
        match input.read(&mut buffer) {
            Ok(0) => {
                run.finish();
                return write(&mut run, &mut output);
            }
            Ok(length) => {
                run.feed(&buffer[..length]);
                write(&mut run, &mut output)?;
            }
            Err(error) if error.kind() == ErrorKind::Interrupted => {}
            Err(error) => return Err(error),
        }
    }
    Ok(())
}

fn write(run: &mut Run, output: &mut impl Write) -> io::Result<()> {
    if !run.tape().is_empty() {
        output.write_all(run.tape())?;
        output.flush()?;
        run.taken();
    }
    Ok(())
}

#[cfg(test)]
#[path = "reference/tests.rs"]
mod tests;
