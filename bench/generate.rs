//! Makes the files that the differential test and the measurement read. The same arguments give the
//! same bytes.
//!
//! usage: generate million OUT        the file of 1,000,000 messages for timing
//!        generate random SEED OUT    a random file, sound or damaged
//!        generate cases DIR          the small files of cases.rs, each as DIR/NAME.clo

#[path = "generate/cases.rs"]
mod cases;
#[path = "generate/message.rs"]
mod message;
#[path = "generate/million.rs"]
mod million;
#[path = "generate/prng.rs"]
mod prng;
#[path = "generate/random.rs"]
mod random;

use std::process::ExitCode;
use std::{env, fs, io};

fn main() -> ExitCode {
    let arguments: Vec<String> = env::args().skip(1).collect();
    let made = match arguments.iter().map(String::as_str).collect::<Vec<_>>()[..] {
        ["million", out] => fs::write(out, million::file()),
        ["random", seed, out] => match seed.parse() {
            Ok(seed) => fs::write(out, random::file(seed)),
            Err(_) => return usage(),
        },
        ["cases", dir] => write_cases(dir),
        _ => return usage(),
    };
    match made {
        Ok(()) => ExitCode::SUCCESS,
        Err(error) => {
            eprintln!("generate: {error}");
            ExitCode::FAILURE
        }
    }
}

fn write_cases(dir: &str) -> io::Result<()> {
    fs::create_dir_all(dir)?;
    for (name, bytes) in cases::all() {
        fs::write(format!("{dir}/{name}.clo"), bytes)?;
    }
    Ok(())
}

fn usage() -> ExitCode {
    eprintln!("usage: generate million OUT");
    eprintln!("       generate random SEED OUT");
    eprintln!("       generate cases DIR");
    ExitCode::from(2)
}
