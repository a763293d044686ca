//! The programs under test, and one run of them.

use std::fs::{self, File};
use std::io::{self, Read, Write};
use std::path::{Path, PathBuf};
use std::process::{Child, Command, Stdio};
use std::sync::mpsc;
use std::thread;
use std::time::{Duration, Instant};

pub struct Program {
    path: PathBuf,
    arguments: Vec<&'static str>,
}

/// The real program of a method, and the reference for the same method.
pub struct Pair {
    pub method: &'static str,
    pub real: Program,
    pub reference: Program,
}

impl Pair {
    pub fn both(work: &str, arrival: &str, turns: &str) -> [Pair; 2] {
        [("arrival", arrival), ("turns", turns)].map(|(method, path)| Pair {
            method,
            real: Program {
                path: path.into(),
                arguments: Vec::new(),
            },
            reference: Program {
                path: Path::new(work).join("reference"),
                arguments: vec![method],
            },
        })
    }
}

/// How long a program may take over a piece of a file or between two looks at it.
const PATIENCE: Duration = Duration::from_secs(10);

impl Program {
    fn command(&self) -> Command {
        let mut command = Command::new(&self.path);
        command.args(&self.arguments);
        command
    }

    fn spawn(&self, command: &mut Command) -> io::Result<Child> {
        command.spawn().map_err(|error| {
            io::Error::new(error.kind(), format!("{}: {error}", self.path.display()))
        })
    }

    /// The tape of a file. A status other than 0 is an error.
    pub fn tape(&self, file: &Path) -> io::Result<Vec<u8>> {
        let mut command = self.command();
        command.stdin(File::open(file)?).stdout(Stdio::piped());
        let output = self.spawn(&mut command)?.wait_with_output()?;
        if !output.status.success() {
            let path = self.path.display();
            let text = format!("{path} ended with {} on {}", output.status, file.display());
            return Err(io::Error::other(text));
        }
        Ok(output.stdout)
    }

    /// The wall time of a run over a file. What it writes is thrown away.
    pub fn time(&self, file: &Path) -> io::Result<Duration> {
        let mut command = self.command();
        command.stdin(File::open(file)?).stdout(Stdio::null());
        let begin = Instant::now();
        let status = self.spawn(&mut command)?.wait()?;
        let taken = begin.elapsed();
        if !status.success() {
            let text = format!("{} ended with {status}", self.path.display());
            return Err(io::Error::other(text));
        }
        Ok(taken)
    }

    /// The most memory that was resident during a run over a file, in KiB. The file comes through a
    /// pipe that is left open at its end, so the program is still there to be looked at when it has
    /// read everything.
    pub fn peak_memory(&self, file: &Path) -> io::Result<u64> {
        let mut command = self.command();
        command.stdin(Stdio::piped()).stdout(Stdio::null());
        let mut child = self.spawn(&mut command)?;
        let mut input = child.stdin.take().expect("the input is a pipe");
        io::copy(&mut File::open(file)?, &mut input)?;
        let status = PathBuf::from(format!("/proc/{}/status", child.id()));
        let begin = Instant::now();
        let mut sleeping = 0;
        // It sleeps when it waits for more.
        while sleeping < 3 && begin.elapsed() < PATIENCE {
            thread::sleep(Duration::from_millis(20));
            let sleeps = field(&fs::read_to_string(&status)?, "State:").starts_with('S');
            sleeping = if sleeps { sleeping + 1 } else { 0 };
        }
        let peak = field(&fs::read_to_string(&status)?, "VmHWM:")
            .trim_end_matches("kB")
            .trim()
            .parse()
            .map_err(|_| io::Error::other("/proc says no peak of memory"))?;
        drop(input);
        child.wait()?;
        Ok(peak)
    }

    /// Feeds a file piece by piece, and after each piece waits for what is due by then. `due` has for
    /// each piece its end in the file and the tape up to there. Answers the end of the first piece
    /// after which something else was written, or nothing within the time for it.
    pub fn late_piece(&self, bytes: &[u8], due: &[(usize, Vec<u8>)]) -> io::Result<Option<usize>> {
        let mut command = self.command();
        command.stdin(Stdio::piped()).stdout(Stdio::piped());
        let mut child = self.spawn(&mut command)?;
        let mut input = child.stdin.take().expect("the input is a pipe");
        let mut output = child.stdout.take().expect("the output is a pipe");
        let (sender, receiver) = mpsc::channel();
        let reader = thread::spawn(move || {
            let mut buffer = [0; 4_096];
            while let Ok(length) = output.read(&mut buffer) {
                if length == 0 || sender.send(buffer[..length].to_vec()).is_err() {
                    break;
                }
            }
        });

        let mut begin = 0;
        let mut tape = Vec::new();
        let mut late = None;
        for (end, wanted) in due {
            // A program that has ended reads no more.
            let _ = input.write_all(&bytes[begin..*end]);
            begin = *end;
            while tape.len() < wanted.len() {
                match receiver.recv_timeout(PATIENCE) {
                    Ok(more) => tape.extend(more),
                    Err(_) => break,
                }
            }
            if tape != *wanted {
                late = Some(*end);
                break;
            }
        }
        drop(input);
        child.wait()?;
        let _ = reader.join();
        Ok(late)
    }
}

/// What stands behind a name in a text of /proc.
fn field<'a>(text: &'a str, name: &str) -> &'a str {
    text.lines()
        .find_map(|line| line.strip_prefix(name))
        .unwrap_or("")
        .trim()
}
