//! The differential test: the real programs and the reference read the same files, and their tapes
//! are compared byte for byte.

use std::collections::BTreeSet;
use std::fs;
use std::io;
use std::iter;
use std::ops::Range;
use std::path::{Path, PathBuf};
use std::process::Command;

use crate::Verdict;
use crate::program::{Pair, Program};
use crate::tally::Tally;

/// The lengths of the pieces in which a file is fed, over and over.
const PIECES: [usize; 10] = [1, 3, 1, 16, 7, 40, 2, 100, 11, 250];

/// A file is fed in messages too: first its header, then each message by itself.
const HEADER: usize = 5;
const MESSAGE: usize = 16;

/// Of the random files each one whose seed is a multiple of this is fed in pieces too.
const STEP: u64 = 50;

/// A file longer than this is not fed in pieces.
const SHORT: usize = 2_000;

struct Differential<'a> {
    work: &'a Path,
    pairs: &'a [Pair; 2],
    tallies: [Tally; 2],
    files: u64,
    /// Files that the two methods fill differently.
    parted: u64,
    in_pieces: u64,
}

pub fn run(work: &Path, pairs: &[Pair; 2], cases: &Path, seeds: Range<u64>) -> Verdict {
    let mut test = Differential {
        work,
        pairs,
        tallies: Default::default(),
        files: 0,
        parted: 0,
        in_pieces: 0,
    };
    let agreed = test.all(cases, seeds)?;
    if agreed {
        test.summary();
    }
    Ok(agreed)
}

impl Differential<'_> {
    fn all(&mut self, cases: &Path, seeds: Range<u64>) -> Verdict {
        let cases = files_of(cases)?;
        for case in &cases {
            let name = case.file_stem().unwrap_or_default().to_string_lossy();
            if !self.agree(case, &name)? {
                return Ok(false);
            }
        }
        for case in &cases {
            if !self.agree_in_pieces(case)? {
                return Ok(false);
            }
        }

        let million = self.work.join("million.clo");
        if !self.agree(&million, "million")? {
            return Ok(false);
        }
        // A byte after the last message that a file may have, and a whole message and a half.
        let beyond = self.work.join("beyond.clo");
        for more in [1, 24] {
            let mut bytes = fs::read(&million)?;
            bytes.extend(vec![0; more]);
            fs::write(&beyond, bytes)?;
            if !self.agree(&beyond, &format!("million-and-{more}"))? {
                return Ok(false);
            }
        }

        let random = self.work.join("random.clo");
        for seed in seeds {
            self.generate(seed, &random)?;
            let name = format!("seed-{seed}");
            if !self.agree(&random, &name)? {
                return Ok(false);
            }
            if seed % STEP == 0 && !self.agree_in_pieces(&random)? {
                return Ok(false);
            }
        }
        Ok(true)
    }

    fn generate(&self, seed: u64, file: &Path) -> io::Result<()> {
        let status = Command::new(self.work.join("generate"))
            .args(["random", &seed.to_string()])
            .arg(file)
            .status()?;
        if status.success() {
            Ok(())
        } else {
            Err(io::Error::other("generate ended with an error"))
        }
    }

    /// Whether the tapes of a file agree. Where they do not, file and tapes are kept.
    fn agree(&mut self, file: &Path, name: &str) -> Verdict {
        let mut bodies = BTreeSet::new();
        for (pair, tally) in self.pairs.iter().zip(&mut self.tallies) {
            let reference = pair.reference.tape(file)?;
            let real = match pair.real.tape(file) {
                Ok(real) => real,
                Err(error) => {
                    let kept = keep(self.work, file, name)?;
                    println!("{error}, kept as {}", kept.display());
                    return Ok(false);
                }
            };
            if real != reference {
                let kept = keep(self.work, file, name)?;
                println!("DIFFERENCE by {}: {}", pair.method, kept.display());
                show_difference(&kept, pair.method, &real, &reference)?;
                return Ok(false);
            }
            tally.add(&reference);
            // The first line names the lot.
            let first = reference
                .iter()
                .position(|&byte| byte == b'\n')
                .unwrap_or(0);
            bodies.insert(reference[first..].to_vec());
        }
        self.files += 1;
        self.parted += u64::from(bodies.len() > 1);
        Ok(true)
    }

    /// Whether the real programs write each line as soon as it is due.
    fn agree_in_pieces(&mut self, file: &Path) -> Verdict {
        let bytes = fs::read(file)?;
        if bytes.len() > SHORT {
            return Ok(true);
        }
        let in_pieces = ends(&bytes, PIECES.into_iter().cycle());
        let in_messages = ends(&bytes, iter::once(HEADER).chain(iter::repeat(MESSAGE)));
        for pair in self.pairs {
            for ends in [&in_pieces, &in_messages] {
                let due = self.due(&bytes, ends, &pair.reference)?;
                for (name, program) in [("real", &pair.real), ("reference", &pair.reference)] {
                    if let Some(end) = program.late_piece(&bytes, &due)? {
                        let kept = keep(self.work, file, "pieces")?;
                        let (path, method) = (kept.display(), pair.method);
                        println!("DIFFERENCE by {method}, fed in pieces: {path}");
                        println!(
                            "after byte {end} the {name} program had not written what was due and no more"
                        );
                        return Ok(false);
                    }
                }
            }
        }
        self.in_pieces += 1;
        Ok(true)
    }

    /// The ends of the pieces of a file, each with the tape that is due when so much has come.
    fn due(
        &self,
        bytes: &[u8],
        ends: &[usize],
        reference: &Program,
    ) -> io::Result<Vec<(usize, Vec<u8>)>> {
        let cut = self.work.join("cut.clo");
        let mut due = Vec::new();
        for &end in ends {
            fs::write(&cut, &bytes[..end])?;
            let mut tape = reference.tape(&cut)?;
            if is_cut(&bytes[..end]) {
                drop_last_line(&mut tape);
            }
            due.push((end, tape));
        }
        Ok(due)
    }

    fn summary(&self) {
        println!("no difference in {} files", self.files);
        println!("filled differently by the two methods: {}", self.parted);
        println!("fed in pieces too: {}", self.in_pieces);
        let [arrival, turns] = &self.tallies;
        println!("{:<24}{:>12}{:>12}", "", "arrival", "turns");
        let row = |name: String, counts: [u64; 2]| {
            println!("{name:<24}{:>12}{:>12}", counts[0], counts[1]);
        };
        for sort in "UNPFR".chars() {
            let count = |tally: &Tally| tally.lines.get(&sort).copied().unwrap_or(0);
            row(format!("lines {sort}"), [count(arrival), count(turns)]);
        }
        row(
            "prints with volume 0".into(),
            [arrival.empty_prints, turns.empty_prints],
        );
        for question in 1..=22 {
            let count = |tally: &Tally| tally.refusals.get(&question).copied().unwrap_or(0);
            row(
                format!("refused with question {question}"),
                [count(arrival), count(turns)],
            );
        }
    }
}

/// Where the pieces of these lengths end in a file.
fn ends(bytes: &[u8], lengths: impl Iterator<Item = usize>) -> Vec<usize> {
    let mut ends = Vec::new();
    let mut end = 0;
    for length in lengths {
        if end == bytes.len() {
            break;
        }
        end = (end + length).min(bytes.len());
        ends.push(end);
    }
    ends
}

/// Copies a file to a name that says where it comes from.
fn keep(work: &Path, file: &Path, name: &str) -> io::Result<PathBuf> {
    let kept = work.join(format!("difference-{name}.clo"));
    fs::copy(file, &kept)?;
    Ok(kept)
}

/// Writes both tapes beside the file, and prints the first line in which they differ.
fn show_difference(kept: &Path, method: &str, real: &[u8], reference: &[u8]) -> io::Result<()> {
    let is_end = |byte: &u8| *byte == b'\n';
    let both = real.split(is_end).zip(reference.split(is_end));
    let first = both
        .take_while(|(real, reference)| real == reference)
        .count();
    for (name, tape) in [("real", real), ("reference", reference)] {
        fs::write(kept.with_extension(format!("{method}.{name}.tape")), tape)?;
        let line = tape.split(is_end).nth(first).unwrap_or_default();
        let text = String::from_utf8_lossy(line);
        println!("line {} of the {name} tape: {text}", first + 1);
    }
    Ok(())
}

/// Whether a file that ends here is refused for its end, and not for what came before.
fn is_cut(bytes: &[u8]) -> bool {
    const HEADER: &[u8] = b"CLO\x00\x01";
    match bytes.strip_prefix(HEADER) {
        Some(messages) => messages.len() % 16 != 0,
        None => HEADER.starts_with(bytes),
    }
}

fn drop_last_line(tape: &mut Vec<u8>) {
    tape.pop();
    let end = tape
        .iter()
        .rposition(|&byte| byte == b'\n')
        .map_or(0, |at| at + 1);
    tape.truncate(end);
}

/// The files of a folder whose names end in .clo, in the order of their names.
fn files_of(folder: &Path) -> io::Result<Vec<PathBuf>> {
    let mut files = Vec::new();
    for entry in fs::read_dir(folder)? {
        let path = entry?.path();
        if path.extension().is_some_and(|ending| ending == "clo") {
            files.push(path);
        }
    }
    files.sort();
    Ok(files)
}
