//! How many lines of each sort a tape has, and how many refusals of each question.

use std::collections::BTreeMap;

#[derive(Default)]
pub struct Tally {
    pub lines: BTreeMap<char, u64>,
    pub refusals: BTreeMap<u32, u64>,
    /// Prints with volume 0.
    pub empty_prints: u64,
}

impl Tally {
    pub fn add(&mut self, tape: &[u8]) {
        for line in String::from_utf8_lossy(tape).lines() {
            let mut fields = line.split(' ');
            let sort = fields
                .next()
                .and_then(|field| field.chars().next())
                .unwrap_or('?');
            *self.lines.entry(sort).or_default() += 1;
            let last = fields
                .next_back()
                .and_then(|field| field.parse().ok())
                .unwrap_or(0);
            match sort {
                'R' => *self.refusals.entry(last).or_default() += 1,
                'P' if last == 0 => self.empty_prints += 1,
                _ => {}
            }
        }
    }
}
