//! The file for timing: 1,000,000 messages on a list that is kept near 1,000 orders.

use crate::message::{self, Message};
use crate::prng::Prng;

const MESSAGES: usize = 1_000_000;

/// The number of messages after which the regular phase is over.
const REGULAR: usize = 965_000;

/// The times at which the day of this file opens, and at which its regular phase ends.
const OPENS: u32 = 34_200;
const LAST_REGULAR: u32 = 56_699;

const PLACES: usize = 1_024;

#[derive(Clone, Copy, PartialEq)]
enum Phase {
    Regular,
    /// From 15:45 to 16:00.
    Late,
    Closing,
}

impl Phase {
    /// Whether orders of the kind come in and go off in this phase. An M or L from 15:45 on comes
    /// in against a notice alone; the generator takes it not to, which leaves the list a little
    /// longer than it knows.
    fn moves(self, kind: u8) -> bool {
        match kind {
            b'C' | b'D' => true,
            b'M' | b'L' | b'O' => self == Phase::Regular,
            _ => self != Phase::Closing,
        }
    }
}

/// What the generator remembers of an order that it has entered.
#[derive(Clone, Copy)]
struct Listed {
    number: u32,
    kind: u8,
    size: u32,
}

struct Day {
    prng: Prng,
    phase: Phase,
    messages: Vec<Message>,
    listed: Vec<Listed>,
    /// The last number that an entry was given.
    number: u32,
    time: u32,
    last_sale: u32,
}

pub fn file() -> Vec<u8> {
    let mut day = Day {
        prng: Prng::new(123),
        phase: Phase::Regular,
        messages: Vec::with_capacity(MESSAGES),
        listed: Vec::with_capacity(PLACES),
        number: 0,
        time: OPENS,
        last_sale: 2_000,
    };
    day.push(message::time(day.time));
    day.push(message::sale(1_999));
    day.push(message::sale(2_000));
    day.push(message::quote(1_995, 2_005));
    while day.listed.len() < 1_000 {
        day.entry();
    }
    while day.messages.len() < REGULAR {
        day.mixed();
    }
    // The clock's later phases: when each begins, and after how many messages it is over.
    for (phase, begin, end) in [
        (Phase::Late, 56_700, 980_000),
        (Phase::Late, 57_480, 990_000),
        (Phase::Closing, 57_600, 999_900),
    ] {
        day.phase = phase;
        day.time = begin;
        day.push(message::time(begin));
        while day.messages.len() < end {
            day.mixed();
        }
    }
    day.closes();
    message::file(&day.messages)
}

impl Day {
    fn push(&mut self, message: Message) {
        self.messages.push(message);
    }

    fn price(&mut self) -> u32 {
        self.last_sale - 12 + self.prng.below(25)
    }

    fn size(&mut self) -> u32 {
        if self.prng.chance(85) {
            100 * self.prng.between(1, 40)
        } else {
            self.prng.between(1, 4_000)
        }
    }

    /// An entry that is in keeping with its kind, under a number that was not used before.
    fn ticket(&mut self) -> Message {
        let kind = self.prng.pick(b"MMMCLLLLBBBBBDOOGGS");
        let side = self.prng.pick(b"BS");
        let price = match kind {
            b'M' | b'C' => 0,
            b'G' if self.prng.chance(40) => 0,
            _ => self.price(),
        };
        let size = self.size();
        self.number += 1;
        let ticket = message::enter(kind, side, self.number, price, size);
        if matches!(kind, b'M' | b'L') && self.prng.chance(20) {
            ticket.flagged()
        } else {
            ticket
        }
    }

    fn entry(&mut self) {
        let ticket = self.ticket();
        self.push(ticket);
        let Message {
            number,
            kind,
            quantity: size,
            ..
        } = ticket;
        if self.listed.len() < PLACES && self.phase.moves(kind) {
            self.listed.push(Listed { number, kind, size });
        }
    }

    /// A number that no entry has had, or one that was entered before and may be gone.
    fn stale_number(&mut self) -> u32 {
        if self.prng.chance(50) {
            self.prng.between(1, self.number)
        } else {
            self.number + 1_000_000
        }
    }

    /// The place of some order that the generator knows to be listed.
    fn place(&mut self) -> usize {
        self.prng.below(self.listed.len() as u32) as usize
    }

    fn cancel(&mut self) {
        let place = self.place();
        let Listed { number, kind, .. } = self.listed[place];
        self.push(message::cancel(number));
        if self.phase.moves(kind) {
            self.listed.remove(place);
        }
    }

    /// Most of them make the order smaller.
    fn reduction(&mut self) {
        let place = self.place();
        let Listed { number, kind, size } = self.listed[place];
        let new = if size > 1 && self.prng.chance(80) {
            size - 1 - size / 8
        } else {
            size + self.prng.below(200)
        };
        self.push(message::reduce(number, new));
        if self.phase.moves(kind) && new < size {
            self.listed[place].size = new;
        }
    }

    fn sale(&mut self) {
        let step = self.prng.below(3);
        // Sales stay between 1,900 and 2,100.
        self.last_sale = (self.last_sale + step - 1).clamp(1_900, 2_100);
        self.push(message::sale(self.last_sale));
    }

    fn quote(&mut self) {
        let bid = self.last_sale - self.prng.below(6);
        let offer = bid + 1 + self.prng.below(6);
        self.push(message::quote(bid, offer));
    }

    /// The clock moves evenly through the regular phase, and then stands where a phase begins.
    fn time(&mut self) {
        if self.phase == Phase::Regular {
            let gone = self.messages.len() as u64;
            let seconds = u64::from(LAST_REGULAR - OPENS) * gone / REGULAR as u64;
            self.time = OPENS + seconds as u32;
        }
        self.push(message::time(self.time));
    }

    /// A message that is refused for what it holds.
    fn wrong(&mut self) {
        let mut wrong = match self.prng.below(4) {
            0 => message::cancel(self.number),
            1 => message::sale(self.last_sale),
            2 => message::publish(),
            _ => message::enter(b'L', b'B', self.number + 2_000_000, self.last_sale, 100),
        };
        match self.prng.below(8) {
            0 => wrong.verb = b'Z',
            1 => wrong.kind = b'x',
            2 => wrong.side = b'b',
            3 => wrong.flag = 2,
            4 => wrong.number = 0,
            5 => wrong.price = 10_000_000,
            6 => wrong.quantity = 10_000_001,
            _ => wrong = message::time(self.prng.pick(&[0, self.time - 1, 86_400])),
        }
        self.push(wrong);
    }

    /// The next message of the day.
    fn mixed(&mut self) {
        match self.prng.below(1_000) {
            0..660 => {
                // The more orders are missing from 1,000, the more come in.
                let entries = 50 + 1_000 - self.listed.len() as i32;
                if self.prng.chance(entries.clamp(5, 95) as u32) {
                    self.entry();
                } else {
                    self.cancel();
                }
            }
            660..690 => {
                let mut repeated = self.ticket();
                let place = self.place();
                repeated.number = self.listed[place].number;
                self.push(repeated);
            }
            690..710 => {
                let number = self.stale_number();
                self.push(message::cancel(number));
            }
            710..860 => self.reduction(),
            860..870 => {
                let number = self.stale_number();
                self.push(message::reduce(number, 1));
            }
            870..910 => self.sale(),
            910..935 => self.quote(),
            935..950 => self.time(),
            950..954 => {
                let publication = message::publish();
                let is_flagged = self.prng.chance(50);
                self.push(if is_flagged {
                    publication.flagged()
                } else {
                    publication
                });
            }
            954..958 if self.phase != Phase::Closing => self.push(message::close(self.last_sale)),
            _ => self.wrong(),
        }
        // Now and then more orders come in than the list has places for.
        if self.phase == Phase::Regular && self.prng.below(2_000) == 0 {
            for _ in 0..40 {
                self.entry();
            }
        }
    }

    /// The last messages of the file: a close that is accepted, and calls after it.
    fn closes(&mut self) {
        let price = self.last_sale;
        self.push(message::close(price + 5_000));
        for side in *b"BS" {
            self.number += 1;
            self.push(message::enter(b'D', side, self.number, price, 300_000));
        }
        while self.messages.len() < MESSAGES - 10 {
            self.time();
        }
        self.push(message::close(price));
        while self.messages.len() < MESSAGES {
            self.push(message::cancel(self.number));
        }
    }
}
