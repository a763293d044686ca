//! Random files: days with few numbers and near prices, so that calls meet each other, and damaged
//! ones.

use crate::message::{self, HEADER, Message};
use crate::prng::Prng;

/// How many bytes a message has.
const LENGTH: usize = 16;

const MAX_PRICE: u32 = 9_999_999;
const MAX_SIZE: u32 = 10_000_000;

/// The times at which the phases begin.
const IMBALANCE: u32 = 56_700;
const FINAL: u32 = 57_480;
const CLOSING: u32 = 57_600;
const MAX_TIME: u32 = 86_399;

/// Numbers at which fields and sums go wrong.
const EDGES: [u32; 12] = [
    0,
    1,
    99,
    100,
    MAX_TIME + 1,
    MAX_PRICE,
    MAX_PRICE + 1,
    MAX_SIZE,
    MAX_SIZE + 1,
    0x7fff_ffff,
    0x8000_0000,
    u32::MAX,
];

pub fn file(seed: u64) -> Vec<u8> {
    let mut prng = Prng::new(seed);
    let shape = prng.below(100);
    let mut bytes = match shape {
        0 => Vec::new(),
        1..5 => wrong_header(&mut prng),
        5..8 => noise(&mut prng),
        8..11 => Day::new(prng.next()).crowded(),
        11..14 => Day::new(prng.next()).announced(),
        14..19 => Day::new(prng.next()).sparse(),
        _ => Day::new(prng.next()).usual(),
    };
    if shape >= 5 && prng.chance(30) {
        for _ in 0..prng.between(1, 3) {
            damage(&mut prng, &mut bytes);
        }
    }
    bytes
}

/// A day whose header is cut or has a wrong byte.
fn wrong_header(prng: &mut Prng) -> Vec<u8> {
    let mut bytes = Day::new(prng.next()).sparse();
    let at = prng.below(HEADER.len() as u32) as usize;
    if prng.chance(50) {
        bytes.truncate(at);
    } else {
        bytes[at] ^= 1 << prng.below(8);
    }
    bytes
}

/// A good header, and messages that are put together without regard to the rule.
fn noise(prng: &mut Prng) -> Vec<u8> {
    let mut bytes = HEADER.to_vec();
    for _ in 0..prng.between(1, 60) {
        let message = Message {
            verb: prng.pick(b"TSQEXRPCZ"),
            kind: prng.pick(b"\0\0\0MCLBDOGSx"),
            side: prng.pick(b"\0\0BSb"),
            flag: prng.pick(&[0, 0, 1, 2, 255]),
            number: prng.pick(&[0, 0, 1, 2]),
            price: prng.pick(&[0, 0, 1, 2_000, MAX_PRICE, u32::MAX]),
            quantity: prng.pick(&[0, 0, 100, CLOSING, MAX_SIZE, u32::MAX]),
        };
        message.append_to(&mut bytes);
    }
    bytes
}

/// One change of the bytes.
fn damage(prng: &mut Prng, bytes: &mut Vec<u8>) {
    let length = bytes.len();
    if length == 0 {
        return;
    }
    let at = prng.below(length as u32) as usize;
    // The first byte of some message.
    let messages = length.saturating_sub(HEADER.len()) / LENGTH;
    let first = HEADER.len() + LENGTH * prng.below(messages.max(1) as u32) as usize;
    match prng.below(12) {
        0..3 => bytes[at] ^= 1 << prng.below(8),
        3 => bytes[at] = prng.next() as u8,
        4..6 => bytes.truncate(at),
        6 => {
            bytes.remove(at);
        }
        7 => bytes.insert(at, prng.next() as u8),
        8 => bytes.extend(std::iter::repeat_n(
            prng.next() as u8,
            prng.between(1, 20) as usize,
        )),
        // An unknown verb, an illegal letter or flag, an unused field that is not 0.
        9..11 if first + 4 <= length => {
            bytes[first + prng.below(4) as usize] = prng.pick(b"\x00\x01\x02MLBSxZ\xff");
        }
        _ if first + LENGTH <= length => {
            let field = first + 4 * prng.between(1, 3) as usize;
            bytes[field..field + 4].copy_from_slice(&prng.pick(&EDGES).to_be_bytes());
        }
        _ => {}
    }
}

#[derive(Clone, Copy)]
enum Sizes {
    /// Multiples of 100.
    Round,
    /// Any number of shares.
    Odd,
    /// A few shares.
    Small,
    /// Sizes at which an imbalance becomes significant.
    Block,
    /// Up to the limit of a size.
    Huge,
}

struct Day {
    prng: Prng,
    messages: Vec<Message>,
    /// The price around which the day moves, and how far it goes from there.
    middle: u32,
    spread: u32,
    sizes: Sizes,
    /// Orders have numbers from 1 to this one, but for some that are fresh.
    numbers: u32,
    fresh: u32,
    /// How many of a hundred M and L are marked, and how many messages hold something wrong.
    marks: u32,
    wrong: u32,
    time: u32,
}

impl Day {
    fn new(seed: u64) -> Day {
        let mut prng = Prng::new(seed);
        let middle = prng.weigh(&[(88, 2_000), (4, 2), (4, MAX_PRICE - 1), (4, 50)]);
        let sizes = prng.weigh(&[
            (40, Sizes::Round),
            (20, Sizes::Odd),
            (10, Sizes::Small),
            (22, Sizes::Block),
            (8, Sizes::Huge),
        ]);
        Day {
            messages: Vec::new(),
            middle,
            spread: prng.between(0, 4),
            sizes,
            numbers: prng.between(3, 40),
            fresh: 0,
            marks: prng.pick(&[0, 20, 60]),
            wrong: prng.pick(&[0, 1, 6]),
            time: 0,
            prng,
        }
    }

    /// A day through all its phases, up to a close.
    fn usual(mut self) -> Vec<u8> {
        self.opening();
        let orders = self.prng.between(2, 50);
        self.regular(orders);
        self.late();
        self.closing();
        message::file(&self.messages)
    }

    /// A day of few orders, which may print no shares.
    fn sparse(mut self) -> Vec<u8> {
        self.opening();
        let orders = self.prng.below(4);
        self.regular(orders);
        self.closing();
        message::file(&self.messages)
    }

    /// A day with more orders than the list has places.
    fn crowded(mut self) -> Vec<u8> {
        self.opening();
        self.numbers = 3_000;
        for _ in 0..self.prng.between(1_000, 1_300) {
            let ticket = self.ticket();
            self.push(ticket);
        }
        self.regular(20);
        self.late();
        self.closing();
        message::file(&self.messages)
    }

    /// A day with more publications than the notice list has places.
    fn announced(mut self) -> Vec<u8> {
        self.opening();
        let sale = message::sale(self.middle);
        self.push(sale);
        let size = self.size().max(100);
        let side = self.prng.pick(b"BS");
        let number = self.number();
        self.push(message::enter(b'M', side, number, 0, size));
        for _ in 0..self.prng.between(55, 75) {
            let publication = self.publication();
            self.push(publication);
            if self.prng.chance(5) {
                self.regular(1);
            }
        }
        self.regular(10);
        self.late();
        self.closing();
        message::file(&self.messages)
    }

    /// Adds a message; some are made wrong.
    fn push(&mut self, mut message: Message) {
        if self.prng.chance(self.wrong) {
            match self.prng.below(8) {
                0 => message.verb = self.prng.pick(b"\0tsqexrpcAZ\xff"),
                1 => message.kind = self.prng.pick(b"\0mAZBSMCLDOG\xff"),
                2 => message.side = self.prng.pick(b"\0bsMBSZ\xff"),
                3 => message.flag = self.prng.pick(&[1, 2, b'0', b'1', 255]),
                4 | 5 => message.number = self.prng.pick(&EDGES),
                6 => message.price = self.prng.pick(&EDGES),
                _ => message.quantity = self.prng.pick(&EDGES),
            }
        }
        self.messages.push(message);
    }

    fn price(&mut self) -> u32 {
        let lowest = self.middle.saturating_sub(self.spread).max(1);
        let highest = (self.middle + self.spread).min(MAX_PRICE);
        self.prng.between(lowest, highest)
    }

    fn size(&mut self) -> u32 {
        match self.sizes {
            Sizes::Round => 100 * self.prng.between(1, 30),
            Sizes::Odd => self.prng.between(1, 3_000),
            Sizes::Small => self.prng.between(1, 20),
            Sizes::Block => self.prng.pick(&[
                100, 10_000, 20_000, 25_000, 30_000, 49_900, 49_999, 50_000, 50_050, 50_099, 50_100,
            ]),
            Sizes::Huge => match self.prng.below(4) {
                0 => MAX_SIZE,
                1 => MAX_SIZE - self.prng.below(200),
                2 => self.prng.between(1, MAX_SIZE),
                _ => self.prng.between(1, 1_000),
            },
        }
    }

    fn number(&mut self) -> u32 {
        if self.prng.chance(75) {
            self.fresh += 1;
            self.fresh
        } else {
            self.prng.between(1, self.numbers)
        }
    }

    /// A number that was likely entered.
    fn old_number(&mut self) -> u32 {
        if self.fresh > 0 && self.prng.chance(85) {
            self.prng.between(1, self.fresh)
        } else {
            self.prng.between(1, self.numbers)
        }
    }

    fn flagged(&mut self, percent: u32, message: Message) -> Message {
        if self.prng.chance(percent) {
            message.flagged()
        } else {
            message
        }
    }

    fn ticket(&mut self) -> Message {
        let kind = self.prng.pick(b"MMMMCLLLLLBBBDDOOOGGS");
        self.ticket_of(kind)
    }

    fn ticket_of(&mut self, kind: u8) -> Message {
        let side = self.prng.pick(b"BS");
        let price = match kind {
            b'M' | b'C' => 0,
            b'G' if self.prng.chance(40) => 0,
            _ => self.price(),
        };
        let (number, size) = (self.number(), self.size());
        let ticket = message::enter(kind, side, number, price, size);
        match kind {
            b'M' | b'L' => self.flagged(self.marks, ticket),
            _ => ticket,
        }
    }

    fn cancellation(&mut self) -> Message {
        let number = self.old_number();
        self.flagged(40, message::cancel(number))
    }

    fn reduction(&mut self) -> Message {
        let (number, size) = (self.old_number(), self.size());
        self.flagged(40, message::reduce(number, size))
    }

    fn publication(&mut self) -> Message {
        self.flagged(50, message::publish())
    }

    fn sale(&mut self) -> Message {
        message::sale(self.price())
    }

    /// A quote about the price; bid or offer may be absent, and some quotes are crossed or locked.
    fn quote(&mut self) -> Message {
        let (mut bid, mut offer) = (self.price(), self.price());
        if bid > offer && self.prng.chance(80) {
            (bid, offer) = (offer, bid);
        }
        match self.prng.below(8) {
            0 => bid = 0,
            1 => offer = 0,
            2 => (bid, offer) = (0, 0),
            _ => {}
        }
        message::quote(bid, offer)
    }

    /// Moves the clock to the phase that begins at `begin`, at its first second or somewhat later.
    fn move_to(&mut self, begin: u32, end: u32) {
        // The last second of the phase before.
        if self.prng.chance(20) && begin > self.time {
            self.push(message::time(begin - 1));
            if self.prng.chance(50) {
                self.regular(1);
            }
        }
        self.time = if self.prng.chance(50) {
            begin
        } else {
            self.prng.between(begin, end - 1)
        };
        self.push(message::time(self.time));
    }

    /// A time that is equal, later, earlier or beyond the day.
    fn time(&mut self) -> Message {
        let seconds = match self.prng.below(6) {
            0 => self.time,
            1 => self.time.saturating_sub(self.prng.between(1, 5)),
            2 => MAX_TIME + 1,
            _ => {
                self.time += self.prng.below(10);
                self.time
            }
        };
        message::time(seconds)
    }

    fn opening(&mut self) {
        if self.prng.chance(70) {
            self.time = self.prng.between(0, 50_000);
            self.push(message::time(self.time));
        }
        if self.prng.chance(94) {
            let sale = self.sale();
            self.push(sale);
            if self.prng.chance(60) {
                let sale = self.sale();
                self.push(sale);
            }
        }
        if self.prng.chance(50) {
            let quote = self.quote();
            self.push(quote);
        }
    }

    /// Calls that mostly make orders.
    fn regular(&mut self, calls: u32) {
        for _ in 0..calls {
            let call = match self.prng.below(100) {
                0..62 => self.ticket(),
                62..70 => self.sale(),
                70..75 => self.quote(),
                75..82 => self.cancellation(),
                82..91 => self.reduction(),
                91..95 => self.publication(),
                95..98 => self.time(),
                _ => message::close(self.price()),
            };
            self.push(call);
        }
    }

    /// The phases from 15:45 to 16:00: publications, and entries that want a notice.
    fn late(&mut self) {
        for (begin, end) in [(IMBALANCE, FINAL), (FINAL, CLOSING)] {
            if self.prng.chance(25) {
                continue;
            }
            self.move_to(begin, end);
            if self.prng.chance(60) {
                let publication = self.flagged(60, message::publish());
                self.push(publication);
            }
            for _ in 0..self.prng.below(14) {
                let call = match self.prng.below(100) {
                    0..35 => {
                        let kind = self.prng.pick(b"ML");
                        self.ticket_of(kind)
                    }
                    35..50 => self.ticket(),
                    50..65 => self.cancellation(),
                    65..78 => self.reduction(),
                    78..90 => self.publication(),
                    90..94 => self.sale(),
                    94..96 => self.quote(),
                    96..98 => self.time(),
                    _ => message::close(self.price()),
                };
                self.push(call);
            }
        }
    }

    /// The phase from 16:00 on: closes at several prices. Between them the market maker comes in on
    /// both sides, and crowd interest on one, so that a price becomes fillable.
    fn closing(&mut self) {
        if self.prng.chance(5) {
            return;
        }
        self.move_to(CLOSING, MAX_TIME + 1);
        for _ in 0..self.prng.below(6) {
            let call = match self.prng.below(10) {
                0..3 => self.ticket(),
                3 => self.cancellation(),
                4 => self.reduction(),
                5 => self.publication(),
                6 => self.sale(),
                7 => self.quote(),
                8 => self.time(),
                _ => self.ticket_of(b'C'),
            };
            self.push(call);
        }
        for _ in 0..self.prng.between(1, 4) {
            let price = self.price();
            self.push(message::close(price));
            if self.prng.chance(30) {
                let crowd = self.ticket_of(b'C');
                self.push(crowd);
            }
            let most = self
                .messages
                .iter()
                .filter(|call| call.verb == b'E')
                .count() as u32
                + 1;
            for side in *b"BS" {
                let size = self
                    .size()
                    .saturating_mul(self.prng.between(1, most))
                    .min(MAX_SIZE);
                self.fresh += 1;
                self.push(message::enter(b'D', side, self.fresh + 5_000, price, size));
            }
            self.push(message::close(price));
        }
        // After a close that was accepted all of these are refused as done.
        for _ in 0..self.prng.below(3) {
            let call = self.ticket();
            self.push(call);
        }
    }
}
