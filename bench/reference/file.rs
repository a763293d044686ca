//! The file format: a header and 16-byte messages, each of them one call.

use crate::rule::{Kind, Order, Quote, Side};
use crate::session::Call;

/// The bytes CLO, and version 1 in two bytes.
pub const HEADER: [u8; 5] = [b'C', b'L', b'O', 0, 1];

/// How many of the header's bytes name the format; the rest is the version.
pub const NAME: usize = 3;

pub const MESSAGE: usize = 16;

/// The most messages that a file may have.
pub const MESSAGES: u32 = 1_000_000;

/// The questions about the file (1 to 3) and about one message (4 to 6), by their numbers.
#[derive(Clone, Copy, PartialEq, Eq)]
pub enum Fault {
    Name = 1,
    Version = 2,
    Cut = 3,
    Verb = 4,
    Letters = 5,
    Unused = 6,
}

/// The fields of a message.
struct Message {
    verb: u8,
    kind: u8,
    side: u8,
    flag: u8,
    number: u32,
    price: u32,
    quantity: u32,
}

fn word(bytes: &[u8; MESSAGE], at: usize) -> u32 {
    u32::from_be_bytes([bytes[at], bytes[at + 1], bytes[at + 2], bytes[at + 3]])
}

impl Message {
    fn new(bytes: &[u8; MESSAGE]) -> Message {
        Message {
            verb: bytes[0],
            kind: bytes[1],
            side: bytes[2],
            flag: bytes[3],
            number: word(bytes, 4),
            price: word(bytes, 8),
            quantity: word(bytes, 12),
        }
    }

    /// The flag as a truth value, where it is legal.
    fn flag(&self) -> Result<bool, Fault> {
        match self.flag {
            0 => Ok(false),
            1 => Ok(true),
            _ => Err(Fault::Letters),
        }
    }
}

/// Question 6: are all the unused fields 0?
fn unused(fields: &[u32]) -> Result<(), Fault> {
    if fields.iter().all(|&field| field == 0) {
        Ok(())
    } else {
        Err(Fault::Unused)
    }
}

/// The call that a message makes, or the first of questions 4 to 6 that is answered no.
pub fn read_call(bytes: &[u8; MESSAGE]) -> Result<Call, Fault> {
    let message = Message::new(bytes);
    let Message {
        number,
        price,
        quantity,
        ..
    } = message;
    let [kind, side, flag] = [message.kind, message.side, message.flag].map(u32::from);
    match message.verb {
        b'T' => {
            unused(&[kind, side, flag, number, price])?;
            Ok(Call::Time(quantity))
        }
        b'S' => {
            unused(&[kind, side, flag, number, quantity])?;
            Ok(Call::Sale(price))
        }
        b'Q' => {
            unused(&[kind, side, flag, number])?;
            Ok(Call::Quote(Quote {
                bid: price,
                offer: quantity,
            }))
        }
        b'E' => {
            let kind = Kind::from_letter(message.kind).ok_or(Fault::Letters)?;
            let side = Side::from_letter(message.side).ok_or(Fault::Letters)?;
            let marked = message.flag()?;
            Ok(Call::Entry(Order {
                number,
                price,
                size: quantity,
                filled: 0,
                kind,
                side,
                marked,
            }))
        }
        b'X' => {
            let in_error = message.flag()?;
            unused(&[kind, side, price, quantity])?;
            Ok(Call::Cancel { number, in_error })
        }
        b'R' => {
            let in_error = message.flag()?;
            unused(&[kind, side, price])?;
            Ok(Call::Reduction {
                number,
                in_error,
                size: quantity,
            })
        }
        b'P' => {
            let significant = message.flag()?;
            unused(&[kind, side, number, price, quantity])?;
            Ok(Call::Publication { significant })
        }
        b'C' => {
            unused(&[kind, side, flag, number, quantity])?;
            Ok(Call::Close { price })
        }
        _ => Err(Fault::Verb),
    }
}
