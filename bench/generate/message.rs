//! The messages of a file, and the bytes that they are written in.

pub const HEADER: [u8; 5] = *b"CLO\x00\x01";

/// A message that may hold anything, also what no file should.
#[derive(Clone, Copy, Default)]
pub struct Message {
    pub verb: u8,
    pub kind: u8,
    pub side: u8,
    pub flag: u8,
    pub number: u32,
    pub price: u32,
    pub quantity: u32,
}

impl Message {
    pub fn append_to(self, bytes: &mut Vec<u8>) {
        bytes.extend([self.verb, self.kind, self.side, self.flag]);
        for field in [self.number, self.price, self.quantity] {
            bytes.extend(field.to_be_bytes());
        }
    }
}

/// A file with a good header.
pub fn file(messages: &[Message]) -> Vec<u8> {
    let mut bytes = HEADER.to_vec();
    for message in messages {
        message.append_to(&mut bytes);
    }
    bytes
}

pub fn time(seconds: u32) -> Message {
    Message {
        verb: b'T',
        quantity: seconds,
        ..Message::default()
    }
}

pub fn sale(price: u32) -> Message {
    Message {
        verb: b'S',
        price,
        ..Message::default()
    }
}

pub fn quote(bid: u32, offer: u32) -> Message {
    Message {
        verb: b'Q',
        price: bid,
        quantity: offer,
        ..Message::default()
    }
}

pub fn enter(kind: u8, side: u8, number: u32, price: u32, size: u32) -> Message {
    Message {
        verb: b'E',
        kind,
        side,
        flag: 0,
        number,
        price,
        quantity: size,
    }
}

pub fn cancel(number: u32) -> Message {
    Message {
        verb: b'X',
        number,
        ..Message::default()
    }
}

pub fn reduce(number: u32, size: u32) -> Message {
    Message {
        verb: b'R',
        number,
        quantity: size,
        ..Message::default()
    }
}

pub fn publish() -> Message {
    Message {
        verb: b'P',
        ..Message::default()
    }
}

pub fn close(price: u32) -> Message {
    Message {
        verb: b'C',
        price,
        ..Message::default()
    }
}

impl Message {
    /// The same message with its flag set: a marked order, an order entered in error, a significant
    /// imbalance.
    pub fn flagged(self) -> Message {
        Message { flag: 1, ..self }
    }
}
