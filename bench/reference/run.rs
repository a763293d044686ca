//! A run over one file, fed in pieces of any length: the bytes of the file go in, the lines of the
//! tape come out.

use std::io::Write;

use crate::file::{self, Fault, HEADER, MESSAGE, MESSAGES, NAME};
use crate::session::{Outcome, Question, Session};
use crate::sharing::Method;

/// Where a refusal comes from.
#[derive(Clone, Copy)]
enum Layer {
    File = 1,
    Message = 2,
    Session = 3,
}

pub struct Run {
    method: Method,
    session: Session,
    /// How many bytes of the header have come.
    header: usize,
    /// How many whole messages have come.
    messages: u32,
    /// The first bytes of a message that is not whole yet.
    begun: [u8; MESSAGE],
    held: usize,
    /// Whether a refusal of the file layer has ended the run.
    ended: bool,
    /// Lines that are due and not yet taken.
    tape: Vec<u8>,
}

impl Run {
    pub fn new(method: Method) -> Run {
        Run {
            method,
            session: Session::new(method),
            header: 0,
            messages: 0,
            begun: [0; MESSAGE],
            held: 0,
            ended: false,
            tape: Vec::new(),
        }
    }

    pub fn has_ended(&self) -> bool {
        self.ended
    }

    /// The lines that are due and were not taken before.
    pub fn tape(&self) -> &[u8] {
        &self.tape
    }

    /// Forgets the lines of `tape`.
    pub fn taken(&mut self) {
        self.tape.clear();
    }

    /// Takes the next bytes of the file.
    pub fn feed(&mut self, piece: &[u8]) {
        let rest = self.feed_header(piece);
        let rest = self.feed_begun(rest);
        if self.ended {
            return;
        }
        let (messages, cut) = rest.as_chunks::<MESSAGE>();
        for message in messages {
            if self.is_past_the_last() {
                return;
            }
            self.message(message);
        }
        if !cut.is_empty() {
            if self.is_past_the_last() {
                return;
            }
            self.begun[..cut.len()].copy_from_slice(cut);
            self.held = cut.len();
        }
    }

    /// The file has ended.
    pub fn finish(&mut self) {
        if self.ended {
            return;
        }
        if self.header < NAME {
            self.end(0, Fault::Name);
        } else if self.header < HEADER.len() {
            self.end(0, Fault::Version);
        } else if self.held > 0 {
            self.end(self.messages + 1, Fault::Cut);
        }
    }

    /// Takes what is missing of the header, and gives back what follows it.
    fn feed_header<'a>(&mut self, piece: &'a [u8]) -> &'a [u8] {
        let missing = &HEADER[self.header..];
        for (&byte, &wanted) in piece.iter().zip(missing) {
            if byte != wanted {
                let fault = if self.header < NAME {
                    Fault::Name
                } else {
                    Fault::Version
                };
                self.end(0, fault);
                return &[];
            }
            self.header += 1;
            if self.header == HEADER.len() {
                self.line(format_args!("U {}", self.method.lot()));
            }
        }
        &piece[missing.len().min(piece.len())..]
    }

    /// Takes what is missing of a message that an earlier piece began, and gives back what follows.
    fn feed_begun<'a>(&mut self, piece: &'a [u8]) -> &'a [u8] {
        if self.held == 0 {
            return piece;
        }
        let missing = (MESSAGE - self.held).min(piece.len());
        let (head, rest) = piece.split_at(missing);
        self.begun[self.held..self.held + missing].copy_from_slice(head);
        self.held += missing;
        if self.held == MESSAGE {
            self.held = 0;
            let message = self.begun;
            self.message(&message);
        }
        rest
    }

    /// Ends the run where a byte has come after the last message that a file may have.
    fn is_past_the_last(&mut self) -> bool {
        if self.messages == MESSAGES {
            self.end(MESSAGES + 1, Fault::Cut);
        }
        self.ended
    }

    /// A whole message has come.
    fn message(&mut self, bytes: &[u8; MESSAGE]) {
        self.messages += 1;
        match file::read_call(bytes) {
            Err(fault) => self.refuse(self.messages, Layer::Message, fault as u8),
            Ok(call) => {
                let answer = self.session.apply(call);
                self.answer(answer);
            }
        }
    }

    fn answer(&mut self, answer: Result<Outcome, Question>) {
        let message = self.messages;
        match answer {
            Ok(Outcome::Taken) => {}
            Ok(Outcome::Published(notice)) => {
                let (amount, reference) = (notice.amount, notice.reference_price);
                self.line(format_args!("N {message} {amount} {reference}"));
            }
            Ok(Outcome::Printed { price, volume }) => self.print(price, volume),
            Err(question) => self.refuse(message, Layer::Session, question as u8),
        }
    }

    /// The print, and a line for each order of the list.
    fn print(&mut self, price: u32, volume: u64) {
        self.line(format_args!("P {price} {volume}"));
        for order in self.session.orders() {
            let unfilled = order.size - order.filled;
            let (number, side, filled) = (order.number, order.side.letter(), order.filled);
            write_line(
                &mut self.tape,
                format_args!("F {number} {side} {filled} {unfilled}"),
            );
        }
    }

    fn refuse(&mut self, message: u32, layer: Layer, question: u8) {
        self.line(format_args!("R {message} {} {question}", layer as u8));
    }

    /// A refusal of the file layer, which ends the run.
    fn end(&mut self, message: u32, fault: Fault) {
        self.refuse(message, Layer::File, fault as u8);
        self.ended = true;
    }

    fn line(&mut self, text: std::fmt::Arguments) {
        write_line(&mut self.tape, text);
    }
}

fn write_line(tape: &mut Vec<u8>, text: std::fmt::Arguments) {
    // Writing into memory does not fail.
    let _ = tape.write_fmt(text);
    tape.push(b'\n');
}
