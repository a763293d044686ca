//! Small files for `crates/cases/data`. Each has a name that says what it shows. What a text of
//! `crates/cases/texts` says is not said here again.

use crate::message::{
    HEADER, Message, cancel, close, enter, file, publish, quote, reduce, sale, time,
};

const IMBALANCE: u32 = 56_700;
const FINAL: u32 = 57_480;
const CLOSING: u32 = 57_600;

pub fn all() -> Vec<(&'static str, Vec<u8>)> {
    vec![
        ("unknown_verbs", file(&unknown_verbs())),
        ("illegal_letters", file(&illegal_letters())),
        ("regular_day", file(&regular_day())),
        ("off_by_phase", file(&off_by_phase())),
        ("late_entries", file(&late_entries())),
        ("insignificant", file(&insignificant())),
        ("reference_price", file(&reference_price())),
        ("cut_class", file(&cut_class())),
        ("cut_offsets", file(&cut_offsets())),
        (
            "plus_tick",
            file(&marked_orders(&[1_999, 2_000, 2_000], 2_600)),
        ),
        (
            "minus_tick",
            file(&marked_orders(&[2_001, 2_000, 2_000], 1_500)),
        ),
        ("crowd_interest", file(&crowd_interest())),
        ("volume_zero", file(&volume_zero())),
        ("shifted", shifted()),
    ]
}

/// The letters of other fields, small letters and other bytes are no verbs. Question 4 comes before
/// 5 and 6.
fn unknown_verbs() -> Vec<Message> {
    let mut messages = vec![sale(2_000)];
    for verb in *b"\0ABMZtse\xff" {
        messages.push(Message {
            verb,
            ..enter(b'Z', b'Z', 1, 2_000, 100)
        });
    }
    messages.push(Message {
        verb: b'Z',
        ..sale(2_000)
    });
    messages
}

/// An illegal kind, side or flag, in each verb that uses one. Question 5 comes before 6, and before
/// those of the session.
fn illegal_letters() -> Vec<Message> {
    let mut messages = Vec::new();
    for kind in *b"\0mAETZ" {
        messages.push(enter(kind, b'B', 1, 2_000, 100));
    }
    for side in *b"\0bsM\x01" {
        messages.push(enter(b'L', side, 1, 2_000, 100));
    }
    for flag in [2, b'0', b'1', 255] {
        messages.push(Message {
            flag,
            ..enter(b'L', b'B', 1, 2_000, 100)
        });
    }
    for flag in [2, 255] {
        messages.push(Message { flag, ..cancel(1) });
        messages.push(Message {
            flag,
            ..reduce(1, 100)
        });
        messages.push(Message { flag, ..publish() });
    }
    messages.push(Message {
        flag: 2,
        price: 1,
        ..cancel(1)
    });
    messages.push(enter(b'Z', b'B', 0, 0, 0));
    messages
}

/// Calls of the regular phase: repeated and unlisted numbers (13, 10), a close that comes too early
/// (11), reductions (15), a publication without a sale (16), of nothing (18), and of an imbalance.
/// The lines of the close show which orders are listed, with which sizes, and in which order.
fn regular_day() -> Vec<Message> {
    vec![
        time(34_200),
        publish(),
        enter(b'M', b'B', 7, 0, 500),
        enter(b'L', b'S', 7, 2_000, 100),
        enter(b'L', b'S', 5, 2_000, 150),
        enter(b'B', b'S', 6, 2_000, 300),
        enter(b'C', b'S', 8, 0, 50),
        sale(2_000),
        close(2_000),
        cancel(9),
        reduce(9, 100),
        reduce(6, 300),
        reduce(6, 301),
        reduce(6, 299),
        reduce(6, 299),
        publish(),
        cancel(7),
        publish(),
        cancel(7),
        enter(b'M', b'B', 7, 0, 450),
        enter(b'L', b'B', 9, 2_000, 450),
        reduce(5, 149),
        publish(),
        time(CLOSING),
        close(2_000),
    ]
}

/// Which orders are reduced and cancelled in which phase, with and without the error flag.
fn off_by_phase() -> Vec<Message> {
    let mut messages = vec![
        sale(2_000),
        enter(b'L', b'B', 1, 2_000, 1_000),
        enter(b'O', b'B', 2, 2_000, 1_000),
        enter(b'G', b'B', 3, 0, 1_000),
        enter(b'C', b'B', 4, 0, 1_000),
    ];
    for (begin, size) in [(IMBALANCE, 900), (FINAL, 800), (CLOSING, 700)] {
        messages.push(time(begin));
        for number in 1..=4 {
            messages.push(reduce(number, size + 50));
            messages.push(reduce(number, size).flagged());
        }
    }
    messages.extend([
        cancel(1).flagged(),
        cancel(3).flagged(),
        cancel(4),
        enter(b'C', b'S', 5, 0, 2_000),
        enter(b'D', b'S', 6, 2_000, 5_000),
        enter(b'O', b'S', 7, 2_000, 5_000),
        enter(b'M', b'S', 8, 0, 5_000),
        close(2_000),
    ]);
    messages
}

/// M and L from 15:45 on: without a notice and against one (12), when no notice before 15:45
/// counts; and a second mandatory notice (17).
fn late_entries() -> Vec<Message> {
    vec![
        sale(2_000),
        enter(b'M', b'B', 1, 0, 60_000),
        publish(),
        time(IMBALANCE - 1),
        enter(b'L', b'B', 2, 2_000, 100),
        time(IMBALANCE),
        enter(b'M', b'S', 3, 0, 100),
        enter(b'O', b'S', 4, 2_000, 100),
        publish(),
        enter(b'M', b'S', 3, 0, 100),
        enter(b'L', b'S', 5, 2_000, 100),
        enter(b'L', b'B', 6, 2_000, 100),
        enter(b'M', b'B', 7, 0, 100).flagged(),
        enter(b'M', b'S', 3, 0, 100),
        publish(),
        publish().flagged(),
        time(FINAL),
        enter(b'L', b'S', 8, 2_001, 100).flagged(),
        enter(b'L', b'B', 9, 2_001, 100),
        enter(b'G', b'B', 9, 0, 100),
        publish().flagged(),
        time(CLOSING - 1),
        sale(2_001),
        quote(2_000, 2_002),
        enter(b'S', b'S', 10, 2_005, 100),
        time(CLOSING),
        sale(2_000),
        quote(0, 0),
        publish(),
        enter(b'M', b'S', 11, 0, 100),
        enter(b'L', b'S', 11, 2_000, 100),
        enter(b'O', b'S', 11, 2_000, 100),
        enter(b'D', b'S', 11, 2_000, 60_000),
        close(2_000),
    ]
}

/// When an imbalance from 15:45 on is significant (18): at 50,000 either way or with the flag, and
/// never at 0. Sizes count in whole hundreds.
fn insignificant() -> Vec<Message> {
    vec![
        sale(2_000),
        enter(b'M', b'S', 1, 0, 99),
        publish(),
        enter(b'M', b'S', 2, 0, 199),
        publish(),
        enter(b'M', b'S', 3, 0, 50_000),
        enter(b'L', b'B', 4, 2_001, 150),
        enter(b'L', b'B', 5, 1_999, 900),
        publish(),
        enter(b'L', b'B', 6, 2_000, 100),
        publish(),
        enter(b'M', b'B', 7, 0, 70_000),
        enter(b'L', b'S', 8, 2_000, 90_000),
        time(IMBALANCE),
        publish(),
        publish().flagged(),
        cancel(8).flagged(),
        reduce(3, 20_199).flagged(),
        publish(),
        reduce(3, 19_999).flagged(),
        reduce(7, 69_999).flagged(),
        publish(),
        reduce(1, 1).flagged(),
        reduce(3, 19_000).flagged(),
        cancel(2).flagged(),
        publish(),
        enter(b'L', b'S', 9, 2_000, 500),
    ]
}

/// The reference price below, within and above the quote, with bid or offer absent.
fn reference_price() -> Vec<Message> {
    let mut messages = vec![sale(2_000), enter(b'M', b'S', 1, 0, 1_000)];
    for (bid, offer) in [
        (0, 0),
        (2_001, 2_005),
        (2_001, 0),
        (1_990, 1_995),
        (0, 1_995),
        (1_999, 2_001),
        (2_000, 2_001),
        (1_999, 2_000),
        (0, 2_000),
        (2_000, 0),
    ] {
        messages.push(quote(bid, offer));
        messages.push(publish());
    }
    messages
}

/// Limits on close at the price are cut, so the two methods fill them differently. Orders of every
/// class stand beside them.
fn cut_class() -> Vec<Message> {
    vec![
        sale(1_999),
        sale(2_000),
        enter(b'L', b'B', 1, 2_000, 700),
        enter(b'M', b'S', 2, 0, 1_000),
        enter(b'L', b'B', 3, 2_000, 40),
        enter(b'L', b'B', 4, 2_000, 350),
        enter(b'B', b'B', 5, 2_000, 100),
        enter(b'D', b'B', 6, 2_003, 150),
        enter(b'G', b'B', 7, 0, 100),
        enter(b'S', b'B', 8, 2_000, 50),
        enter(b'S', b'B', 9, 2_001, 50),
        enter(b'L', b'B', 10, 2_000, 500),
        enter(b'L', b'B', 11, 1_999, 500),
        enter(b'M', b'B', 12, 0, 60).flagged(),
        enter(b'O', b'S', 13, 2_000, 215),
        enter(b'C', b'S', 14, 0, 30),
        time(CLOSING),
        close(2_000),
    ]
}

/// Offsets on the lighter side are cut; those on the heavier side get nothing. The first ten orders
/// are the sample book of the README.
fn cut_offsets() -> Vec<Message> {
    vec![
        sale(1_999),
        sale(2_000),
        enter(b'M', b'B', 1, 0, 1_000),
        enter(b'M', b'S', 2, 0, 300).flagged(),
        enter(b'L', b'S', 3, 2_002, 500),
        enter(b'O', b'S', 4, 2_002, 400),
        enter(b'B', b'B', 5, 2_001, 200),
        enter(b'G', b'S', 6, 0, 250),
        enter(b'B', b'S', 7, 2_001, 500),
        enter(b'D', b'B', 8, 2_003, 750),
        enter(b'O', b'S', 9, 2_001, 200),
        enter(b'S', b'B', 10, 2_004, 400),
        enter(b'O', b'B', 11, 2_002, 300),
        time(CLOSING),
        close(2_002),
    ]
}

/// Marked orders about their bounds after these sales, two publications, and a close at 2000 that
/// cuts the marked orders at the price.
fn marked_orders(sales: &[u32], maker: u32) -> Vec<Message> {
    let mut messages: Vec<Message> = sales.iter().map(|&price| sale(price)).collect();
    messages.extend([
        enter(b'M', b'S', 1, 0, 100).flagged(),
        enter(b'M', b'B', 2, 0, 200).flagged(),
        enter(b'L', b'S', 3, 1_999, 300).flagged(),
        enter(b'L', b'S', 4, 2_001, 400).flagged(),
        enter(b'L', b'B', 5, 2_001, 500).flagged(),
        enter(b'L', b'B', 6, 1_999, 600).flagged(),
        enter(b'L', b'B', 7, 2_000, 700).flagged(),
        enter(b'L', b'S', 8, 2_000, 800).flagged(),
        enter(b'M', b'B', 9, 0, 1_000),
        publish(),
        cancel(9),
        enter(b'M', b'S', 9, 0, 2_000),
        publish(),
        enter(b'D', b'B', 10, 2_000, maker),
        time(CLOSING),
        close(2_000),
    ]);
    messages
}

/// Class 0 of one side has no other side to trade with (21), until crowd interest comes in. After
/// the close every call is refused as done (7), whatever else is wrong with it; a message that makes
/// no call is refused for that.
fn crowd_interest() -> Vec<Message> {
    vec![
        sale(2_000),
        enter(b'M', b'B', 1, 0, 300),
        enter(b'B', b'S', 2, 2_001, 200),
        time(CLOSING),
        close(2_000),
        close(2_001),
        enter(b'C', b'S', 3, 0, 99),
        close(2_001),
        enter(b'C', b'S', 4, 0, 1),
        close(2_000),
        close(2_001),
        close(2_001),
        time(0),
        sale(0),
        quote(2, 1),
        enter(b'M', b'B', 1, 0, 0),
        cancel(0),
        reduce(1, 1),
        publish(),
        enter(b'Z', b'B', 1, 0, 0),
        Message {
            verb: 0,
            ..Message::default()
        },
    ]
}

/// A close at which nobody trades: neither side weighs anything, so no offset is eligible.
fn volume_zero() -> Vec<Message> {
    vec![
        sale(2_000),
        enter(b'O', b'B', 1, 2_000, 300),
        enter(b'O', b'S', 2, 1_999, 300),
        enter(b'B', b'S', 3, 2_001, 200),
        enter(b'S', b'S', 4, 1_999, 200),
        time(86_399),
        close(2_000),
    ]
}

/// One byte is missing in the second message, so all that follows is read one byte too early.
fn shifted() -> Vec<u8> {
    let mut bytes = file(&cut_class());
    bytes.remove(HEADER.len() + 20);
    bytes
}
