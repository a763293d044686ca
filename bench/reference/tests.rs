//! Hand-made files, each with the tape that the words ask for.

#[path = "../generate/message.rs"]
mod message;

use crate::run::Run;
use crate::sharing::Method;
use message::{Message, cancel, close, enter, file, publish, quote, reduce, sale, time};

const IMBALANCE: u32 = 56_700;
const FINAL: u32 = 57_480;
const CLOSING: u32 = 57_600;

/// The tape of a file that comes in pieces of a length.
fn tape_in_pieces(method: Method, bytes: &[u8], length: usize) -> String {
    let mut run = Run::new(method);
    for piece in bytes.chunks(length) {
        if !run.has_ended() {
            run.feed(piece);
        }
    }
    run.finish();
    String::from_utf8(run.tape().to_vec()).unwrap()
}

fn tape(method: Method, bytes: &[u8]) -> String {
    tape_in_pieces(method, bytes, bytes.len().max(1))
}

/// Asserts that each call of a life is answered as it says beside it: with nothing, or with the
/// tape's fields after the message's number.
fn assert_answers(calls: &[(Message, &str)]) {
    let messages: Vec<Message> = calls.iter().map(|&(message, _)| message).collect();
    let mut wanted = String::from("U 1\n");
    for (at, (_, answer)) in calls.iter().enumerate() {
        if let Some((sort, fields)) = answer.split_once(' ') {
            wanted += &format!("{sort} {} {fields}\n", at + 1);
        }
    }
    assert_eq!(tape(Method::Arrival, &file(&messages)), wanted);
}

fn example() -> Vec<Message> {
    vec![
        sale(1_999),
        sale(2_000),
        enter(b'M', b'B', 1, 0, 1_000),
        enter(b'M', b'S', 2, 0, 300).flagged(),
        enter(b'L', b'S', 3, 2_002, 500),
        enter(b'O', b'S', 4, 2_002, 400),
        cancel(9),
        time(CLOSING),
        close(2_001),
        close(2_002),
    ]
}

const EXAMPLE: &str = "R 7 3 10\nR 9 3 21\nP 2002 1000\n\
    F 1 B 1000 0\nF 2 S 300 0\nF 3 S 500 0\nF 4 S 200 200\n";

#[test]
fn the_example() {
    let bytes = file(&example());
    assert_eq!(tape(Method::Arrival, &bytes), format!("U 1\n{EXAMPLE}"));
    assert_eq!(tape(Method::Turns, &bytes), format!("U 100\n{EXAMPLE}"));
}

#[test]
fn pieces_of_any_length() {
    for length in 1..=40 {
        let bytes = file(&example());
        assert_eq!(
            tape_in_pieces(Method::Arrival, &bytes, length),
            format!("U 1\n{EXAMPLE}")
        );
    }
}

#[test]
fn headers() {
    for (bytes, wanted) in [
        (&b""[..], "R 0 1 1\n"),
        (b"C", "R 0 1 1\n"),
        (b"CL", "R 0 1 1\n"),
        (b"cLO\x00\x01", "R 0 1 1\n"),
        (b"CLX", "R 0 1 1\n"),
        (b"CLO", "R 0 1 2\n"),
        (b"CLO\x00", "R 0 1 2\n"),
        (b"CLO\x01", "R 0 1 2\n"),
        (b"CLO\x00\x02", "R 0 1 2\n"),
        (b"CLO\x00\x01", "U 1\n"),
        (b"CLO\x00\x01S", "U 1\nR 1 1 3\n"),
    ] {
        for length in 1..=6 {
            assert_eq!(tape_in_pieces(Method::Arrival, bytes, length), wanted);
        }
    }
}

/// A wrong byte of the header is refused before more has come, and each line when it is due.
#[test]
fn lines_when_they_are_due() {
    let mut run = Run::new(Method::Arrival);
    run.feed(b"CLO\x00");
    assert_eq!(run.tape(), b"");
    run.feed(b"\x01");
    assert_eq!(run.tape(), b"U 1\n");
    run.feed(&[b'Z'; 15]);
    assert_eq!(run.tape(), b"U 1\n");
    run.feed(b"Z");
    assert_eq!(run.tape(), b"U 1\nR 1 2 4\n");
    run.finish();
    assert_eq!(run.tape(), b"U 1\nR 1 2 4\n");

    let mut run = Run::new(Method::Arrival);
    run.feed(b"X");
    assert_eq!(run.tape(), b"R 0 1 1\n");
    assert!(run.has_ended());
}

#[test]
fn the_millionth_message_is_the_last() {
    let mut bytes = file(&vec![time(0); 1_000_000]);
    assert_eq!(tape(Method::Arrival, &bytes), "U 1\n");
    bytes.push(b'T');
    for length in [bytes.len(), 16, 65_536] {
        let tape = tape_in_pieces(Method::Arrival, &bytes, length);
        assert_eq!(tape, "U 1\nR 1000001 1 3\n");
    }
    bytes.extend([0; 200]);
    assert_eq!(tape(Method::Arrival, &bytes), "U 1\nR 1000001 1 3\n");
}

#[test]
fn messages_that_make_no_call() {
    let unknown = Message {
        verb: b'Z',
        kind: b'Z',
        ..sale(2_000)
    };
    assert_answers(&[
        (unknown, "R 2 4"),
        (
            Message {
                verb: 0,
                ..sale(2_000)
            },
            "R 2 4",
        ),
        (enter(b'm', b'B', 0, 0, 0), "R 2 5"),
        (enter(b'M', b'M', 0, 0, 0), "R 2 5"),
        (
            Message {
                flag: 2,
                ..enter(b'M', b'B', 0, 0, 0)
            },
            "R 2 5",
        ),
        (
            Message {
                flag: 2,
                price: 1,
                ..cancel(1)
            },
            "R 2 5",
        ),
        (
            Message {
                flag: 2,
                ..sale(2_000)
            },
            "R 2 6",
        ),
        (
            Message {
                flag: 1,
                ..sale(2_000)
            },
            "R 2 6",
        ),
        (
            Message {
                price: 1,
                ..cancel(1)
            },
            "R 2 6",
        ),
        (
            Message {
                quantity: 1,
                ..publish()
            },
            "R 2 6",
        ),
        (
            Message {
                side: b'B',
                ..reduce(1, 1)
            },
            "R 2 6",
        ),
        (
            Message {
                number: 1,
                ..close(0)
            },
            "R 2 6",
        ),
        (
            Message {
                number: 1,
                ..quote(2, 1)
            },
            "R 2 6",
        ),
        (
            Message {
                price: 1,
                ..time(0)
            },
            "R 2 6",
        ),
    ]);
}

#[test]
fn questions_come_in_rising_order() {
    assert_answers(&[
        (publish(), "R 3 16"),
        (sale(2_000), ""),
        (publish(), "R 3 18"),
        (enter(b'B', b'S', 1, 2_000, 500), ""),
        (enter(b'B', b'S', 1, 2_000, 0), "R 3 8"),
        (enter(b'B', b'S', 1, 2_000, 100), "R 3 13"),
        (cancel(0), "R 3 8"),
        (cancel(2), "R 3 10"),
        (reduce(2, 0), "R 3 8"),
        (reduce(2, 1), "R 3 10"),
        (reduce(1, 500), "R 3 15"),
        (close(0), "R 3 8"),
        (close(2_000), "R 3 11"),
        (enter(b'O', b'B', 2, 2_000, 100), ""),
        (time(IMBALANCE), ""),
        (time(86_400), "R 3 8"),
        (time(0), "R 3 9"),
        // No notice stands, and the number is listed.
        (enter(b'M', b'B', 1, 0, 100), "R 3 12"),
        (reduce(2, 100), "R 3 11"),
        (reduce(2, 100).flagged(), "R 3 15"),
        (publish(), "R 3 18"),
        (time(FINAL), ""),
        (reduce(2, 1).flagged(), "R 3 11"),
        (time(CLOSING), ""),
        (sale(0), "R 3 8"),
        (sale(1), "R 3 11"),
        (quote(2, 1), "R 3 8"),
        (quote(1, 2), "R 3 11"),
        (publish(), "R 3 11"),
        (enter(b'M', b'B', 1, 0, 100), "R 3 11"),
        (enter(b'C', b'B', 1, 0, 100), "R 3 13"),
        (cancel(3), "R 3 10"),
        (cancel(1), "R 3 11"),
        (enter(b'C', b'B', 3, 0, 501), ""),
        (close(2_000), "R 3 21"),
        (reduce(3, 500), ""),
    ]);
}

#[test]
fn a_close_without_a_sale() {
    assert_answers(&[
        (enter(b'M', b'B', 1, 0, 100), ""),
        (time(CLOSING), ""),
        (close(2_000), "R 3 16"),
    ]);
}

/// The book and the fills that the README shows.
#[test]
fn the_sample_book() {
    let bytes = file(&[
        sale(1_999),
        sale(2_000),
        enter(b'M', b'B', 1, 0, 1_000),
        enter(b'M', b'S', 2, 0, 300).flagged(),
        enter(b'L', b'S', 3, 2_002, 500),
        enter(b'O', b'S', 4, 2_002, 400),
        enter(b'B', b'B', 5, 2_001, 200),
        enter(b'G', b'S', 6, 0, 250),
        enter(b'B', b'S', 7, 2_001, 500),
        enter(b'D', b'B', 8, 2_003, 750),
        enter(b'O', b'S', 9, 2_001, 200),
        enter(b'S', b'B', 10, 2_004, 400),
        time(CLOSING),
        close(2_002),
    ]);
    let fills = |lot: u32, fourth: &str, ninth: &str| {
        format!(
            "U {lot}\nP 2002 1750\nF 1 B 1000 0\nF 2 S 300 0\nF 3 S 500 0\nF 4 S {fourth}\n\
             F 5 B 0 200\nF 6 S 250 0\nF 7 S 500 0\nF 8 B 750 0\nF 9 S {ninth}\nF 10 B 0 400\n"
        )
    };
    assert_eq!(tape(Method::Arrival, &bytes), fills(1, "200 200", "0 200"));
    assert_eq!(
        tape(Method::Turns, &bytes),
        fills(100, "100 300", "100 100")
    );
}

/// The calls of the sample day, and what it answers.
#[test]
fn the_sample_day() {
    let bytes = file(&[
        time(34_200),
        sale(2_000),
        sale(2_000),
        sale(1_998),
        quote(1_999, 2_001),
        quote(2_001, 2_001),
        time(39_600),
        enter(b'M', b'B', 1, 0, 40_000),
        enter(b'M', b'B', 2, 0, 15_050),
        enter(b'L', b'S', 3, 1_998, 6_000),
        enter(b'B', b'B', 4, 1_999, 2_000),
        enter(b'D', b'S', 5, 2_000, 3_000),
        enter(b'O', b'S', 6, 2_000, 5_000),
        enter(b'S', b'B', 7, 2_002, 1_000),
        enter(b'M', b'B', 8, 2_000, 500),
        enter(b'L', b'S', 1, 2_000, 500),
        time(50_400),
        publish(),
        cancel(4),
        reduce(3, 4_500),
        reduce(3, 4_500),
        time(IMBALANCE),
        enter(b'M', b'S', 8, 0, 1_000),
        publish(),
        publish(),
        enter(b'L', b'S', 8, 2_000, 10_000),
        enter(b'L', b'B', 9, 2_000, 10_000),
        cancel(2),
        cancel(2).flagged(),
        time(FINAL),
        cancel(1).flagged(),
        time(57_000),
        close(2_000),
        time(CLOSING),
        sale(2_001),
        enter(b'C', b'S', 10, 0, 5_000),
        enter(b'D', b'S', 11, 2_001, 20_000),
        time(57_605),
        close(2_000),
        close(2_001),
        cancel(11),
    ]);
    let wanted = "U 1\nR 6 3 8\nR 15 3 8\nR 16 3 13\nN 18 49000 1999\nR 21 3 15\nR 23 3 12\n\
        N 24 50500 1999\nR 25 3 17\nR 27 3 12\nR 28 3 11\nR 31 3 11\nR 32 3 9\nR 33 3 11\n\
        R 35 3 11\nR 39 3 21\nP 2001 40000\nF 1 B 40000 0\nF 3 S 4500 0\nF 5 S 3000 0\n\
        F 6 S 0 5000\nF 7 B 0 1000\nF 8 S 10000 0\nF 10 S 5000 0\nF 11 S 17500 2500\nR 41 3 7\n";
    assert_eq!(tape(Method::Arrival, &bytes), wanted);
}
