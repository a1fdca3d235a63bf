//! Decimal digits: written into a lent buffer, counted, and read back.

use super::{Group, Run};
use crate::subject::{RULES, Written};
use crate::tally::Answers;
use crate::{oracle, reading};
use std::fmt;

pub const WRITTEN: Group = Group {
    name: "decimal: written, with the bytes around",
    run: |run| each_value(run, check_written),
};

pub const LENGTHS: Group = Group {
    name: "decimal: lengths",
    run: |run| each_value(run, check_length),
};

pub const READ_BACK: Group = Group {
    name: "decimal: read back by both rules",
    run: |run| each_value(run, check_read_back),
};

/// More than 20 digits, the highest place and what a buffer has behind them.
const ROOM: usize = 32;

/// The bytes of a buffer, shown as a text.
#[derive(PartialEq)]
struct Buffer([u8; ROOM]);

impl fmt::Debug for Buffer {
    fn fmt(&self, formatter: &mut fmt::Formatter<'_>) -> fmt::Result {
        write!(formatter, "\"{}\"", self.0.escape_ascii())
    }
}

/// Values below 100,000, powers of ten and of two with their neighbours, and random ones.
fn each_value(run: &mut Run, each: fn(&mut Run, u64)) {
    for value in 0..100_000 {
        each(run, value);
    }
    let tens = (0..20).map(|power| 10u64.pow(power));
    let twos = (0..64).map(|power| 1u64 << power);
    for power in tens.chain(twos) {
        for offset in 0..3 {
            each(run, power.wrapping_add(offset));
            each(run, power.wrapping_sub(offset));
        }
    }
    for _ in 0..run.cases {
        let value = run.random.wide();
        each(run, value);
    }
}

/// At places 0 to 3 of buffers that are one byte too short, just long enough and longer; then at
/// places past the end, and where place and length add up to a small number.
fn check_written(run: &mut Run, n: u64) {
    let digits = n.to_string();
    let width = digits.len();
    for at in 0..=3 {
        for length in [at + width - 1, at + width, at + width + 1, at + width + 5] {
            check_call(run, length, at, n, &digits);
        }
    }
    for at in [
        width,
        width + 1,
        usize::MAX - width,
        usize::MAX - width + 1,
        usize::MAX,
    ] {
        check_call(run, width, at, n, &digits);
    }
    check_call(run, 0, 0, n, &digits);
}

fn check_call(run: &mut Run, length: usize, at: usize, n: u64, digits: &str) {
    let answers = Answers {
        ours: written(run.ours.write_decimal, length, at, n),
        rust: Some(expected(length, at, digits)),
        reading: written(reading::write_decimal, length, at, n),
    };
    run.tally
        .check(answers, || format!("{n} at {at} of {length} bytes"));
}

/// The answer and all bytes after a call on the first bytes of a buffer.
fn written(
    write: fn(&mut [u8], usize, u64) -> Written,
    length: usize,
    at: usize,
    n: u64,
) -> (Written, Buffer) {
    let mut buffer = untouched();
    let answer = write(&mut buffer.0[..length], at, n);
    (answer, buffer)
}

fn expected(length: usize, at: usize, digits: &str) -> (Written, Buffer) {
    let mut buffer = untouched();
    let end = at.checked_add(digits.len()).filter(|&end| end <= length);
    if let Some(end) = end {
        buffer.0[at..end].copy_from_slice(digits.as_bytes());
    }
    let answer = Written {
        fits: end.is_some(),
        next: end.unwrap_or(0),
    };
    (answer, buffer)
}

/// All bytes differ, and none is a digit.
fn untouched() -> Buffer {
    Buffer(*b"abcdefghijklmnopqrstuvwxyzABCDEF")
}

fn check_length(run: &mut Run, n: u64) {
    let answers = Answers {
        ours: (run.ours.decimal_length)(n),
        rust: Some(n.to_string().len()),
        reading: reading::decimal_length(n),
    };
    run.tally.check(answers, || n.to_string());
}

/// What was written is read back as the same number, by ours and by the published readers.
fn check_read_back(run: &mut Run, n: u64) {
    let mut buffer = untouched();
    let answer = (run.ours.write_decimal)(&mut buffer.0, 1, n);
    let digits = buffer.0.get(1..answer.next).unwrap_or_default();
    let text = std::str::from_utf8(digits).unwrap_or_default();
    for rule in RULES {
        let answers = Answers {
            ours: (run.ours.number)(rule, digits),
            rust: Some(oracle::number(rule, text)),
            reading: Some(n),
        };
        run.tally.check(answers, || format!("{rule:?} {n}"));
    }
}
