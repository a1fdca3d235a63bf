//! What is compared: one table of functions, filled by the library, by the reading of the
//! requirements, or by a deliberately wrong variant.

pub mod compose;
pub mod model;
pub mod obligation;
pub mod witness;

/// Which reader's number rule holds.
#[derive(Clone, Copy, Debug, Eq, PartialEq)]
pub enum Rule {
    Transition,
    Witness,
}

pub const RULES: [Rule; 2] = [Rule::Transition, Rule::Witness];

/// What `take_literal` answers: the number, or none where it refuses, and the place after it.
#[derive(Clone, Copy, Debug, Eq, PartialEq)]
pub struct Taken {
    pub value: Option<u64>,
    pub at: usize,
}

/// A line or a field: its bytes are `start..end`, and reading goes on at `next`.
#[derive(Clone, Copy, Debug, Eq, PartialEq)]
pub struct Part {
    pub start: usize,
    pub end: usize,
    pub next: usize,
}

/// What writing a number answers; `next` is 0 where it does not fit.
#[derive(Clone, Copy, Debug, Eq, PartialEq)]
pub struct Written {
    pub fits: bool,
    pub next: usize,
}

/// The functions of the text layer.
#[derive(Clone, Copy)]
pub struct Subject {
    pub number: fn(Rule, &[u8]) -> Option<u64>,
    pub take_literal: fn(Rule, &[u8], usize) -> Taken,
    pub line: fn(&[u8], usize) -> Option<Part>,
    pub field: fn(&[u8], usize) -> Option<Part>,
    /// The bytes of a line's first field; none of them where it has no field.
    pub first_field: fn(&[u8]) -> Vec<u8>,
    pub header_word: fn(&[u8]) -> bool,
    pub same: fn(&[u8], &[u8]) -> bool,
    pub begins_with: fn(&[u8], &[u8]) -> bool,
    pub good_text: fn(Rule, &[u8]) -> bool,
    pub write_decimal: fn(&mut [u8], usize, u64) -> Written,
    pub decimal_length: fn(u64) -> usize,
}
