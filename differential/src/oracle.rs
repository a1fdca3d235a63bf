//! The oracle: the published Rust, compiled unchanged, as `oracle::aiger` and `oracle::composed`.

pub mod compose;
pub mod model;
pub mod obligation;
pub mod witness;

use crate::subject::Rule;
use std::str::Lines;
use std::sync::OnceLock;

// Made by the build: declares the modules `aiger` and `composed`.
include!(concat!(env!("OUT_DIR"), "/oracle.rs"));

/// `parse_usize` or `parse_number`.
pub fn number(rule: Rule, text: &str) -> Option<u64> {
    let value = match rule {
        Rule::Transition => aiger::access::parse_usize(text),
        Rule::Witness => composed::access::parse_number(text),
    };
    value.map(|value| value as u64)
}

/// `take_literal`, and what the transition reader does in its place: the line's only field.
pub fn take_literal(rule: Rule, lines: &mut Lines<'_>) -> Option<u64> {
    match rule {
        Rule::Witness => composed::access::take_literal(lines).map(|value| value as u64),
        Rule::Transition => {
            let mut fields = lines.next()?.split_whitespace();
            let first = number(rule, fields.next()?)?;
            fields.next().is_none().then_some(first)
        }
    }
}

/// Where an iterator over the lines of a text stands in it.
pub fn place(text: &str, lines: &Lines<'_>) -> usize {
    match lines.clone().next() {
        Some(line) => line.as_ptr() as usize - text.as_ptr() as usize,
        None => text.len(),
    }
}

/// False where the reader refuses a text by its first check. The check is told by its message,
/// which is the one that a text gets that can break no other rule first.
pub fn good_text(rule: Rule, text: &[u8]) -> bool {
    static TRANSITION: OnceLock<Option<String>> = OnceLock::new();
    static WITNESS: OnceLock<Option<String>> = OnceLock::new();
    let first_check = match rule {
        Rule::Transition => TRANSITION.get_or_init(|| refusal(rule, &[128])),
        Rule::Witness => WITNESS.get_or_init(|| refusal(rule, &[])),
    };
    assert!(
        first_check.is_some(),
        "the published reader has no first check"
    );
    refusal(rule, text) != *first_check
}

/// The message with which a reader refuses a text.
fn refusal(rule: Rule, text: &[u8]) -> Option<String> {
    match rule {
        Rule::Transition => aiger::parse_ascii_aiger_transition(text)
            .err()
            .map(|error| error.0),
        Rule::Witness => composed::access::parse_aag(text, true)
            .err()
            .map(|error| error.0),
    }
}
