//! The published composer.

use super::composed::compose_safety_witnesses_v1;
use super::witness::can_take;
use crate::reading::compose::{MOST_WITNESSES, parts};
use crate::subject::compose::Asked;

/// The texts of a call that has a form in Rust: where the pairs are in order and in the buffer.
/// Where there are too few or too many of them, any texts stand for theirs.
pub fn form<'a>(asked: &Asked<'a>) -> Option<Vec<&'a [u8]>> {
    match parts(asked) {
        Ok(parts) => Some(parts),
        Err(1) => {
            let count = (asked.pairs.len() / 2).min(MOST_WITNESSES + 1);
            Some(vec![asked.witnesses; count])
        }
        Err(_) => None,
    }
}

/// Whether the composer can be given these texts: none makes its reader stop.
pub fn can_compose(model: &[u8], witnesses: &[&[u8]]) -> bool {
    can_take(model) && witnesses.iter().all(|text| can_take(text))
}

/// The text that it makes, where it makes one.
pub fn compose(model: &[u8], witnesses: &[&[u8]]) -> Option<Vec<u8>> {
    compose_safety_witnesses_v1(model, witnesses).ok()
}
