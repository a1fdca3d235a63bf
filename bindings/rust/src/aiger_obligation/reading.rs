//! The transition reader.

use super::{AigerObligationError, AigerTransition, MAX_AIGER_VARIABLES, record};
use crate::room::{Room, lend};
use crate::{Refusal, header, library};

/// The reason for too few gate or work words.
const FEW_WORDS: u8 = 7;
/// Room for every model that the reader accepts: gates, and work words.
const MOST: Room = [MAX_AIGER_VARIABLES, MAX_AIGER_VARIABLES + 1];

/// Reads a transition model of five counts; all lines after the gates are ignored.
///
/// Reasons: 3, 4, 5, 8, 11.
pub fn parse_ascii_aiger_transition(bytes: &[u8]) -> Result<AigerTransition, AigerObligationError> {
    Ok(read_with(needed(bytes), bytes)?)
}

/// As much room as the header says, where that is within the limits.
fn needed(bytes: &[u8]) -> Room {
    let [variables, _, _, _, gates, ..] = header::counts(bytes);
    let work = variables.saturating_add(1);
    [gates.min(MOST[0]), work.min(MOST[1])]
}

/// Reads with this room first.
fn read_with(first: Room, bytes: &[u8]) -> Result<AigerTransition, Refusal> {
    lend(first, more, |[gates, work]| {
        let mut gates = vec![[0; 3]; gates];
        let mut work = vec![0; work];
        let read = library::nit_read_transition(bytes, gates.as_flattened_mut(), &mut work);
        Refusal::accepted(read.reason)?;
        Ok(record::model(&read.model, gates))
    })
}

fn more(refusal: Refusal, room: Room) -> Option<Room> {
    (refusal.number() == FEW_WORDS && room != MOST).then_some(MOST)
}

#[cfg(test)]
mod tests {
    use super::*;

    const K: &[u8] = b"aag 3 1 1 1 1\n2\n4 6\n6\n6 4 2\n";

    #[test]
    fn the_header_says_how_much_is_needed() {
        assert_eq!(needed(K), [1, 4]);
        assert_eq!(needed(b""), [0, 1]);
        let huge = b"aag 18446744073709551615 0 1 0 18446744073709551614\n";
        assert_eq!(needed(huge), MOST);
    }

    #[test]
    fn too_little_room_is_made_good() {
        let whole = parse_ascii_aiger_transition(K).expect("model K");
        for first in [[0, 0], [1, 3], [0, 4], [1, 4], [5, 9], MOST] {
            assert_eq!(read_with(first, K).as_ref(), Ok(&whole), "{first:?}");
        }
    }

    #[test]
    fn more_room_shows_the_reason_behind_it() {
        let refused = |first, text: &[u8]| read_with(first, text).expect_err("refused").number();
        assert_eq!(refused([0, 0], b"aag 3 1 1 1 1\n2\n4 6\n"), 8);
        assert_eq!(refused([0, 0], b"aag 3 1 1 1 1\n2\n4 6\n6\n6 4 7\n"), 11);
        assert_eq!(refused([0, 0], b"aag 1000000 0 1 0 999999\n2 2\n"), 8);
    }
}
