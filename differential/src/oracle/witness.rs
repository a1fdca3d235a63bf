//! The published witness reader.

use super::composed::access::{Circuit, read_aag};
use crate::reading::witness::{counts, space_in_front, within_limits};
use crate::sections::{Latch, Name, Sections};
use crate::subject::witness::Role;
use std::collections::BTreeMap;

/// The most outputs, bads or constraints of a header for which the published reader may reserve
/// memory. No text has so many lines with a field.
const MOST_LISTED: u64 = 16_777_216;

/// Whether the published reader can be given a text. It stops at a symbol line that begins with a
/// space; and where the header is within the limits, it reserves memory for as many outputs, bads
/// and constraints as the header says, and stops where there is none.
pub fn can_take(text: &[u8]) -> bool {
    let reserved = counts(text).filter(within_limits);
    let few = reserved.is_none_or(|counts| {
        let listed = [counts.outputs, counts.bads, counts.constraints];
        listed.into_iter().all(|count| count <= MOST_LISTED)
    });
    few && !space_in_front(text)
}

/// What it reads. It keeps the bytes of a name, not the place: that is the one of `expected`, where
/// these bytes stand there.
pub fn read(text: &[u8], role: Role, expected: Option<&Sections>) -> Option<Sections> {
    let Circuit {
        max_variable,
        inputs,
        latches,
        outputs,
        bads,
        constraints,
        gates,
        input_names,
        latch_names,
    } = read_aag(text, role == Role::Witness)?;
    let (expected_inputs, expected_latches) = match expected {
        Some(sections) => (&sections.input_names[..], &sections.latch_names[..]),
        None => (&[][..], &[][..]),
    };
    Some(Sections {
        variables: max_variable as u64,
        input_names: placed(text, inputs.len(), &input_names, expected_inputs),
        latch_names: placed(text, latches.len(), &latch_names, expected_latches),
        inputs: words(inputs),
        latches: latches
            .into_iter()
            .map(|latch| {
                let [current, next, reset] = latch.map(|literal| literal as u64);
                Latch {
                    current,
                    next,
                    reset,
                }
            })
            .collect(),
        outputs: words(outputs),
        bads: words(bads),
        constraints: words(constraints),
        gates: gates
            .into_iter()
            .map(|gate| gate.map(|literal| literal as u64))
            .collect(),
    })
}

fn words(literals: Vec<usize>) -> Vec<u64> {
    literals.into_iter().map(|literal| literal as u64).collect()
}

/// So many names by index, at their expected places. One that does not stand there is nowhere.
fn placed(
    text: &[u8],
    count: usize,
    names: &BTreeMap<usize, String>,
    expected: &[Option<Name>],
) -> Vec<Option<Name>> {
    let mut placed = vec![None; count];
    for (&index, name) in names {
        let expected = expected.get(index).copied().flatten();
        let stands =
            |place: &Name| text[place.offset..place.offset + place.length] == *name.as_bytes();
        placed[index] = Some(expected.filter(stands).unwrap_or(Name {
            offset: usize::MAX,
            length: name.len(),
        }));
    }
    placed
}
