//! Safety witnesses: their reader, and their composition.

pub use crate::library::Cursor;

use crate::library::Witness;
use crate::refusal::error_named;
use crate::room::{Room, lend};
use crate::{Refusal, header, library};

pub const COMPOSED_WITNESS_BASELINE_VERSION: u32 = 1;
pub const MAX_COMPOSED_WITNESSES: usize = 64;
pub const MAX_COMPOSED_AIGER_BYTES: usize = 16 * 1024 * 1024;

error_named!(ComposedWitnessError);

/// How many there are of each in a witness, or in the model of a composition.
#[derive(Clone, Copy, Debug, Default, Eq, PartialEq)]
pub struct WitnessCounts {
    pub max_variable: usize,
    pub inputs: usize,
    pub latches: usize,
    pub outputs: usize,
    pub gates: usize,
    pub bads: usize,
    pub constraints: usize,
}

/// Reads a witness. In the original this reader is a part of composing.
///
/// Reasons: 3, 4, 5, 6, 8, 9, 10, 11.
pub fn read_witness(text: &[u8]) -> Result<WitnessCounts, ComposedWitnessError> {
    read(text, true)
}

/// Reads the model of a composition, in which comments may say anything.
///
/// Reasons: 3, 4, 5, 6, 8, 9, 11.
pub fn read_model(text: &[u8]) -> Result<WitnessCounts, ComposedWitnessError> {
    read(text, false)
}

fn read(text: &[u8], witness: bool) -> Result<WitnessCounts, ComposedWitnessError> {
    let Witness {
        reason,
        max_variable,
        inputs,
        latches,
        outputs,
        gates,
        bads,
        constraints,
    } = library::nit_read_witness(text, witness);
    Refusal::accepted(reason)?;
    Ok(WitnessCounts {
        max_variable,
        inputs,
        latches,
        outputs,
        gates,
        bads,
        constraints,
    })
}

/// Takes the next line of a text as one literal, by the witness reader's rule for numbers. The
/// cursor moves past the line, also where it is refused (8); with no line left it stays.
pub fn take_literal(text: &[u8], cursor: &mut Cursor) -> Result<usize, ComposedWitnessError> {
    let taken = library::nit_take_literal(text, cursor);
    Refusal::accepted(taken.reason)?;
    Ok(taken.value as usize)
}

/// Composes witnesses of a model into one text.
///
/// Reasons: 1, 3 to 6, 8 to 11, 16 to 19; 15 or 20 where the machine has too little memory.
pub fn compose_safety_witnesses_v1(
    model_bytes: &[u8],
    witness_bytes: &[&[u8]],
) -> Result<Vec<u8>, ComposedWitnessError> {
    if witness_bytes.len() > MAX_COMPOSED_WITNESSES {
        // So many are refused by their number (1), and not copied.
        return compose_safety_witnesses_in(model_bytes, &[], &vec![[0, 0]; witness_bytes.len()]);
    }
    let texts: Vec<&[u8]> = witness_bytes.iter().map(|text| clipped(text)).collect();
    let mut buffer = Vec::new();
    if buffer
        .try_reserve_exact(texts.iter().map(|text| text.len()).sum())
        .is_err()
    {
        return Err(Refusal::NO_WORK.into());
    }
    let mut parts = Vec::with_capacity(texts.len());
    for text in texts {
        parts.push([buffer.len(), text.len()]);
        buffer.extend_from_slice(text);
    }
    compose_safety_witnesses_in(model_bytes, &buffer, &parts)
}

/// A text, or a byte more of it than the limit, which is as much too long (3) as the whole.
fn clipped(text: &[u8]) -> &[u8] {
    text.get(..=MAX_COMPOSED_AIGER_BYTES).unwrap_or(text)
}

/// Composes witnesses that are parts of one buffer, given as offset and length, in order: the form
/// that needs no copy of them.
///
/// Reasons: those of `compose_safety_witnesses_v1`, and 2.
pub fn compose_safety_witnesses_in(
    model_bytes: &[u8],
    witnesses: &[u8],
    parts: &[[usize; 2]],
) -> Result<Vec<u8>, ComposedWitnessError> {
    let texts = parts.iter().take(MAX_COMPOSED_WITNESSES);
    let texts = texts.filter_map(|&[offset, length]| witnesses.get(offset..)?.get(..length));
    let needs = Needs::of(clipped(model_bytes), texts.map(clipped));
    Ok(compose_with(
        needs.first(),
        needs,
        model_bytes,
        witnesses,
        parts,
    )?)
}

/// Composes with this room first, work words and bytes.
fn compose_with(
    first: Room,
    needs: Needs,
    model: &[u8],
    witnesses: &[u8],
    parts: &[[usize; 2]],
) -> Result<Vec<u8>, Refusal> {
    let more = |refusal: Refusal, room| needs.more(refusal, room);
    lend(first, more, |[words, bytes]| {
        let mut work = vec![0; words];
        let mut out = vec![0; bytes];
        let pairs = parts.as_flattened();
        let composed = library::nit_compose(model, witnesses, pairs, &mut work, &mut out);
        Refusal::accepted(composed.reason)?;
        out.truncate(composed.bytes);
        out.shrink_to_fit();
        Ok(out)
    })
}

/// What the headers say of the memory that a composition needs.
#[derive(Clone, Copy)]
struct Needs {
    room: Room,
}

/// The reasons for too few work words and for too little room.
const FEW_WORDS: u8 = 15;
const NO_ROOM: u8 = 20;
/// More work words than this (1 GB) are lent only after the library has read all texts.
const MANY_WORDS: usize = 128 << 20;
/// The header and the closing comment of a composition, at most.
const FRAME: usize = 256;
/// A figure or two more than any literal of 64 witnesses has, and what parts it from the next.
const NUMBER: usize = 11;
/// A symbol line without its name: kind, index, blank, `w63:private-input`, line feed.
const SYMBOL: usize = NUMBER + 24;

impl Needs {
    /// Work words by the library's rule, 16 x T + 1,024, and as many bytes as the lines of all
    /// witnesses can have. No text has more counted elements than lines of two bytes.
    fn of<'a>(model: &[u8], witnesses: impl Iterator<Item = &'a [u8]>) -> Self {
        let mut elements = counted(model)[0];
        let mut bytes = FRAME;
        for text in witnesses {
            let [all, inputs, latches] = counted(text);
            elements += all;
            // The longest lines have three literals; names are parts of the text.
            bytes += 3 * NUMBER * all + SYMBOL * (inputs + latches) + text.len();
        }
        Self {
            room: [16 * elements + 1_024, bytes],
        }
    }

    /// What is lent first. A great need is believed only where the texts have been read, so that
    /// no header with large numbers takes memory that its text does not need.
    fn first(&self) -> Room {
        if self.room[0] <= MANY_WORDS && can_have(self.room) {
            self.room
        } else {
            [0, 0]
        }
    }

    /// What is lent next, or none where the machine has no such memory.
    fn more(&self, refusal: Refusal, [words, bytes]: Room) -> Option<Room> {
        let [needed_words, needed_bytes] = self.room;
        let larger = match refusal.number() {
            FEW_WORDS => [grown(words, needed_words), bytes.max(needed_bytes)],
            NO_ROOM => [words, grown(bytes, needed_bytes)],
            _ => return None,
        };
        can_have(larger).then_some(larger)
    }
}

/// M + O + B + C, inputs and latches of a header.
fn counted(text: &[u8]) -> [usize; 3] {
    let [
        variables,
        inputs,
        latches,
        outputs,
        _,
        bads,
        constraints,
        ..,
    ] = header::counts(text);
    let listed = [outputs, bads, constraints].into_iter();
    let all = listed.fold(variables, usize::saturating_add);
    [all, inputs, latches].map(|count| count.min(text.len() / 2))
}

/// The need, where less was lent; else twice as much.
fn grown(lent: usize, needed: usize) -> usize {
    if lent < needed {
        needed
    } else {
        lent.saturating_mul(2).max(FRAME)
    }
}

/// Whether there is memory for so many words and bytes. A list that cannot be had would end the
/// program.
fn can_have([words, bytes]: Room) -> bool {
    let mut tried = (Vec::<usize>::new(), Vec::<u8>::new());
    let had = tried.0.try_reserve_exact(words).is_ok() && tried.1.try_reserve_exact(bytes).is_ok();
    // Else the compiler may leave out lists that are never used.
    std::hint::black_box(tried);
    had
}

#[cfg(test)]
#[path = "composed_witness_tests.rs"]
mod tests;
