//! What is compared in the model layer: the transition reader, the validation and the step, over
//! the records of the library's C interface.

/// The record, what the reader answers (reason 0 and the model, or the reason's number and a record
/// of zeros), what a step answers, and how many words a record is.
pub use crate::library::{Latch, RECORD_WORDS as WORDS, Read, Stepped, Transition as Model};

use crate::circuit::Circuit;
use std::fmt;

pub const INPUTS: usize = 64;
pub const LATCHES: usize = 8;
pub const OUTPUTS: usize = 128;

/// The functions of the model layer. Gate words come before work words.
#[derive(Clone, Copy)]
pub struct Subject {
    pub read: fn(&[u8], &mut [u64], &mut [u64]) -> Read,
    pub validate: Validate<Model>,
    pub step: Step<Model>,
    /// The same two, of a record that is lent as any number of words.
    pub validate_words: Validate<[u64]>,
    pub step_words: Step<[u64]>,
    /// The same with the gates lent as records.
    pub step_records: Step<[u64]>,
}

/// Of a record in the form `R`, gate words and work words.
pub type Validate<R> = fn(&R, &[u64], &mut [u64]) -> u64;
/// The same with a state and an input word.
pub type Step<R> = fn(&R, &[u64], &mut [u64], u64, u64) -> Stepped;

impl Model {
    /// The record of a circuit whose lists fit, with zeros past them.
    pub fn of(circuit: &Circuit) -> Self {
        let mut model = Self {
            max_variable: circuit.variables,
            input_count: circuit.inputs.len(),
            latch_count: circuit.latches.len(),
            output_count: circuit.outputs.len(),
            and_count: circuit.gates.len(),
            ..Self::ZERO
        };
        model.inputs[..circuit.inputs.len()].copy_from_slice(&circuit.inputs);
        model.latches[..circuit.latches.len()].copy_from_slice(&circuit.latches);
        model.outputs[..circuit.outputs.len()].copy_from_slice(&circuit.outputs);
        model
    }

    /// The record that lies in words: M, I, the inputs, L, the latches, O, the outputs, A. A word
    /// that is not there is 0.
    pub fn in_words(words: &[u64]) -> Self {
        let mut rest = words.iter().copied();
        let mut next = || rest.next().unwrap_or(0);
        Self {
            max_variable: next() as usize,
            input_count: next() as usize,
            inputs: [(); INPUTS].map(|()| next()),
            latch_count: next() as usize,
            latches: [(); LATCHES].map(|()| Latch {
                current: next(),
                next: next(),
            }),
            output_count: next() as usize,
            outputs: [(); OUTPUTS].map(|()| next()),
            and_count: next() as usize,
        }
    }

    /// The lists that a record and gate words stand for, where the counts fit both.
    pub fn circuit(&self, words: &[u64]) -> Option<Circuit> {
        let needed = self.and_count.checked_mul(3)?;
        Some(Circuit {
            variables: self.max_variable,
            inputs: self.inputs.get(..self.input_count)?.to_vec(),
            latches: self.latches.get(..self.latch_count)?.to_vec(),
            outputs: self.outputs.get(..self.output_count)?.to_vec(),
            gates: words
                .get(..needed)?
                .chunks_exact(3)
                .map(|gate| [gate[0], gate[1], gate[2]])
                .collect(),
        })
    }
}

impl Read {
    pub fn refused(reason: u64) -> Self {
        Self {
            reason,
            model: Model::ZERO,
        }
    }
}

impl Stepped {
    pub fn refused(reason: u64) -> Self {
        Self {
            reason,
            target: 0,
            high: 0,
            low: 0,
        }
    }
}

impl fmt::Debug for Read {
    fn fmt(&self, out: &mut fmt::Formatter<'_>) -> fmt::Result {
        let Self { reason, model } = self;
        let mut shown = out.debug_struct("Read");
        shown.field("reason", reason).field("model", model).finish()
    }
}

/// Counts, and each list up to its last slot that is not zero.
impl fmt::Debug for Model {
    fn fmt(&self, out: &mut fmt::Formatter<'_>) -> fmt::Result {
        write!(
            out,
            "M {} I {} {:?} L {} {:?} O {} {:?} A {}",
            self.max_variable,
            self.input_count,
            used(&self.inputs, &0),
            self.latch_count,
            used(&self.latches, &Latch::default()),
            self.output_count,
            used(&self.outputs, &0),
            self.and_count
        )
    }
}

fn used<'a, T: PartialEq>(slots: &'a [T], zero: &T) -> &'a [T] {
    let length = slots.iter().rposition(|slot| slot != zero);
    &slots[..length.map_or(0, |last| last + 1)]
}
