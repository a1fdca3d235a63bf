//! A model as the library's record.

use super::{
    AigerAnd, AigerLatch, AigerTransition, MAX_AIGER_INPUTS, MAX_AIGER_LATCHES, MAX_AIGER_OUTPUTS,
    MAX_AIGER_VARIABLES,
};
use crate::library::{Latch, Transition};

// The record has room for as many as the limits allow.
const _: () = assert!(
    Transition::ZERO.inputs.len() == MAX_AIGER_INPUTS
        && Transition::ZERO.latches.len() == MAX_AIGER_LATCHES
        && Transition::ZERO.outputs.len() == MAX_AIGER_OUTPUTS
);

/// The record of a model. A list that is longer than its place has its whole length in the count,
/// so that the library refuses it; what does not fit is not looked at then.
pub fn of(model: &AigerTransition) -> Transition {
    let mut record = Transition {
        // Too many variables are too many, however many; so no huge work slice is needed to say so.
        max_variable: model.max_variable.min(MAX_AIGER_VARIABLES + 1),
        input_count: model.inputs.len(),
        latch_count: model.latches.len(),
        output_count: model.outputs.len(),
        and_count: model.ands.len(),
        ..Transition::ZERO
    };
    let latch = |&AigerLatch { current, next }: &_| Latch { current, next };
    fill(&mut record.inputs, model.inputs.iter().copied());
    fill(&mut record.latches, model.latches.iter().map(latch));
    fill(&mut record.outputs, model.outputs.iter().copied());
    record
}

fn fill<T>(slots: &mut [T], values: impl Iterator<Item = T>) {
    for (slot, value) in slots.iter_mut().zip(values) {
        *slot = value;
    }
}

/// As many work words as a call on this record needs: more than M.
pub fn work(record: &Transition) -> Vec<usize> {
    vec![0; record.max_variable + 1]
}

/// The model of a record that the library has read, with gates for as many as it says.
pub fn model(record: &Transition, mut gates: Vec<[usize; 3]>) -> AigerTransition {
    gates.truncate(record.and_count);
    gates.shrink_to_fit();
    let inputs = record.inputs.iter().take(record.input_count);
    let latches = record.latches.iter().take(record.latch_count);
    let outputs = record.outputs.iter().take(record.output_count);
    AigerTransition {
        max_variable: record.max_variable,
        inputs: inputs.copied().collect(),
        latches: latches
            .map(|&Latch { current, next }| AigerLatch { current, next })
            .collect(),
        outputs: outputs.copied().collect(),
        // The list stays where it is: three words become a gate in place.
        ands: gates
            .into_iter()
            .map(|[output, left, right]| AigerAnd {
                output,
                left,
                right,
            })
            .collect(),
    }
}
