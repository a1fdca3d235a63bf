//! The published transition reader, validation and step.

use super::aiger::{AigerAnd, AigerLatch, AigerTransition, parse_ascii_aiger_transition};
use crate::circuit::Circuit;
use crate::reading::model::counts;
use crate::subject::model::{Latch, Stepped};

/// The most gates of a header for which the published reader may reserve memory.
const MOST_GATES: u64 = 2_000_000;

/// Whether the published reader can be given a text: it reserves memory for as many gates as the
/// header says, before it reads one, and stops where there is none.
pub fn can_take(text: &[u8]) -> bool {
    counts(text).is_none_or(|counts| counts.gates <= MOST_GATES)
}

pub fn read(text: &[u8]) -> Option<Circuit> {
    let model = parse_ascii_aiger_transition(text).ok()?;
    let latches = model.latches.iter().map(|latch| Latch {
        current: latch.current as u64,
        next: latch.next as u64,
    });
    let gates = model.ands.iter();
    Some(Circuit {
        variables: model.max_variable,
        inputs: words(&model.inputs),
        latches: latches.collect(),
        outputs: words(&model.outputs),
        gates: gates
            .map(|gate| [gate.output as u64, gate.left as u64, gate.right as u64])
            .collect(),
    })
}

fn words(literals: &[usize]) -> Vec<u64> {
    literals.iter().map(|&literal| literal as u64).collect()
}

/// The published form of a circuit.
pub fn transition(circuit: &Circuit) -> AigerTransition {
    let latches = circuit.latches.iter().map(|latch| AigerLatch {
        current: latch.current as usize,
        next: latch.next as usize,
    });
    let gates = circuit.gates.iter().map(|gate| AigerAnd {
        output: gate[0] as usize,
        left: gate[1] as usize,
        right: gate[2] as usize,
    });
    AigerTransition {
        max_variable: circuit.variables,
        inputs: sizes(&circuit.inputs),
        latches: latches.collect(),
        outputs: sizes(&circuit.outputs),
        ands: gates.collect(),
    }
}

pub fn sizes(literals: &[u64]) -> Vec<usize> {
    literals.iter().map(|&literal| literal as usize).collect()
}

/// `evaluate`, with the outputs in two halves. A state is at most 64 bits wide there too.
pub fn step(transition: &AigerTransition, state: u64, input: u64) -> Option<Stepped> {
    let (target, outputs) = transition.evaluate(state as usize, input).ok()?;
    Some(Stepped {
        reason: 0,
        target: target as u64,
        high: (outputs >> 64) as u64,
        low: outputs as u64,
    })
}
