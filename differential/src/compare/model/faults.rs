//! Deliberately wrong variants, each with one likely fault. The self-test has to find all of them.

mod readers;
mod records;
mod steps;
mod texts;

use super::Fault;
use crate::circuit::Circuit;
use crate::ours::model::SUBJECT as OURS;
use crate::reading::model as reading;
use crate::subject::model::{Model, Read};

pub const FAULTS: &[&[Fault]] = &[
    texts::FAULTS,
    readers::FAULTS,
    records::FAULTS,
    steps::FAULTS,
];

/// A change to a circuit that takes away what a wrong variant does not see.
type Mend = fn(&mut Circuit);

/// The circuit of a text whose lines are good, whatever its literals are.
fn parsed(text: &[u8]) -> Option<Circuit> {
    let counts = reading::counts(text).filter(reading::within_limits)?;
    reading::sections(&counts, reading::lines(text).skip(1))
}

/// The circuit's answer, with its words written.
fn accepted(circuit: &Circuit, gates: &mut [u64]) -> Read {
    gates[..circuit.words().len()].copy_from_slice(circuit.words());
    Read {
        reason: 0,
        model: Model::of(circuit),
    }
}

/// A reader that accepts what is well defined once it is mended.
fn lenient_read(mend: Mend, text: &[u8], gates: &mut [u64], work: &mut [u64]) -> Read {
    let read = (OURS.read)(text, gates, work);
    match parsed(text) {
        Some(circuit) if read.reason == 11 && well_defined(mend, &circuit) => {
            accepted(&circuit, gates)
        }
        _ => read,
    }
}

/// A validation that accepts what is well defined once it is mended.
fn lenient_validate(mend: Mend, model: &Model, gates: &[u64], work: &mut [u64]) -> u64 {
    let reason = (OURS.validate)(model, gates, work);
    match model.circuit(gates) {
        Some(circuit) if reason == 11 && sums(&circuit) && well_defined(mend, &circuit) => 0,
        _ => reason,
    }
}

/// M = I + L + A: without it a circuit may be well defined and yet break the limits.
fn sums(circuit: &Circuit) -> bool {
    let [variables, inputs, latches, _, gates] = circuit.counts();
    latches > 0 && variables == inputs + latches + gates
}

fn well_defined(mend: Mend, circuit: &Circuit) -> bool {
    let mut mended = circuit.clone();
    mend(&mut mended);
    reading::well_defined(&mended)
}

/// Mends a gate's operand that is its own output.
fn own_operands(circuit: &mut Circuit) {
    for [output, left, right] in &mut circuit.gates {
        for operand in [left, right] {
            if *operand / 2 == *output / 2 {
                *operand = 0;
            }
        }
    }
}

/// Mends the second of two operands, whatever is wrong with it.
fn second_operands(circuit: &mut Circuit) {
    for gate in &mut circuit.gates {
        gate[2] = 0;
    }
}

/// Mends definitions that are odd literals.
fn odd_definitions(circuit: &mut Circuit) {
    for latch in &mut circuit.latches {
        latch.current -= latch.current % 2;
    }
}

/// Mends outputs that are too large.
fn outputs(circuit: &mut Circuit) {
    circuit.outputs.fill(0);
}

/// Mends next literals that are too large.
fn nexts(circuit: &mut Circuit) {
    for latch in &mut circuit.latches {
        latch.next = 0;
    }
}

/// Mends latches whose variable an input defines too.
fn latches_of_inputs(circuit: &mut Circuit) {
    let defines = |circuit: &Circuit, variable: u64| {
        let gates = circuit.gates.iter().map(|gate| gate[0]);
        let latches = circuit.latches.iter().map(|latch| latch.current);
        let mut all = circuit.inputs.iter().copied().chain(latches).chain(gates);
        all.any(|literal| literal / 2 == variable)
    };
    for place in 0..circuit.latches.len() {
        if circuit.inputs.contains(&circuit.latches[place].current) {
            let mut variables = 1..=circuit.variables as u64;
            if let Some(free) = variables.find(|&variable| !defines(circuit, variable)) {
                circuit.latches[place].current = 2 * free;
            }
        }
    }
}
