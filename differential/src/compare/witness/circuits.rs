//! Random circuits that break no rule of the witness reader.

use crate::compare::model::circuits::{Operands, literal_up_to, operand};
use crate::random::Random;
use crate::sections::{Latch, Sections};

/// How many of each kind a circuit has.
#[derive(Clone, Copy, Debug, Default)]
pub struct Shape {
    pub inputs: usize,
    pub latches: usize,
    pub outputs: usize,
    pub gates: usize,
    pub bads: usize,
    pub constraints: usize,
}

impl Shape {
    pub fn variables(&self) -> usize {
        self.inputs + self.latches + self.gates
    }
}

/// Mostly a few of each kind, seldom up to 200.
pub fn any_shape(random: &mut Random) -> Shape {
    let limit = if random.once_in(64) { 200 } else { 5 };
    Shape {
        inputs: random.below(limit),
        latches: random.below(limit),
        outputs: random.below(limit),
        gates: random.below(2 * limit),
        bads: random.below(limit),
        constraints: random.below(limit),
    }
}

/// A circuit without names. Its latches have any next literal, and any reset where `resets` is true.
pub fn make(random: &mut Random, shape: &Shape, operands: Operands, resets: bool) -> Sections {
    let highest = 2 * shape.variables() as u64 + 1;
    let mut listed = |count: usize| -> Vec<u64> {
        let literals = (0..count).map(|_| literal_up_to(random, highest));
        literals.collect()
    };
    let (outputs, bads, constraints) = (
        listed(shape.outputs),
        listed(shape.bads),
        listed(shape.constraints),
    );
    let mut variables = 1..;
    let inputs = variables.by_ref().take(shape.inputs);
    let inputs: Vec<u64> = inputs.map(|variable| 2 * variable).collect();
    let latches = variables
        .by_ref()
        .take(shape.latches)
        .map(|variable| Latch {
            current: 2 * variable,
            next: literal_up_to(random, highest),
            reset: match resets {
                true => literal_up_to(random, highest),
                false => 0,
            },
        });
    let latches: Vec<Latch> = latches.collect();
    let gates = variables.take(shape.gates).map(|variable| {
        let [left, right] = [(); 2].map(|()| operand(random, variable, operands));
        [2 * variable, left, right]
    });
    Sections {
        variables: shape.variables() as u64,
        gates: gates.collect(),
        input_names: vec![None; inputs.len()],
        latch_names: vec![None; latches.len()],
        inputs,
        latches,
        outputs,
        bads,
        constraints,
    }
}
