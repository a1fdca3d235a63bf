//! The circuits that are measured.

use differential::circuit::Circuit;
use differential::compare::model::circuits::{Operands, Order, Plan, Shape, make};
use differential::random::Random;

/// How many variables the circuits have.
pub const SIZES: [usize; 4] = [100, 1_000, 30_000, 1_000_000];

/// How a circuit is numbered and listed, and which operands its gates take.
pub struct Kind {
    pub name: &'static str,
    /// The most variables whose text has no more than 16,777,216 bytes, about.
    pub most_in_a_text: usize,
    numbering: Order,
    operands: Operands,
}

pub const KINDS: [Kind; 4] = [
    Kind {
        name: "rising, short operands",
        most_in_a_text: 1_000_000,
        numbering: Order::Rising,
        operands: Operands::Short,
    },
    Kind {
        name: "shuffled, short operands",
        most_in_a_text: 1_000_000,
        numbering: Order::Any,
        operands: Operands::Short,
    },
    Kind {
        name: "rising, chained operands",
        most_in_a_text: 700_000,
        numbering: Order::Rising,
        operands: Operands::Near,
    },
    Kind {
        name: "shuffled, any operands",
        most_in_a_text: 700_000,
        numbering: Order::Any,
        operands: Operands::Any,
    },
];

/// A circuit with so many variables: 64 inputs, 8 latches and 128 outputs where there is room.
pub fn circuit(kind: &Kind, variables: usize) -> Circuit {
    let inputs = 64.min(variables / 8);
    let latches = 8.min(variables / 8);
    shaped(
        kind,
        Shape {
            inputs,
            latches,
            outputs: 128.min(variables),
            gates: variables - inputs - latches,
        },
    )
}

/// As many inputs, latches and outputs as there may be, and no gate.
pub fn widest() -> Circuit {
    shaped(
        &KINDS[0],
        Shape {
            inputs: 64,
            latches: 8,
            outputs: 128,
            gates: 0,
        },
    )
}

pub fn shaped(kind: &Kind, shape: Shape) -> Circuit {
    let plan = Plan {
        shape,
        numbering: kind.numbering,
        listing: kind.numbering,
        operands: kind.operands,
    };
    make(&mut Random::new(1, kind.name), &plan)
}
