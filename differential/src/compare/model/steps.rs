//! The step: outcomes of models that are accepted, and states and input words that are not.

use super::check::{Record, steps};
use super::circuits::{Operands, Order, Plan, Shape, any_plan, make, small_shape, wide_shape};
use super::{Group, K, Q, Run};
use crate::circuit::Circuit;
use crate::random::Random;
use crate::reading::model as reading;
use crate::subject::model::Latch;

pub const SMALL: Group = Group {
    name: "steps: small models, all states and inputs",
    run: small,
};

pub const WIDE: Group = Group {
    name: "steps: wide models, each bit and random words",
    run: wide,
};

pub const WILD: Group = Group {
    name: "steps: states and inputs beyond the model",
    run: wild,
};

pub const LARGE: Group = Group {
    name: "steps: models of up to 1,000,000 variables",
    run: large,
};

/// Some states and input words of a model, and one that may be beyond it.
pub fn some_steps(random: &mut Random, circuit: &Circuit, count: usize) -> Vec<(u64, u64)> {
    let states = 1 << circuit.latches.len();
    let mut cases: Vec<(u64, u64)> = (0..count)
        .map(|_| {
            (
                random.below(states) as u64,
                random.bits(circuit.inputs.len()),
            )
        })
        .collect();
    cases.push((random.wide(), random.wide()));
    cases
}

fn check(run: &mut Run, circuit: &Circuit, cases: &[(u64, u64)]) {
    let record = Record::of(&mut run.random, circuit);
    steps(run, &record, cases);
}

fn small(run: &mut Run) {
    for text in [K, Q] {
        let circuit = reading::circuit(text, usize::MAX, usize::MAX).expect("a model");
        check_all(run, &circuit);
    }
    for _ in 0..run.cases / 20 {
        let shape = small_shape(&mut run.random);
        let plan = any_plan(&mut run.random, shape);
        let circuit = make(&mut run.random, &plan);
        check_all(run, &circuit);
    }
}

/// All states and input words of a small model, and the first ones beyond.
fn check_all(run: &mut Run, circuit: &Circuit) {
    let mut cases = Vec::new();
    for state in 0..=1 << circuit.latches.len() {
        for input in 0..=1 << circuit.inputs.len() {
            cases.push((state, input));
        }
    }
    check(run, circuit, &cases);
}

fn wide(run: &mut Run) {
    let wires = wires();
    let bits = |count: u32| (0..count).map(|bit| 1_u64 << bit);
    let mut cases: Vec<(u64, u64)> = bits(64).map(|input| (0, input)).collect();
    cases.extend(bits(8).map(|state| (state, 0)));
    cases.extend(
        cases
            .clone()
            .iter()
            .map(|(state, input)| (state ^ 255, !input)),
    );
    check(run, &wires, &cases);
    for _ in 0..run.cases / 8 {
        let shape = wide_shape(&mut run.random);
        let plan = any_plan(&mut run.random, shape);
        let circuit = make(&mut run.random, &plan);
        let cases = some_steps(&mut run.random, &circuit, 8);
        check(run, &circuit, &cases);
    }
}

/// Each input is an output, then each latch in both signs, then constants; latches are exchanged.
fn wires() -> Circuit {
    let inputs: Vec<u64> = (0..64).map(|place| 2 * (72 - place)).collect();
    let currents: Vec<u64> = (0..8).map(|place| 2 * (8 - place)).collect();
    let mut outputs = inputs.clone();
    outputs.extend(&currents);
    outputs.extend(currents.iter().map(|literal| literal + 1));
    outputs.extend((0..48).map(|place| place % 2));
    let latches = (0..8).map(|place| Latch {
        current: currents[place],
        next: currents[7 - place] + 1,
    });
    Circuit {
        variables: 72,
        latches: latches.collect(),
        inputs,
        outputs,
        gates: Vec::new(),
    }
}

fn wild(run: &mut Run) {
    for latches in 1..=8 {
        for inputs in [0, 1, 2, 7, 8, 31, 32, 33, 62, 63, 64] {
            let shape = Shape {
                inputs,
                latches,
                outputs: 9,
                gates: 9,
            };
            let plan = any_plan(&mut run.random, shape);
            let circuit = make(&mut run.random, &plan);
            let mut cases = Vec::new();
            for state in around(latches) {
                for input in around(inputs) {
                    cases.push((state, input));
                }
            }
            check(run, &circuit, &cases);
        }
    }
}

/// Words around 2^bits, and others beyond it.
fn around(bits: usize) -> Vec<u64> {
    let first = 1_u64.checked_shl(bits as u32).unwrap_or(0);
    let mut words: Vec<u64> = (0..64).map(|bit| 1 << bit).collect();
    words.extend([
        0,
        first.wrapping_sub(2),
        first.wrapping_sub(1),
        first.wrapping_add(1),
        first | 1 << 32,
        u64::MAX,
        u64::MAX - 1,
    ]);
    words
}

fn large(run: &mut Run) {
    for gates in [1_000, 100_000, 999_928] {
        let shape = Shape {
            inputs: 64,
            latches: 8,
            outputs: 128,
            gates,
        };
        for (order, operands) in [
            (Order::Rising, Operands::Near),
            (Order::Any, Operands::Any),
            (Order::Falling, Operands::Near),
        ] {
            let plan = Plan {
                shape,
                numbering: order,
                listing: order,
                operands,
            };
            let circuit = make(&mut run.random, &plan);
            let cases = some_steps(&mut run.random, &circuit, 1);
            check(run, &circuit, &cases);
        }
    }
}
