//! Random models, and their form in the original.

use crate::published::aiger_obligation as original;
use crate::random::Random;
use nitrasovy::aiger_obligation::{AigerAnd, AigerLatch, AigerTransition};

/// A model that keeps the limits, its variables numbered in any order and its gates listed in any.
pub fn model(random: &mut Random, most_gates: usize) -> AigerTransition {
    let latches = 1 + random.below(3);
    let inputs = random.below(5);
    let gates = random.below(most_gates + 1);
    let variables = inputs + latches + gates;
    let mut order: Vec<usize> = (1..=variables).collect();
    random.shuffle(&mut order);
    let mut literals = order.into_iter().map(|variable| 2 * variable);
    let any = |random: &mut Random| random.below(2 * variables + 2);
    let outputs = random.below(5);
    AigerTransition {
        max_variable: variables,
        inputs: literals.by_ref().take(inputs).collect(),
        latches: literals
            .by_ref()
            .take(latches)
            .map(|current| AigerLatch {
                current,
                next: any(random),
            })
            .collect(),
        outputs: (0..outputs).map(|_| any(random)).collect(),
        ands: literals
            .map(|output| AigerAnd {
                output,
                left: random.below(output),
                right: random.below(output),
            })
            .collect(),
    }
}

/// Changes one number of a model, or the length of a list.
pub fn damage(random: &mut Random, model: &mut AigerTransition) {
    let other = random.choose(&[0, 1, 2, 3, 5, 8, 17, 30, usize::MAX]);
    match random.below(11) {
        0 => model.max_variable = other,
        1 => model.max_variable = model.max_variable.wrapping_add(1),
        2 => model.inputs.push(other),
        3 => drop(model.inputs.pop()),
        4 => model.outputs.push(other),
        5 => drop(model.latches.pop()),
        6 => drop(model.ands.pop()),
        7 => model.inputs.resize(random.choose(&[64, 65, 66, 300]), 2),
        8 => model
            .outputs
            .resize(random.choose(&[127, 128, 129, 300]), 0),
        9 => {
            if let Some(latch) = model.latches.first_mut() {
                latch.current = other;
            }
        }
        _ => {
            let at = random.below(model.ands.len() + 1);
            if let Some(gate) = model.ands.get_mut(at) {
                gate.left = other;
            }
        }
    }
}

/// The model in the original's types.
pub fn theirs(model: &AigerTransition) -> original::AigerTransition {
    let latches = model.latches.iter().map(|latch| original::AigerLatch {
        current: latch.current,
        next: latch.next,
    });
    let gates = model.ands.iter().map(|gate| original::AigerAnd {
        output: gate.output,
        left: gate.left,
        right: gate.right,
    });
    original::AigerTransition {
        max_variable: model.max_variable,
        inputs: model.inputs.clone(),
        latches: latches.collect(),
        outputs: model.outputs.clone(),
        ands: gates.collect(),
    }
}

/// A model's text.
pub fn text(model: &AigerTransition) -> String {
    let counts = [
        model.max_variable,
        model.inputs.len(),
        model.latches.len(),
        model.outputs.len(),
        model.ands.len(),
    ];
    let mut text = format!("aag {}\n", spaced(&counts));
    let mut line = |literals: &[usize]| text.push_str(&format!("{}\n", spaced(literals)));
    model.inputs.iter().for_each(|&input| line(&[input]));
    for latch in &model.latches {
        line(&[latch.current, latch.next]);
    }
    model.outputs.iter().for_each(|&output| line(&[output]));
    for gate in &model.ands {
        line(&[gate.output, gate.left, gate.right]);
    }
    text
}

pub fn spaced(numbers: &[usize]) -> String {
    let numbers: Vec<String> = numbers.iter().map(usize::to_string).collect();
    numbers.join(" ")
}
