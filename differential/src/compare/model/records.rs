//! Records that are handed in: the validation, and the step on what it refuses.

use super::check::{Record, lent_as, steps, validate};
use super::circuits::{Shape, any_plan, make, small_shape, wide_shape};
use super::steps::some_steps;
use super::{Group, K, Q, Run};
use crate::circuit::Circuit;
use crate::compare::inputs::all_words;
use crate::compare::lent::Words;
use crate::random::Random;
use crate::reading::model as reading;
use crate::subject::model::{self, Latch, Model};

pub const SMALL: Group = Group {
    name: "records: all literals of small ones",
    run: small,
};

pub const COUNTS: Group = Group {
    name: "records: counts around and beyond the limits",
    run: counts,
};

pub const LENT: Group = Group {
    name: "records: gate and work words around the need",
    run: lent,
};

pub const WORDS: Group = Group {
    name: "records: lent as any number of words",
    run: words,
};

pub const RANDOM: Group = Group {
    name: "records: random and damaged",
    run: random,
};

/// 3A wraps to 1, to 2^64 - 1 and to 2 for these A.
const WRAPPING: [u64; 3] = [
    12297829382473034411,
    6148914691236517205,
    6148914691236517206,
];

/// Compares the validation of a record, and a step of it.
fn check(run: &mut Run, record: &Record) {
    validate(run, record);
    steps(run, record, &[(1, 0)]);
}

fn small(run: &mut Run) {
    const VALUES: [u64; 9] = [0, 1, 2, 3, 4, 5, 6, 7, u64::MAX];
    let record = |run: &mut Run, circuit: Circuit| {
        let record = Record::of(&mut run.random, &circuit);
        check(run, &record);
    };
    all_words(&VALUES, 5, |numbers| {
        let &[current, next, output, left, right] = numbers else {
            return;
        };
        let circuit = Circuit {
            variables: 2,
            latches: vec![Latch { current, next }],
            gates: vec![[output, left, right]],
            ..Circuit::default()
        };
        record(run, circuit);
    });
    all_words(&VALUES, 4, |numbers| {
        let &[input, current, next, output] = numbers else {
            return;
        };
        let circuit = Circuit {
            variables: 2,
            inputs: vec![input],
            latches: vec![Latch { current, next }],
            outputs: vec![output],
            ..Circuit::default()
        };
        record(run, circuit);
    });
}

fn counts(run: &mut Run) {
    const VARIABLES: [u64; 8] = [0, 1, 2, 3, 66, 73, 1_000_001, u64::MAX];
    const INPUTS: [u64; 7] = [0, 1, 2, 64, 65, 1 << 32, u64::MAX];
    const LATCHES: [u64; 6] = [0, 1, 2, 8, 9, u64::MAX];
    const OUTPUTS: [u64; 5] = [0, 1, 128, 129, u64::MAX];
    const GATES: [u64; 8] = [0, 1, 2, 3, WRAPPING[0], WRAPPING[1], WRAPPING[2], u64::MAX];
    for variables in VARIABLES {
        for inputs in INPUTS {
            for latches in LATCHES {
                for outputs in OUTPUTS {
                    for gates in GATES {
                        let counts = [variables, inputs, latches, outputs, gates];
                        let record = counted(&mut run.random, counts, 80);
                        check(run, &record);
                    }
                }
            }
        }
    }
    // M at its limit with a work slice that is long enough, and M + 1 = 2^64.
    for (variables, gates) in [(1_000_000, 999_999), (1_000_001, 1_000_000), (1_000_000, 2)] {
        let mut record = counted(&mut run.random, [variables, 0, 1, 0, gates], 1_000_002);
        check(run, &record);
        record.gates = vec![0; 3 * gates as usize];
        check(run, &record);
    }
    let record = counted(&mut run.random, [u64::MAX, 64, 8, 0, u64::MAX - 72], 0);
    check(run, &record);
    at_limits(run);
}

/// A record with these counts and as many literals as it has room for: variables rise from input 0.
fn counted(random: &mut Random, counts: [u64; 5], work_words: usize) -> Record {
    let [variables, inputs, latches, outputs, gates] = counts.map(|count| count as usize);
    let mut model = Model {
        max_variable: variables,
        input_count: inputs,
        latch_count: latches,
        output_count: outputs,
        and_count: gates,
        ..Model::ZERO
    };
    for (place, literal) in model.inputs.iter_mut().enumerate() {
        *literal = 2 * place as u64 + 2;
    }
    let first = inputs.min(64) as u64;
    for (place, latch) in model.latches.iter_mut().enumerate() {
        latch.current = 2 * (first + place as u64) + 2;
    }
    let first = first + latches.min(8) as u64;
    let words = (0..2).flat_map(|gate| [2 * (first + gate) + 2, 0, 1]);
    Record {
        model,
        gates: words.collect(),
        work: Words::garbage(random, work_words),
    }
}

/// Whole records with as many of each as there is room for, and one more.
fn at_limits(run: &mut Run) {
    for inputs in [63, 64, 65] {
        for latches in [7, 8, 9] {
            for outputs in [127, 128, 129] {
                let variables = inputs + latches + 2;
                let record = counted(
                    &mut run.random,
                    [variables, inputs, latches, outputs, 2],
                    80,
                );
                check(run, &record);
            }
        }
    }
}

/// K and Q, whole and broken, with few words more or less than they need; also states that are 12.
fn lent(run: &mut Run) {
    for text in [K, Q] {
        let circuit = reading::circuit(text, usize::MAX, usize::MAX).expect("a model");
        for broken in 0..6 {
            for gate_words in 0..=circuit.words().len() + 2 {
                for work_words in 0..=circuit.variables + 3 {
                    let mut record = Record::of(&mut run.random, &circuit);
                    record.gates = circuit.words().to_vec();
                    record.gates.resize(gate_words, 0);
                    record.work = Words::garbage(&mut run.random, work_words);
                    match broken {
                        0 => record.model.latches[0].current = 3,
                        1 => record.model.and_count += 1,
                        2 => record.model.outputs[0] = 8,
                        3 => record.model.max_variable += 1,
                        _ => {}
                    }
                    validate(run, &record);
                    steps(
                        run,
                        &record,
                        &[(0, 0), (1, 0), (2, 0), (0, 1), (0, 2), (u64::MAX, 0)],
                    );
                }
            }
        }
    }
}

/// Records of all lengths up to two words more than the whole, with the work words that they need and
/// one less. One that is cut is refused, also where the words that it lacks would be 0.
fn words(run: &mut Run) {
    for (inputs, outputs, gates) in [
        (1, 1, 1),
        (2, 0, 0),
        (0, 0, 0),
        (0, 1, 0),
        (64, 128, 0),
        (64, 127, 0),
        (3, 40, 0),
        (64, 128, 9),
        (1, 0, 3),
    ] {
        for latches in 1..=8 {
            let shape = Shape {
                inputs,
                latches,
                outputs,
                gates,
            };
            let plan = any_plan(&mut run.random, shape);
            let mut circuit = make(&mut run.random, &plan);
            circuit.latches[latches - 1].next *= latches as u64 % 2;
            each_length(run, &circuit);
        }
    }
}

fn each_length(run: &mut Run, circuit: &Circuit) {
    let mut record = Record::of(&mut run.random, circuit);
    let mut words = record.model.words().to_vec();
    words.extend([run.random.wide(), run.random.wide()]);
    let cases = some_steps(&mut run.random, circuit, 2);
    for _ in 0..2 {
        for length in 0..=words.len() {
            lent_as(run, &record, &words[..length], &cases);
        }
        record.work.0.pop();
    }
}

fn random(run: &mut Run) {
    for case in 0..run.cases {
        let shape = match case % 4 {
            0 => wide_shape(&mut run.random),
            _ => small_shape(&mut run.random),
        };
        let plan = any_plan(&mut run.random, shape);
        let circuit = make(&mut run.random, &plan);
        let mut record = Record::of(&mut run.random, &circuit);
        if run.random.once_in(3) {
            let more = run.random.below(9);
            record.work = Words::garbage(&mut run.random, circuit.variables + 1 + more);
        }
        for _ in 0..run.random.below(3) {
            damage(&mut run.random, &mut record, &circuit);
        }
        validate(run, &record);
        let cases = some_steps(&mut run.random, &circuit, 2);
        steps(run, &record, &cases);
    }
}

/// Changes one literal or count of a record, or what is lent with it.
pub fn damage(random: &mut Random, record: &mut Record, circuit: &Circuit) {
    let model = &mut record.model;
    let words = circuit.words().len().min(record.gates.len());
    match random.below(9) {
        0 => change(random, &mut model.inputs[..circuit.inputs.len()]),
        1 => {
            let latch = &mut model.latches[random.below(circuit.latches.len())];
            latch.current = changed(random, latch.current);
        }
        2 => {
            let latch = &mut model.latches[random.below(circuit.latches.len())];
            latch.next = changed(random, latch.next);
        }
        3 => change(random, &mut model.outputs[..circuit.outputs.len()]),
        4 | 5 => change(random, &mut record.gates[..words]),
        6 => {
            let length = record.gates.len().saturating_sub(1 + random.below(3));
            record.gates.truncate(length);
        }
        7 => {
            record.work.0.pop();
        }
        _ => change_count(random, model),
    }
}

fn change_count(random: &mut Random, model: &mut Model) {
    let count = match random.below(5) {
        0 => &mut model.max_variable,
        1 => &mut model.input_count,
        2 => &mut model.latch_count,
        3 => &mut model.output_count,
        _ => &mut model.and_count,
    };
    *count = changed(random, *count as u64) as usize;
}

pub fn change(random: &mut Random, slots: &mut [u64]) {
    if !slots.is_empty() {
        let place = random.below(slots.len());
        let other = slots[random.below(slots.len())];
        slots[place] = if random.once_in(4) {
            other
        } else {
            changed(random, slots[place])
        };
    }
}

pub fn changed(random: &mut Random, number: u64) -> u64 {
    match random.below(6) {
        0 => number.wrapping_add(1),
        1 => number.wrapping_sub(1),
        2 => number.wrapping_add(2),
        3 => number.wrapping_sub(2),
        4 => random.below(12) as u64,
        _ => random.wide(),
    }
}

/// The record with zeros for the words that are not there.
pub fn filled_up(record: &[u64]) -> Vec<u64> {
    let mut words = record.to_vec();
    words.resize(record.len().max(model::WORDS), 0);
    words
}
