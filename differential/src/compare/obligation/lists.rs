//! Sources, claimed lists and observed outputs: the limits of R9.14.

use super::calls::set_apart;
use super::check::{Call, check};
use super::{Group, Run};
use crate::circuit::Circuit;
use crate::compare::inputs::all_words;
use crate::compare::model::circuits::{Shape, any_plan, make};
use crate::reading::obligation::MOST_OUTCOMES;
use crate::subject::obligation::Claim;

pub const STATES: Group = Group {
    name: "claims: states around 2^L, lists that do not rise",
    run: states,
};

pub const OBSERVED: Group = Group {
    name: "claims: bad and observed outputs around O",
    run: observed,
};

pub const BITS: Group = Group {
    name: "claims: each bit of outcomes",
    run: bits,
};

pub const ORDER: Group = Group {
    name: "claims: the order of outcomes",
    run: order,
};

pub const MANY: Group = Group {
    name: "claims: around 65,536 outcomes",
    run: many,
};

/// A model with so many latches and outputs, whose literals are all of different variables, so that
/// no claim's clause is dropped.
pub fn model(run: &mut Run, latches: usize, outputs: usize) -> Circuit {
    let shape = Shape {
        inputs: 3,
        latches,
        outputs,
        gates: 9 + outputs,
    };
    let plan = any_plan(&mut run.random, shape);
    let mut circuit = make(&mut run.random, &plan);
    set_apart(&mut run.random, &mut circuit);
    circuit
}

fn go(run: &mut Run, circuit: &Circuit, claim: Claim<Vec<u64>>) {
    let call = Call::plain(&mut run.random, circuit, claim);
    check(run, &call);
}

/// A source and list of states in each of the calls.
fn each_state_list(run: &mut Run, circuit: &Circuit, source: u64, list: &[u64]) {
    let targets = list.to_vec();
    go(run, circuit, Claim::Relation { source, targets });
    let outcomes = list.iter().flat_map(|&target| [target, 0, 0]).collect();
    let observed = vec![];
    go(
        run,
        circuit,
        Claim::Transducer {
            source,
            observed,
            outcomes,
        },
    );
    let states = list.to_vec();
    let bad_output = 0;
    go(run, circuit, Claim::Terminal { bad_output, states });
}

fn states(run: &mut Run) {
    for latches in 1..=8 {
        let circuit = model(run, latches, 1);
        let count = 1_u64 << latches;
        let around = [
            0,
            1,
            count - 1,
            count,
            count + 1,
            255,
            256,
            1 << 32,
            (1 << 32) + 1,
            1 << 63,
            u64::MAX,
        ];
        for state in around {
            each_state_list(run, &circuit, state, &[]);
            each_state_list(run, &circuit, 0, &[state]);
            for other in around {
                each_state_list(run, &circuit, 1, &[state, other]);
            }
        }
        all_words(&[0, 1, count - 1], 3, |list| {
            each_state_list(run, &circuit, 0, list);
        });
        let all: Vec<u64> = (0..count).collect();
        each_state_list(run, &circuit, count - 1, &all);
        each_state_list(run, &circuit, 0, &[&all[..], &[count]].concat());
        for place in 1..all.len() {
            let mut exchanged = all.clone();
            exchanged.swap(place - 1, place);
            each_state_list(run, &circuit, 0, &exchanged);
            let mut repeated = all.clone();
            repeated[place] -= 1;
            each_state_list(run, &circuit, 0, &repeated);
        }
    }
}

/// Outputs below, at and beyond O, in lists of all kinds.
fn observed(run: &mut Run) {
    for outputs in [0, 1, 2, 3, 63, 64, 65, 127, 128] {
        let circuit = model(run, 2, outputs);
        let count = outputs as u64;
        let around = [
            0,
            1,
            count.wrapping_sub(1),
            count,
            count + 1,
            127,
            128,
            129,
            1 << 32,
            1 << 63,
            u64::MAX,
        ];
        for output in around {
            let (bad_output, states) = (output, vec![0, 2]);
            go(run, &circuit, Claim::Terminal { bad_output, states });
            observe(run, &circuit, &[output]);
            for other in around {
                observe(run, &circuit, &[output, other]);
            }
        }
        let all: Vec<u64> = (0..count).collect();
        for first in 0..outputs {
            observe(run, &circuit, &all[first..]);
            observe(run, &circuit, &all[..first]);
            let mut repeated = all.clone();
            repeated.insert(first, first as u64);
            observe(run, &circuit, &repeated);
            let mut exchanged = all.clone();
            exchanged.swap(0, first);
            observe(run, &circuit, &exchanged);
        }
        for step in [1, 2, 3, 5] {
            let some: Vec<u64> = all.iter().copied().step_by(step).collect();
            observe(run, &circuit, &some);
        }
        let more: Vec<u64> = (0..130).collect();
        for end in [count + 1, 128, 129, 130] {
            observe(run, &circuit, &more[..end as usize]);
        }
    }
}

/// Outcomes with no bit, with any, and with the last that the list has.
fn observe(run: &mut Run, circuit: &Circuit, observed: &[u64]) {
    let count = observed.len().min(128);
    let low = count.min(64);
    let any = [1, run.random.bits(count - low), run.random.bits(low)];
    let last = match count {
        0 => [2, 0, 0],
        1..=64 => [2, 0, 1 << (count - 1)],
        _ => [2, 1 << (count - 65), 0],
    };
    for outcomes in [vec![], vec![[0, 0, 0], any, last]] {
        let claim = Claim::Transducer {
            source: 1,
            observed: observed.to_vec(),
            outcomes: outcomes.as_flattened().to_vec(),
        };
        go(run, circuit, claim);
    }
}

/// Each bit of the two halves alone, with so many observed outputs.
fn bits(run: &mut Run) {
    let circuit = model(run, 3, 128);
    for count in [0, 1, 2, 31, 32, 33, 62, 63, 64, 65, 66, 126, 127, 128] {
        let observed: Vec<u64> = (128 - count..128).collect();
        for bit in 0..128 {
            let (high, low) = match bit {
                0..=63 => (0, 1 << bit),
                _ => (1 << (bit - 64), 0),
            };
            for outcomes in [vec![5, high, low], vec![1, 0, 0, 5, high, low, 6, 0, 0]] {
                let claim = Claim::Transducer {
                    source: 3,
                    observed: observed.clone(),
                    outcomes,
                };
                go(run, &circuit, claim);
            }
        }
    }
}

/// Two and three outcomes whose target, high and low halves rise and fall; words left over.
fn order(run: &mut Run) {
    let circuit = model(run, 2, 128);
    let all: Vec<u64> = (0..128).collect();
    let claim = |outcomes: &[[u64; 3]], more: &[u64]| Claim::Transducer {
        source: 2,
        observed: all.clone(),
        outcomes: [outcomes.as_flattened(), more].concat(),
    };
    let mut outcomes = Vec::new();
    for target in [0, 1, 3] {
        all_words(&[0, 1, u64::MAX], 2, |halves| {
            outcomes.push([target, halves[0], halves[1]]);
        });
    }
    all_words(&outcomes, 2, |two| go(run, &circuit, claim(two, &[])));
    let few = [[0, 0, 1], [0, 1, 0], [1, 0, 0], [1, 0, 1], [0, 1, 1]];
    all_words(&few, 3, |three| {
        for more in [&[][..], &[0], &[0, 0], &[9, 9]] {
            go(run, &circuit, claim(three, more));
        }
    });
}

/// All outcomes of eight latches and eight or nine outputs, up to the limit and past it.
fn many(run: &mut Run) {
    let circuit = model(run, 8, 12);
    let list = |count: usize, bits: usize| -> Vec<[u64; 3]> {
        let each = 1 << bits;
        let outcomes = (0..count as u64).map(|place| [place / each, 0, place % each]);
        outcomes.collect()
    };
    for count in [65_535, MOST_OUTCOMES, MOST_OUTCOMES + 1, 131_072] {
        for more in 0..3 {
            let mut outcomes = list(count, 9).as_flattened().to_vec();
            outcomes.extend(&vec![u64::MAX; more]);
            let claim = Claim::Transducer {
                source: 255,
                observed: (2..11).collect(),
                outcomes,
            };
            go(run, &circuit, claim);
        }
    }
    // A fault in the last outcome, or in the last but one.
    for fault in [
        [0, 0, 0],
        [256, 0, 0],
        [255, 1, 255],
        [255, 0, 256],
        [255, 0, 254],
    ] {
        let mut outcomes = list(MOST_OUTCOMES, 8);
        outcomes[MOST_OUTCOMES - 1] = fault;
        let claim = Claim::Transducer {
            source: 0,
            observed: (1..9).collect(),
            outcomes: outcomes.as_flattened().to_vec(),
        };
        go(run, &circuit, claim);
    }
}
