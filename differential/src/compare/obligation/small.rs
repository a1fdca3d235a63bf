//! Small models with all claims.

use super::calls::Predicate;
use super::check::{Call, check};
use super::{Group, Run};
use crate::circuit::Circuit;
use crate::compare::inputs::all_words;
use crate::subject::model::Latch;
use crate::subject::obligation::Claim;

pub const RELATION: Group = Group {
    name: "relation rows: small models, all claims",
    run: |run| each_relation(run, each),
};

pub const TRANSDUCER: Group = Group {
    name: "transducer rows: small models, all claims",
    run: |run| each_transducer(run, each),
};

pub const TERMINAL: Group = Group {
    name: "terminal lists: small models, all claims",
    run: |run| each_terminal(run, each),
};

/// What is done with a call.
type Each = fn(&mut Run, &Call);

fn each(run: &mut Run, call: &Call) {
    check(run, call);
}

/// The predicates over one relevant input: none, both signs, one or the other, an empty clause.
const PREDICATES: [&[&[u32]]; 6] = [&[], &[&[1]], &[&[0]], &[&[1, 0, 1]], &[&[0], &[1]], &[&[]]];

pub fn each_relation(run: &mut Run, each: Each) {
    for circuit in one_gate(&[0]) {
        for predicate in PREDICATES {
            for source in 0..2 {
                for targets in sublists(&[0, 1]) {
                    let claim = Claim::Relation { source, targets };
                    go(run, &circuit, predicate, claim, each);
                }
            }
        }
    }
    for circuit in two_latches() {
        for source in 0..4 {
            for targets in sublists(&[0, 1, 2, 3]) {
                let claim = Claim::Relation { source, targets };
                go(run, &circuit, &[], claim, each);
            }
        }
    }
}

pub fn each_transducer(run: &mut Run, each: Each) {
    for circuit in one_gate(&[0, 1, 2, 3, 4, 5, 6, 7]) {
        each_outcome_list(run, &circuit, each);
    }
    for circuit in two_outputs() {
        each_outcome_list(run, &circuit, each);
    }
}

/// All sources, observed lists and claims of a model with one latch.
fn each_outcome_list(run: &mut Run, circuit: &Circuit, each: Each) {
    let outputs: Vec<u64> = (0..circuit.outputs.len() as u64).collect();
    for source in 0..2 {
        for observed in sublists(&outputs) {
            let bits = 0..1 << observed.len();
            let all: Vec<[u64; 3]> = [0, 1]
                .iter()
                .flat_map(|&target| bits.clone().map(move |low| [target, 0, low]))
                .collect();
            for outcomes in sublists(&all) {
                let predicate = run.random.choose(&PREDICATES);
                let claim = Claim::Transducer {
                    source,
                    observed: observed.clone(),
                    outcomes: outcomes.as_flattened().to_vec(),
                };
                go(run, circuit, predicate, claim, each);
            }
        }
    }
}

pub fn each_terminal(run: &mut Run, each: Each) {
    for circuit in one_gate(&[0, 1, 2, 3, 4, 5, 6, 7]) {
        if circuit.latches[0].next > 1 {
            continue;
        }
        for predicate in PREDICATES {
            for states in sublists(&[0, 1]) {
                let claim = Claim::Terminal {
                    bad_output: 0,
                    states,
                };
                go(run, &circuit, predicate, claim, each);
            }
        }
    }
    for circuit in two_outputs() {
        for bad_output in 0..2 {
            for states in sublists(&[0, 1]) {
                let claim = Claim::Terminal { bad_output, states };
                go(run, &circuit, &[], claim, each);
            }
        }
    }
}

/// Makes the call with enough room; without inputs, only a predicate without literals.
fn go(run: &mut Run, circuit: &Circuit, predicate: &[&[u32]], claim: Claim<Vec<u64>>, each: Each) {
    let inputs = circuit.inputs.len() as u64;
    let clauses: Vec<Vec<u32>> = predicate
        .iter()
        .filter(|clause| inputs > 0 || clause.is_empty())
        .map(|clause| clause.to_vec())
        .collect();
    let relevant: Vec<u64> = (0..inputs).collect();
    let predicate = Predicate::of(&clauses);
    let call = Call::new(&mut run.random, circuit, &relevant, predicate, claim);
    each(run, &call);
}

/// All lists of some of the items, in their order.
pub fn sublists<T: Copy>(items: &[T]) -> Vec<Vec<T>> {
    let chosen = |set: usize| {
        let items = items.iter().enumerate();
        let items = items.filter(move |(place, _)| set >> place & 1 == 1);
        items.map(|(_, &item)| item).collect()
    };
    (0..1_usize << items.len()).map(chosen).collect()
}

/// One input, one latch and one gate in each numbering, with all operands and next literals, and
/// these outputs.
fn one_gate(outputs: &[u64]) -> Vec<Circuit> {
    let mut circuits = Vec::new();
    for [input, current, gate] in [
        [2, 4, 6],
        [4, 2, 6],
        [2, 6, 4],
        [6, 2, 4],
        [4, 6, 2],
        [6, 4, 2],
    ] {
        for operands in 0..gate * gate {
            for next in 0..8 {
                circuits.extend(outputs.iter().map(|&output| Circuit {
                    variables: 3,
                    inputs: vec![input],
                    latches: vec![Latch { current, next }],
                    outputs: vec![output],
                    gates: vec![[gate, operands / gate, operands % gate]],
                }));
            }
        }
    }
    circuits
}

/// Two latches in either numbering with all next literals, without and with an input.
fn two_latches() -> Vec<Circuit> {
    let mut circuits = Vec::new();
    let orders: [(&[u64], [u64; 2]); 5] = [
        (&[], [2, 4]),
        (&[], [4, 2]),
        (&[2], [4, 6]),
        (&[4], [6, 2]),
        (&[6], [2, 4]),
    ];
    for (inputs, currents) in orders {
        let variables = inputs.len() + 2;
        let literals: Vec<u64> = (0..2 * variables as u64 + 2).collect();
        all_words(&literals, 2, |nexts| {
            let latches = currents.iter().zip(nexts);
            circuits.push(Circuit {
                variables,
                inputs: inputs.to_vec(),
                latches: latches
                    .map(|(&current, &next)| Latch { current, next })
                    .collect(),
                ..Circuit::default()
            });
        });
    }
    circuits
}

/// One latch with all next literals and two outputs, all of them.
fn two_outputs() -> Vec<Circuit> {
    let mut circuits = Vec::new();
    all_words(&[0, 1, 2, 3], 3, |literals| {
        circuits.push(Circuit {
            variables: 1,
            latches: vec![Latch {
                current: 2,
                next: literals[0],
            }],
            outputs: literals[1..].to_vec(),
            ..Circuit::default()
        });
    });
    circuits
}
