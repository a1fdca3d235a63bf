//! What the clauses of an accepted call must mean: a plain reading of R11 and of R7.7, over
//! all input words of a small model.

use super::model::{value, words_circuit};
use super::obligation::{bit, outcomes, output_bit, parts};
use crate::circuit::Circuit;
use crate::subject::obligation::{Asked, Claim};
use std::collections::BTreeSet;

/// Bit n is the value of CNF variable n.
pub type Assignment = u64;

/// What holds of a call, or of the clauses that are returned for it.
#[derive(Debug, Eq, PartialEq)]
pub struct Meaning {
    /// Every word that meets the predicate leads to a claim; the clauses are unsatisfiable.
    pub complete: bool,
    /// The values of the words that meet the predicate and lead to no claim; the assignments that
    /// satisfy the clauses.
    pub open: BTreeSet<Assignment>,
}

/// The meaning of a call that is accepted.
pub fn meaning(asked: &Asked) -> Meaning {
    let circuit = words_circuit(asked.record, asked.gates, usize::MAX).expect("an accepted model");
    let mut words: Vec<u64> = (0..1 << circuit.inputs.len()).collect();
    words.retain(|&word| meets(asked, word));
    match asked.claim {
        Claim::Relation { source, .. } | Claim::Transducer { source, .. } => {
            let values = words.iter().map(|&word| values(&circuit, source, word));
            let open: Vec<Vec<bool>> = values
                .filter(|values| !leads_to_claim(asked, &circuit, values))
                .collect();
            Meaning {
                complete: open.is_empty(),
                open: open.iter().map(|values| assignment(values)).collect(),
            }
        }
        Claim::Terminal { bad_output, states } => {
            terminal_meaning(&circuit, &words, bad_output, states)
        }
    }
}

/// R7.7: each state that an input word of the predicate leaves with the bad output 0 must be claimed.
fn terminal_meaning(circuit: &Circuit, words: &[u64], bad_output: u64, states: &[u64]) -> Meaning {
    let mut meaning = Meaning {
        complete: true,
        open: BTreeSet::new(),
    };
    for state in 0..1 << circuit.latches.len() {
        let values = words.iter().map(|&word| values(circuit, state, word));
        let good: Vec<Vec<bool>> = values
            .filter(|values| !value(values, circuit.outputs[bad_output as usize]))
            .collect();
        if !good.is_empty() && !states.contains(&state) {
            meaning.complete = false;
            let open = good.iter().map(|values| assignment(values));
            meaning.open.extend(open);
        }
    }
    meaning
}

/// R11.3: whether the predicate holds for an input word.
fn meets(asked: &Asked, word: u64) -> bool {
    let clauses = parts(asked.predicate_pairs, asked.predicate_literals).expect("good pairs");
    clauses.iter().all(|clause| {
        clause.iter().any(|&literal| {
            let input = asked.relevant[(literal / 2) as usize];
            bit(word, input as usize) == (literal % 2 == 1)
        })
    })
}

/// The values that the gate equations give every variable, wherever a gate is listed: operands have
/// smaller variables than their gate.
fn values(circuit: &Circuit, state: u64, word: u64) -> Vec<bool> {
    let mut values = vec![false; circuit.variables + 1];
    for (k, latch) in circuit.latches.iter().enumerate() {
        values[(latch.current / 2) as usize] = bit(state, k);
    }
    for (k, literal) in circuit.inputs.iter().enumerate() {
        values[(literal / 2) as usize] = bit(word, k);
    }
    let mut gates = circuit.gates.clone();
    gates.sort_unstable();
    for [output, left, right] in gates {
        values[(output / 2) as usize] = value(&values, left) && value(&values, right);
    }
    values
}

/// R11.5: whether one and the same claim has the state that the values lead to and, of each observed
/// output, the value.
fn leads_to_claim(asked: &Asked, circuit: &Circuit, values: &[bool]) -> bool {
    let leads_to = |state: u64| {
        let mut latches = circuit.latches.iter().enumerate();
        latches.all(|(k, latch)| value(values, latch.next) == bit(state, k))
    };
    match asked.claim {
        Claim::Relation { targets, .. } => targets.iter().any(|&target| leads_to(target)),
        Claim::Transducer {
            observed,
            outcomes: words,
            ..
        } => outcomes(words).iter().any(|outcome| {
            let mut observed = observed.iter().enumerate();
            leads_to(outcome[0])
                && observed.all(|(k, &output)| {
                    value(values, circuit.outputs[output as usize]) == output_bit(outcome, k)
                })
        }),
        Claim::Terminal { .. } => unreachable!("a terminal list leads nowhere"),
    }
}

fn assignment(values: &[bool]) -> Assignment {
    let variables = values[1..].iter().enumerate();
    variables.fold(0, |bits, (n, &value)| bits | u64::from(value) << n)
}
