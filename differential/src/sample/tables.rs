//! Cases that are in the sample whatever is chosen: the requirements' tables, and lines with literals.

use super::case::{Case, Making};
use crate::circuit::Circuit;
use crate::compare::compose::cases::Case as Texts;
use crate::compare::compose::{FIRST, MODEL, SECOND};
use crate::compare::model::{K, Q};
use crate::reading;
use crate::subject::RULES;
use crate::subject::model::Model;
use crate::subject::obligation::Claim;
use crate::subject::witness::ROLES;

/// The model with one latch and a constant next literal.
const CONSTANT: &[u8] = b"aag 1 0 1 0 0\n2 0\n";

/// A witness whose latches are not numbered in their order, which is 11.
const LATCHES: &[u8] = b"aag 2 0 2 1 0\n4 4\n2 2\n2\n";

pub fn cases() -> Vec<Case> {
    let mut cases = Vec::new();
    for (text, gates, work) in [(Q, 9, 5), (CONSTANT, 0, 2)] {
        cases.push(transition(text, gates, work));
    }
    // 7 below three gate words and below four work words.
    for gates in 0..5 {
        cases.extend((0..6).map(|work| transition(K, gates, work)));
    }
    for (text, state, input) in [(K, 1, 1), (K, 1, 0), (K, 2, 0), (K, 1, 2), (Q, 1, 0)] {
        cases.push(step(text, state, input));
    }
    cases.extend(claims().map(|(text, claim)| row(text, claim)));
    for (work, room) in [(1_104, 82), (1_103, 82), (1_104, 81)] {
        cases.push(composed(work, room));
    }
    for text in [MODEL, FIRST, SECOND, LATCHES] {
        for role in ROLES {
            let text = text.to_vec();
            cases.push(Case::Witness { text, role });
        }
    }
    cases.extend(literals());
    cases
}

fn circuit(text: &[u8]) -> Circuit {
    reading::model::circuit(text, usize::MAX, usize::MAX).expect("a model")
}

fn transition(text: &[u8], gates: usize, work: usize) -> Case {
    let text = text.to_vec();
    Case::Transition { text, gates, work }
}

fn step(text: &[u8], state: u64, input: u64) -> Case {
    let circuit = circuit(text);
    Case::Step {
        record: Model::of(&circuit).words().to_vec(),
        gates: circuit.words().to_vec(),
        work: circuit.variables + 1,
        state,
        input,
    }
}

/// Claims of the tables, and a row with outputs.
fn claims() -> [(&'static [u8], Claim<Vec<u64>>); 6] {
    let terminal = |states: &[u64]| Claim::Terminal {
        bad_output: 0,
        states: states.to_vec(),
    };
    let relation = |source, target| Claim::Relation {
        source,
        targets: vec![target],
    };
    let outcomes = Claim::Transducer {
        source: 1,
        observed: vec![0],
        outcomes: vec![0, 0, 0, 1, 0, 1],
    };
    [
        (K, terminal(&[0, 1])),
        (K, terminal(&[0])),
        (K, relation(1, 1)),
        (CONSTANT, relation(0, 0)),
        (Q, relation(1, 1)),
        (K, outcomes),
    ]
}

fn row(text: &[u8], claim: Claim<Vec<u64>>) -> Case {
    let circuit = circuit(text);
    Case::Making(Making {
        record: Model::of(&circuit).words().to_vec(),
        gates: circuit.words().to_vec(),
        relevant: Vec::new(),
        predicate_pairs: Vec::new(),
        predicate_literals: Vec::new(),
        claim,
        work: circuit.variables + 1,
        pairs: 40,
        literals: 40,
    })
}

/// The composing case with so many work words and bytes lent.
fn composed(work: usize, room: usize) -> Case {
    let texts = Texts::of(MODEL, &[FIRST, SECOND]);
    Case::Compose {
        model: texts.model,
        witnesses: texts.witnesses,
        pairs: texts.pairs,
        work,
        room,
    }
}

/// Each line of these texts by both rules, and places that no line begins at.
fn literals() -> Vec<Case> {
    const TEXTS: [&[u8]; 5] = [
        b"7\n+7\n07\n+07\n0\n00\n+0\n\n 7\n7 \n\t7\x0b\n7\r\n\r\n7 7\n-7\n7x\n+\n++7\n",
        b"18446744073709551615\n18446744073709551616\n+000000000000000000000000000000000000007\n",
        b"99999999999999999999\n100000000000000000000\n9223372036854775808\n1844674407370955161",
        b"7",
        b"\xb2\n7\x00\n7\x1c\n",
    ];
    let mut cases = Vec::new();
    for text in TEXTS {
        let starts = (0..text.len()).filter(|&at| at == 0 || text[at - 1] == 10);
        let mut places: Vec<usize> = starts.collect();
        places.extend([1, text.len(), text.len() + 1, usize::MAX]);
        for at in places {
            for rule in RULES {
                let text = text.to_vec();
                cases.push(Case::Literal { text, rule, at });
            }
        }
    }
    cases
}
