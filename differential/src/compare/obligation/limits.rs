//! What is lent: room, work and gate words, the record's words; and several faults at once.

use super::calls::{Predicate, any_claim};
use super::check::{Call, check};
use super::{Group, Run, lists, predicates};
use crate::circuit::Circuit;
use crate::compare::lent::Words;
use crate::compare::model::{K, Q};
use crate::reading::model as reading;
use crate::reading::obligation;
use crate::subject::model::WORDS;
use crate::subject::obligation::Claim;

pub const ROOM: Group = Group {
    name: "lent: room for pairs and literals",
    run: room,
};

pub const LENT: Group = Group {
    name: "lent: work and gate words",
    run: lent,
};

pub const RECORDS: Group = Group {
    name: "lent: records of fewer than 213 words",
    run: records,
};

pub const FIRST_REASON: Group = Group {
    name: "several faults at once",
    run: first_reason,
};

/// Small models of which each kind of call can be made.
fn models(run: &mut Run) -> Vec<Circuit> {
    let texts = [K, Q].map(|text| reading::circuit(text, usize::MAX, usize::MAX).expect("a model"));
    let mut models = texts.to_vec();
    models.push(predicates::model(run, 2));
    models.push(lists::model(run, 1, 2));
    models
}

/// Each kind of call of a model, with a clause for the first input, where there is one.
fn calls(run: &mut Run, circuit: &Circuit) -> Vec<Call> {
    let relevant: Vec<u64> = (0..circuit.inputs.len() as u64).collect();
    let clauses: &[Vec<u32>] = if relevant.is_empty() {
        &[]
    } else {
        &[vec![1, 0], vec![1]]
    };
    (0..3)
        .map(|kind| {
            let claim = any_claim(&mut run.random, circuit, kind);
            let predicate = Predicate::of(clauses);
            Call::new(&mut run.random, circuit, &relevant, predicate, claim)
        })
        .collect()
}

/// How many clauses and literals a call that is accepted makes.
pub fn needed(call: &Call) -> (usize, usize) {
    let made = call.answered(obligation::make).made;
    assert_eq!(made.reason, 0, "{}", call.shown());
    (made.clauses as usize, made.literals as usize)
}

/// No room, exactly enough, one less and more: of pairs, of literals and of both.
fn room(run: &mut Run) {
    for circuit in models(run) {
        for _ in 0..20 {
            for mut call in calls(run, &circuit) {
                let (pairs, literals) = needed(&call);
                let pair_words = (0..6).chain((2 * pairs).saturating_sub(3)..2 * pairs + 4);
                for pair_words in pair_words {
                    for literals in (0..3).chain(literals.saturating_sub(2)..literals + 3) {
                        call.pairs = Words::garbage(&mut run.random, pair_words);
                        call.literals = Words::garbage(&mut run.random, literals);
                        check(run, &call);
                    }
                }
            }
        }
    }
    nothing_needed(run);
}

/// Empty clauses need no literal: a latch whose next literal is constant and an empty predicate
/// clause; and a terminal list that has no clause at all needs nothing.
fn nothing_needed(run: &mut Run) {
    let constant = reading::circuit(b"aag 1 0 1 1 0\n2 0\n0\n", 0, 2).expect("a model");
    for (claim, clauses) in [
        (
            Claim::Terminal {
                bad_output: 0,
                states: vec![],
            },
            vec![],
        ),
        (
            Claim::Terminal {
                bad_output: 0,
                states: vec![],
            },
            vec![vec![], vec![]],
        ),
        (
            Claim::Relation {
                source: 1,
                targets: vec![0, 1],
            },
            vec![vec![]],
        ),
    ] {
        for pair_words in 0..=8 {
            for literals in 0..3 {
                let predicate = Predicate::of(&clauses);
                let mut call = Call::new(&mut run.random, &constant, &[], predicate, claim.clone());
                call.pairs = Words::garbage(&mut run.random, pair_words);
                call.literals = Words::garbage(&mut run.random, literals);
                check(run, &call);
            }
        }
    }
}

/// Work words from none to M + 3, gate words from none to 3A + 2.
fn lent(run: &mut Run) {
    for circuit in models(run) {
        for mut call in calls(run, &circuit) {
            for gate_words in 0..=circuit.words().len() + 2 {
                for work_words in 0..=circuit.variables + 3 {
                    call.record.gates = circuit.words().to_vec();
                    call.record.gates.resize(gate_words, 0);
                    call.record.work = Words::garbage(&mut run.random, work_words);
                    check(run, &call);
                }
            }
        }
    }
    // M + 1 wraps.
    for circuit in models(run) {
        for mut call in calls(run, &circuit) {
            call.record.model.max_variable = usize::MAX;
            check(run, &call);
            call.record.work = Words(Vec::new());
            check(run, &call);
        }
    }
}

/// All lengths of records. One that is cut is refused, also where the words that it lacks would be 0.
fn records(run: &mut Run) {
    let mut circuits = models(run);
    let bare = reading::circuit(b"aag 2 1 1 0 0\n2\n4 2\n", 0, 3).expect("a model");
    let outputs = reading::circuit(b"aag 2 1 1 2 0\n2\n4 2\n3\n4\n", 0, 3).expect("a model");
    circuits.extend([bare, outputs]);
    for circuit in circuits {
        for mut call in calls(run, &circuit) {
            for words in 0..=WORDS {
                call.record_words = words;
                check(run, &call);
            }
        }
    }
}

/// One fault of each number, in all combinations.
fn first_reason(run: &mut Run) {
    type Break = fn(&mut Call);
    let sevens: [Break; 2] = [|_| (), |call| call.record.work.0.clear()];
    let elevens: [Break; 4] = [
        |_| (),
        |call| call.record.model.latches[0].current = 3,
        |call| call.record.model.max_variable += 1,
        |call| call.record.gates.clear(),
    ];
    let thirteens: [Break; 5] = [
        |_| (),
        |call| call.relevant = vec![1, 1],
        |call| call.predicate.literals[0] = 99,
        |call| call.predicate.pairs[1] = 99,
        |call| call.predicate.pairs.resize(200, 2),
    ];
    let fourteens: [Break; 3] = [
        |_| (),
        |call| match &mut call.claim {
            Claim::Relation { source, .. } | Claim::Transducer { source, .. } => *source = 99,
            Claim::Terminal { bad_output, .. } => *bad_output = 99,
        },
        |call| match &mut call.claim {
            Claim::Relation { targets: list, .. } | Claim::Terminal { states: list, .. } => {
                *list = vec![1, 1];
            }
            Claim::Transducer { outcomes, .. } => *outcomes = vec![99, 0, 0],
        },
    ];
    let twenties: [Break; 4] = [
        |_| (),
        |call| call.pairs.0.clear(),
        |call| call.literals.0.clear(),
        |call| {
            call.pairs.0.truncate(3);
            call.literals.0.truncate(1);
        },
    ];
    let circuit = predicates::model(run, 2);
    for seven in sevens {
        for eleven in elevens {
            for thirteen in thirteens {
                for fourteen in fourteens {
                    for twenty in twenties {
                        for mut call in calls(run, &circuit) {
                            for fault in [seven, eleven, thirteen, fourteen, twenty] {
                                fault(&mut call);
                            }
                            check(run, &call);
                        }
                    }
                }
            }
        }
    }
}
