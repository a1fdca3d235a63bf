//! Wrong clauses: claims, gates, predicates and the source.

use super::super::{Fault, lists, meaning, predicates, random, small, tables};
use super::{OURS, rebuilt, with_claims, written};
use crate::reading::obligation::{Clause, outcomes, output_bit};
use crate::subject::obligation::{Asked, Claim, Lent, Made};

pub const FAULTS: &[Fault] = &[
    Fault {
        name: "only the first claim is encoded",
        group: meaning::SMALL.name,
        spoil: |subject| {
            subject.make = |asked, lent| {
                with_claims(asked, lent, |list, width| {
                    list[..list.len().min(width)].to_vec()
                })
            };
        },
    },
    Fault {
        name: "the last of 256 claims is left out",
        group: lists::STATES.name,
        spoil: |subject| {
            subject.make = |asked, lent| {
                with_claims(asked, lent, |list, width| {
                    list[..list.len().min(255 * width)].to_vec()
                })
            };
        },
    },
    Fault {
        name: "one clause list for all rows",
        group: meaning::RANDOM.name,
        spoil: |subject| {
            subject.make = |asked, lent| written(asked, lent, |_, _| vec![vec![]]);
        },
    },
    Fault {
        name: "the first claim is left out",
        group: meaning::LARGER.name,
        spoil: |subject| {
            subject.make = |asked, lent| {
                with_claims(asked, lent, |list, width| {
                    list[list.len().min(width)..].to_vec()
                })
            };
        },
    },
    Fault {
        name: "one clause list for all rows of one source",
        group: small::RELATION.name,
        spoil: |subject| {
            subject.make = |asked, lent| match asked.claim {
                Claim::Relation { source, .. } => {
                    let claim = Claim::Relation {
                        source,
                        targets: &[0, 1][..],
                    };
                    (OURS.make)(&Asked { claim, ..*asked }, lent)
                }
                _ => (OURS.make)(asked, lent),
            };
        },
    },
    Fault {
        name: "the bad output is asserted",
        group: tables::TABLES.name,
        spoil: |subject| {
            subject.make = |asked, lent| last_of_terminal(asked, lent, |last| last[0] ^= 1)
        },
    },
    Fault {
        name: "the bad output's clause is left out",
        group: small::TERMINAL.name,
        spoil: |subject| {
            subject.make = |asked, lent| last_of_terminal(asked, lent, |last| last[0] = 1)
        },
    },
    Fault {
        name: "a terminal list has the source latches",
        group: small::TERMINAL.name,
        spoil: |subject| {
            subject.make = |asked, lent| {
                rebuilt(asked, lent, |clauses, circuit| {
                    if let Claim::Terminal { .. } = asked.claim {
                        clauses.insert(0, vec![circuit.latches[0].current]);
                    }
                })
            };
        },
    },
    Fault {
        name: "a row has no source latches",
        group: meaning::RANDOM.name,
        spoil: |subject| {
            subject.make = |asked, lent| {
                rebuilt(asked, lent, |clauses, circuit| {
                    if is_row(asked) {
                        clauses.drain(..circuit.latches.len());
                    }
                })
            };
        },
    },
    Fault {
        name: "the source's bits are counted from the last latch",
        group: small::RELATION.name,
        spoil: |subject| {
            subject.make = |asked, lent| {
                rebuilt(asked, lent, |clauses, circuit| {
                    if is_row(asked) {
                        clauses[..circuit.latches.len()].reverse();
                    }
                })
            };
        },
    },
    Fault {
        name: "the predicate comes before the source",
        group: small::RELATION.name,
        spoil: |subject| {
            subject.make = |asked, lent| {
                rebuilt(asked, lent, |clauses, circuit| {
                    if is_row(asked) {
                        let end = circuit.latches.len() + asked.predicate_pairs.len() / 2;
                        clauses[..end].rotate_left(circuit.latches.len());
                    }
                })
            };
        },
    },
    Fault {
        name: "the gates come behind the claims",
        group: random::ACCEPTED.name,
        spoil: |subject| {
            subject.make = |asked, lent| {
                rebuilt(asked, lent, |clauses, circuit| {
                    let start = before_gates(asked, circuit.latches.len());
                    clauses[start..].rotate_left(3 * circuit.gates.len());
                })
            };
        },
    },
    Fault {
        name: "a gate's third clause comes first",
        group: tables::TABLES.name,
        spoil: |subject| {
            subject.make = |asked, lent| each_gate(asked, lent, |clauses| clauses.rotate_right(1));
        },
    },
    Fault {
        name: "a gate's second clause is its first",
        group: meaning::RANDOM.name,
        spoil: |subject| {
            subject.make =
                |asked, lent| each_gate(asked, lent, |clauses| clauses[1] = clauses[0].clone());
        },
    },
    Fault {
        name: "a gate is a disjunction",
        group: meaning::SMALL.name,
        spoil: |subject| {
            subject.make = |asked, lent| {
                each_gate(asked, lent, |clauses| {
                    clauses
                        .iter_mut()
                        .flatten()
                        .for_each(|literal| *literal ^= 1)
                })
            };
        },
    },
    Fault {
        name: "only 65,536 gates are encoded",
        group: random::LARGE.name,
        spoil: |subject| {
            subject.make = |asked, lent| {
                rebuilt(asked, lent, |clauses, circuit| {
                    if circuit.gates.len() > 65_536 {
                        let start = before_gates(asked, circuit.latches.len());
                        clauses.drain(start + 3 * 65_536..start + 3 * circuit.gates.len());
                    }
                })
            };
        },
    },
    Fault {
        name: "a row's claims are of the current state",
        group: small::RELATION.name,
        spoil: |subject| {
            subject.make = |asked, lent| {
                rebuilt(asked, lent, |clauses, circuit| {
                    if let Claim::Relation { targets, .. } = asked.claim {
                        let start = clauses.len() - targets.len();
                        for (clause, target) in clauses[start..].iter_mut().zip(targets) {
                            let latches = circuit.latches.iter().enumerate();
                            *clause = latches
                                .map(|(k, latch)| latch.current | target >> k & 1)
                                .collect();
                        }
                    }
                })
            };
        },
    },
    Fault {
        name: "a predicate's signs are exchanged",
        group: predicates::SMALL.name,
        spoil: |subject| {
            subject.make = |asked, lent| {
                let literals: Vec<u32> = asked
                    .predicate_literals
                    .iter()
                    .map(|word| word ^ 1)
                    .collect();
                let predicate_literals = &literals[..];
                (OURS.make)(
                    &Asked {
                        predicate_literals,
                        ..*asked
                    },
                    lent,
                )
            };
        },
    },
    Fault {
        name: "predicate variables index all inputs",
        group: predicates::RELEVANT.name,
        spoil: |subject| {
            subject.make = |asked, lent| {
                let all: Vec<u64> = (0..asked.relevant.len() as u64).collect();
                let made = (OURS.make)(asked, lent);
                if made.reason != 0 {
                    return made;
                }
                (OURS.make)(
                    &Asked {
                        relevant: &all,
                        ..*asked
                    },
                    lent,
                )
            };
        },
    },
    Fault {
        name: "the halves of outcomes are exchanged",
        group: lists::OBSERVED.name,
        spoil: |subject| subject.make = halves_exchanged,
    },
    Fault {
        name: "the halves of outcomes are exchanged, against the step",
        group: meaning::STEPS.name,
        spoil: |subject| subject.make = halves_exchanged,
    },
    Fault {
        name: "an outcome's bits go by the output's index",
        group: lists::OBSERVED.name,
        spoil: |subject| {
            subject.make = |asked, lent| {
                observed_literals(asked, lent, |outcome, _, output| {
                    output_bit(outcome, output)
                })
            };
        },
    },
    Fault {
        name: "the 65th observed output is not looked at",
        group: lists::BITS.name,
        spoil: |subject| {
            subject.make = |asked, lent| {
                observed_literals(asked, lent, |outcome, k, _| {
                    k != 64 && output_bit(outcome, k)
                })
            };
        },
    },
    Fault {
        name: "the signs of observed outputs are exchanged",
        group: meaning::SMALL.name,
        spoil: |subject| {
            subject.make = |asked, lent| {
                observed_literals(asked, lent, |outcome, k, _| !output_bit(outcome, k))
            };
        },
    },
];

fn is_row(asked: &Asked) -> bool {
    !matches!(asked.claim, Claim::Terminal { .. })
}

/// How many clauses come before those of the gates.
fn before_gates(asked: &Asked, latches: usize) -> usize {
    let source = if is_row(asked) { latches } else { 0 };
    source + asked.predicate_pairs.len() / 2
}

/// A terminal list with another last clause.
fn last_of_terminal(asked: &Asked, lent: &mut Lent, change: fn(&mut Clause)) -> Made {
    rebuilt(asked, lent, |clauses, _| {
        if let (Claim::Terminal { .. }, Some(last)) = (asked.claim, clauses.last_mut()) {
            change(last);
        }
    })
}

/// A call with other clauses for each gate.
fn each_gate(asked: &Asked, lent: &mut Lent, change: fn(&mut [Clause])) -> Made {
    rebuilt(asked, lent, |clauses, circuit| {
        let start = before_gates(asked, circuit.latches.len());
        let end = start + 3 * circuit.gates.len();
        clauses[start..end].chunks_exact_mut(3).for_each(change);
    })
}

fn halves_exchanged(asked: &Asked, lent: &mut Lent) -> Made {
    observed_literals(asked, lent, |&[target, high, low], k, _| {
        output_bit(&[target, low, high], k)
    })
}

/// A transducer row in which `bit` gives the value that an outcome claims for an observed output,
/// from its place in the list and its index.
fn observed_literals(
    asked: &Asked,
    lent: &mut Lent,
    bit: fn(&[u64; 3], usize, usize) -> bool,
) -> Made {
    rebuilt(asked, lent, |clauses, circuit| {
        let Claim::Transducer {
            observed,
            outcomes: words,
            ..
        } = asked.claim
        else {
            return;
        };
        let outcomes = outcomes(words);
        let start = clauses.len() - outcomes.len();
        for (clause, outcome) in clauses[start..].iter_mut().zip(&outcomes) {
            for (k, &output) in observed.iter().enumerate() {
                let literal = circuit.outputs[output as usize];
                let claimed = u64::from(bit(outcome, k, output as usize));
                clause[circuit.latches.len() + k] = literal ^ claimed;
            }
        }
    })
}
