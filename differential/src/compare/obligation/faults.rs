//! Deliberately wrong variants, each with one likely fault. The self-test has to find all of them.

mod buffers;
mod claims;
mod clauses;
mod lent;
mod predicates;
mod sorting;

use super::Fault;
use crate::circuit::Circuit;
use crate::ours::obligation::SUBJECT as OURS;
use crate::reading::model::words_circuit;
use crate::reading::obligation::{self as reading, Clause};
use crate::subject::obligation::{Asked, Claim, Lent, Made};

pub const FAULTS: &[&[Fault]] = &[
    clauses::FAULTS,
    sorting::FAULTS,
    lent::FAULTS,
    predicates::FAULTS,
    claims::FAULTS,
    buffers::FAULTS,
];

/// The model that a call is given, where it breaks no rule.
fn circuit(asked: &Asked) -> Option<Circuit> {
    words_circuit(asked.record, asked.gates, usize::MAX).ok()
}

/// A call that writes what `change` makes of the right clauses, before they are simplified.
fn rebuilt(
    asked: &Asked,
    lent: &mut Lent,
    change: impl FnOnce(&mut Vec<Clause>, &Circuit),
) -> Made {
    written(asked, lent, |mut clauses, circuit| {
        change(&mut clauses, circuit);
        let simplified = clauses.iter().filter_map(|each| reading::simplified(each));
        simplified.collect()
    })
}

/// A call that writes what `make` makes of the right clauses.
fn written(
    asked: &Asked,
    lent: &mut Lent,
    make: impl FnOnce(Vec<Clause>, &Circuit) -> Vec<Vec<u32>>,
) -> Made {
    match (reading::clauses(asked, lent.work.len()), circuit(asked)) {
        (Ok(clauses), Some(circuit)) => {
            lent.work.fill(0);
            reading::put(&make(clauses, &circuit), lent)
        }
        _ => (OURS.make)(asked, lent),
    }
}

/// The call with each claimed list as `change` makes it, three words an outcome.
fn with_claims(
    asked: &Asked,
    lent: &mut Lent,
    change: impl FnOnce(&[u64], usize) -> Vec<u64>,
) -> Made {
    let list;
    let claim = match asked.claim {
        Claim::Relation { source, targets } => {
            list = change(targets, 1);
            Claim::Relation {
                source,
                targets: &list[..],
            }
        }
        Claim::Transducer {
            source,
            observed,
            outcomes,
        } => {
            list = change(outcomes, 3);
            Claim::Transducer {
                source,
                observed,
                outcomes: &list[..],
            }
        }
        Claim::Terminal { bad_output, states } => {
            list = change(states, 1);
            Claim::Terminal {
                bad_output,
                states: &list[..],
            }
        }
    };
    (OURS.make)(&Asked { claim, ..*asked }, lent)
}

/// A call on copies of the result buffers: the answer, and what it wrote.
fn tried(asked: &Asked, lent: &mut Lent) -> (Made, Vec<u64>, Vec<u32>) {
    let (mut pairs, mut literals) = (lent.pairs.to_vec(), lent.literals.to_vec());
    let made = (OURS.make)(
        asked,
        &mut Lent {
            work: lent.work,
            pairs: &mut pairs,
            literals: &mut literals,
        },
    );
    (made, pairs, literals)
}

/// Gives a call that is accepted this number where the condition holds.
fn refused_where(refused: bool, reason: u64, asked: &Asked, lent: &mut Lent) -> Made {
    let made = (OURS.make)(asked, lent);
    if refused && made.reason == 0 {
        return Made::refused(reason);
    }
    made
}
