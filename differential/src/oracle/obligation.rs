//! The published calls that make clauses.

use super::aiger::{
    AigerInputPredicate, AigerOutcome, AigerTransition, relation_row_completeness_cnf,
    terminal_completeness_cnf, transducer_row_completeness_cnf,
};
use super::model::{sizes, transition};
use crate::reading::obligation::{MOST_OUTCOMES, outcomes, parts};
use crate::subject::model::{Model, WORDS};
use crate::subject::obligation::{Asked, Claim};
use crate::unsat_proof::CnfClause;

/// A call in its published form.
pub struct Published {
    transition: AigerTransition,
    relevant: Vec<usize>,
    predicate: AigerInputPredicate,
    claim: PublishedClaim,
}

enum PublishedClaim {
    Relation(usize, Vec<usize>),
    Transducer(usize, Vec<usize>, Vec<AigerOutcome>),
    Terminal(usize, Vec<usize>),
}

impl Published {
    /// None where a call has no published form: a record that is not whole or has more than there
    /// is room for, predicate pairs that are out of order, more outcomes than the limit that the
    /// published calls do not have.
    pub fn of(asked: &Asked) -> Option<Self> {
        if asked.record.len() < WORDS {
            return None;
        }
        let circuit = Model::in_words(asked.record).circuit(asked.gates)?;
        let parts = parts(asked.predicate_pairs, asked.predicate_literals)?;
        let literals = |part: &[u32]| part.iter().map(|&word| literal(word)).collect();
        Some(Self {
            transition: transition(&circuit),
            relevant: sizes(asked.relevant),
            predicate: AigerInputPredicate {
                clauses: parts.into_iter().map(literals).collect(),
            },
            claim: PublishedClaim::of(&asked.claim)?,
        })
    }

    /// The clauses, or none where the call is refused.
    pub fn make(&self) -> Option<Vec<CnfClause>> {
        let (model, relevant, predicate) = (&self.transition, &self.relevant, &self.predicate);
        match &self.claim {
            PublishedClaim::Relation(source, targets) => {
                relation_row_completeness_cnf(model, relevant, *source, predicate, targets)
            }
            PublishedClaim::Transducer(source, observed, outcomes) => {
                transducer_row_completeness_cnf(
                    model, relevant, *source, predicate, observed, outcomes,
                )
            }
            PublishedClaim::Terminal(bad_output, states) => {
                terminal_completeness_cnf(model, relevant, predicate, *bad_output, states)
            }
        }
        .ok()
    }
}

impl PublishedClaim {
    fn of(claim: &Claim<&[u64]>) -> Option<Self> {
        Some(match *claim {
            Claim::Relation { source, targets } => Self::Relation(source as usize, sizes(targets)),
            Claim::Terminal { bad_output, states } => {
                Self::Terminal(bad_output as usize, sizes(states))
            }
            Claim::Transducer {
                source,
                observed,
                outcomes: words,
            } => {
                let outcomes = outcomes(words);
                if outcomes.len() > MOST_OUTCOMES {
                    return None;
                }
                let outcomes = outcomes.iter().map(|&[target, high, low]| AigerOutcome {
                    target: target as usize,
                    outputs: u128::from(high) << 64 | u128::from(low),
                });
                Self::Transducer(source as usize, sizes(observed), outcomes.collect())
            }
        })
    }
}

/// Clauses as words: 2 x variable, plus 1 when positive.
pub fn words(clauses: &[CnfClause]) -> Vec<Vec<u32>> {
    let word = |&(variable, positive): &(usize, bool)| 2 * variable as u32 + u32::from(positive);
    clauses
        .iter()
        .map(|clause| clause.0.iter().map(word).collect())
        .collect()
}

fn literal(word: u32) -> (usize, bool) {
    ((word / 2) as usize, word % 2 == 1)
}
