//! Rows, rows with outputs, and terminal lists.

use super::predicate::Words;
use super::record;
use super::{
    AigerInputPredicate, AigerObligationError, AigerOutcome, AigerTransition, MAX_AIGER_LATCHES,
    MAX_AIGER_OUTPUTS, MAX_AIGER_VARIABLES, MAX_CLAIMED_OUTCOMES, MAX_PREDICATE_CLAUSES,
    MAX_PREDICATE_LITERALS,
};
use crate::Refusal;
use crate::library::{self, Made, Transition};
use crate::room::{Room, doubled, lend};
use crate::unsat_proof::CnfClause;

/// The reason for too little room.
const NO_ROOM: u8 = 20;

/// What the three calls have in common, in the library's form.
struct Asked<'a> {
    model: Transition,
    gates: &'a [usize],
    latches: usize,
    relevant: &'a [usize],
    predicate: Words,
}

/// Memory for one call.
struct Lent {
    work: Vec<usize>,
    pairs: Vec<usize>,
    literals: Vec<u32>,
}

/// The clauses are unsatisfiable exactly when every input that meets the predicate leads from the
/// source to a claimed target.
///
/// Reasons: 11, 13, 14.
pub fn relation_row_completeness_cnf(
    model: &AigerTransition,
    relevant_inputs: &[usize],
    source: usize,
    predicate: &AigerInputPredicate,
    claimed_targets: &[usize],
) -> Result<Vec<CnfClause>, AigerObligationError> {
    let asked = Asked::of(model, relevant_inputs, predicate);
    let room = asked.room(claimed_targets.len(), 0);
    asked.make(room, |asked, lent| {
        library::nit_relation_row(
            asked.model.words(),
            asked.gates,
            asked.relevant,
            source as u64,
            &asked.predicate.pairs,
            &asked.predicate.literals,
            claimed_targets,
            &mut lent.work,
            &mut lent.pairs,
            &mut lent.literals,
        )
    })
}

/// The same, where an outcome claims the values of the observed outputs besides.
///
/// Reasons: 11, 13, 14.
pub fn transducer_row_completeness_cnf(
    model: &AigerTransition,
    relevant_inputs: &[usize],
    source: usize,
    predicate: &AigerInputPredicate,
    observed_outputs: &[usize],
    claimed_outcomes: &[AigerOutcome],
) -> Result<Vec<CnfClause>, AigerObligationError> {
    let asked = Asked::of(model, relevant_inputs, predicate);
    let outcomes = outcome_words(claimed_outcomes);
    let room = asked.room(claimed_outcomes.len(), observed_outputs.len());
    asked.make(room, |asked, lent| {
        library::nit_transducer_row(
            asked.model.words(),
            asked.gates,
            asked.relevant,
            source as u64,
            &asked.predicate.pairs,
            &asked.predicate.literals,
            observed_outputs,
            &outcomes,
            &mut lent.work,
            &mut lent.pairs,
            &mut lent.literals,
        )
    })
}

/// The clauses are unsatisfiable exactly when every state is claimed in which some input that meets
/// the predicate leaves the bad output 0.
///
/// Reasons: 11, 13, 14.
pub fn terminal_completeness_cnf(
    model: &AigerTransition,
    relevant_inputs: &[usize],
    predicate: &AigerInputPredicate,
    bad_output: usize,
    claimed_safe_states: &[usize],
) -> Result<Vec<CnfClause>, AigerObligationError> {
    let asked = Asked::of(model, relevant_inputs, predicate);
    let room = asked.room(claimed_safe_states.len(), 0);
    asked.make(room, |asked, lent| {
        library::nit_terminal(
            asked.model.words(),
            asked.gates,
            asked.relevant,
            &asked.predicate.pairs,
            &asked.predicate.literals,
            bad_output as u64,
            claimed_safe_states,
            &mut lent.work,
            &mut lent.pairs,
            &mut lent.literals,
        )
    })
}

/// Three words an outcome: target, high, low. One more than the limit is handed over, not all that
/// there may be: the library refuses it (14).
fn outcome_words(outcomes: &[AigerOutcome]) -> Vec<u64> {
    let handed = outcomes.iter().take(MAX_CLAIMED_OUTCOMES + 1);
    let words = handed.map(|outcome| {
        let (high, low) = ((outcome.outputs >> 64) as u64, outcome.outputs as u64);
        [outcome.target as u64, high, low]
    });
    words.collect::<Vec<_>>().into_flattened()
}

/// Room for every obligation that is accepted.
const LARGEST: Room = most(
    [
        MAX_AIGER_VARIABLES,
        MAX_AIGER_LATCHES,
        MAX_PREDICATE_CLAUSES,
    ],
    [MAX_CLAIMED_OUTCOMES, MAX_AIGER_OUTPUTS],
);

/// Clauses and literals at most of an obligation of so many gates, latches and predicate clauses,
/// claims and observed outputs. A latch, or the bad output, is a clause of one literal; a gate has
/// clauses of 2, 2 and 3; a claim has one of all latches and observed outputs. With this much room
/// the library writes at once and does not measure first.
const fn most([gates, latches, predicate]: [usize; 3], [claims, observed]: [usize; 2]) -> Room {
    let single = latches + 1;
    let claimed = claims * (latches + observed);
    [
        single + predicate + 3 * gates + claims,
        single + MAX_PREDICATE_LITERALS + 7 * gates + claimed,
    ]
}

impl<'a> Asked<'a> {
    fn of(
        model: &'a AigerTransition,
        relevant: &'a [usize],
        predicate: &AigerInputPredicate,
    ) -> Self {
        Self {
            model: record::of(model),
            gates: library::gate_words(&model.ands),
            latches: model.latches.len(),
            relevant,
            predicate: Words::of(predicate),
        }
    }

    /// Room for the clauses of so many claims and observed outputs. What is beyond a limit is
    /// refused before room matters.
    fn room(&self, claims: usize, observed: usize) -> Room {
        let gates = (self.gates.len() / 3).min(MAX_AIGER_VARIABLES);
        let latches = self.latches.min(MAX_AIGER_LATCHES);
        let claims = claims.min(MAX_CLAIMED_OUTCOMES);
        most(
            [gates, latches, self.predicate.pairs.len() / 2],
            [claims, observed.min(MAX_AIGER_OUTPUTS)],
        )
    }

    /// Calls with this room for clauses and literals first, and makes clauses of the answer.
    fn make(
        &self,
        first: Room,
        call: impl Fn(&Self, &mut Lent) -> Made,
    ) -> Result<Vec<CnfClause>, AigerObligationError> {
        let more =
            |refusal: Refusal, room| doubled(room, LARGEST).filter(|_| refusal.number() == NO_ROOM);
        let made = lend(first, more, |[clauses, literals]| {
            let mut lent = Lent {
                work: record::work(&self.model),
                pairs: vec![0; 2 * clauses],
                literals: vec![0; literals],
            };
            let made = call(self, &mut lent);
            Refusal::accepted(made.reason)?;
            Ok(lent.clauses(made.clauses))
        });
        Ok(made?)
    }
}

impl Lent {
    /// The first clauses of the pairs. The library's pairs are inside the literals.
    fn clauses(&self, count: usize) -> Vec<CnfClause> {
        let (pairs, _) = self.pairs.as_chunks();
        let clause = |&[offset, length]: &[usize; 2]| {
            let literals = self.literals.get(offset..).unwrap_or_default();
            let literals = literals.iter().take(length);
            let literal = |&word: &u32| ((word / 2) as usize, word % 2 == 1);
            CnfClause(literals.map(literal).collect())
        };
        pairs.iter().take(count).map(clause).collect()
    }
}

#[cfg(test)]
#[path = "rows_tests.rs"]
mod tests;
