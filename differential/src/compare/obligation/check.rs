//! One case: the answer, and every word that was lent.

use super::Run;
use super::calls::Predicate;
use crate::compare::lent::{Words, refusal};
use crate::compare::model::check::Record;
use crate::oracle::obligation::{Published, words};
use crate::reading::obligation as reading;
use crate::subject::obligation::{Asked, Claim, Lent, Made};
use crate::tally::Answers;

/// A call with all that is lent to it.
#[derive(Clone)]
pub struct Call {
    /// The model's record, its gate words and the work words.
    pub record: Record,
    /// How many of the record's words are lent.
    pub record_words: usize,
    pub relevant: Vec<u64>,
    pub predicate: Predicate,
    pub claim: Claim<Vec<u64>>,
    pub pairs: Words,
    pub literals: Words<u32>,
}

#[derive(Debug, Eq, PartialEq)]
pub struct Answer {
    pub made: Made,
    pub pairs: Words,
    pub literals: Words<u32>,
    work: Words,
}

impl Answer {
    /// The clauses that are returned: as many pairs as the count says. None where they do not name
    /// parts of the literals.
    pub fn clauses(&self) -> Option<Vec<&[u32]>> {
        let count = usize::try_from(self.made.clauses).ok()?;
        let pairs = self.pairs.0.get(..count.checked_mul(2)?)?;
        reading::parts(pairs, &self.literals.0)
    }
}

impl Call {
    pub fn asked(&self) -> Asked<'_> {
        Asked {
            record: &self.record.model.words()[..self.record_words],
            gates: &self.record.gates,
            relevant: &self.relevant,
            predicate_pairs: &self.predicate.pairs,
            predicate_literals: &self.predicate.literals,
            claim: self.claim.lend(),
        }
    }

    pub fn answered(&self, make: impl FnOnce(&Asked, &mut Lent) -> Made) -> Answer {
        let mut work = self.record.work.clone();
        let (mut pairs, mut literals) = (self.pairs.clone(), self.literals.clone());
        let mut lent = Lent {
            work: &mut work.0,
            pairs: &mut pairs.0,
            literals: &mut literals.0,
        };
        let made = make(&self.asked(), &mut lent);
        Answer {
            made,
            pairs,
            literals,
            work,
        }
    }

    /// The Rust's answer, where the call has a form there and enough work words are lent: the Rust
    /// has none. It has no limit on room either; where its clauses do not fit, 20 is due.
    fn rust(&self, reading: u64) -> Option<Answer> {
        if self.record.work.0.len() <= self.record.model.max_variable {
            return None;
        }
        let clauses = Published::of(&self.asked())?.make();
        Some(self.answered(|_, lent| {
            lent.work.fill(0);
            match clauses {
                Some(clauses) => reading::put(&words(&clauses), lent),
                None => Made::refused(refusal(reading)),
            }
        }))
    }

    pub fn shown(&self) -> String {
        let (pairs, literals) = (self.pairs.0.len(), self.literals.0.len());
        format!(
            "{}, record words {}, relevant {:?}, predicate {:?}, {}, pair words {pairs}, literals {literals}",
            self.record.shown(),
            self.record_words,
            self.relevant,
            self.predicate,
            shown_claim(&self.claim),
        )
    }
}

fn shown_claim(claim: &Claim<Vec<u64>>) -> String {
    let words = |words: &Vec<u64>| Words(words.clone());
    match claim {
        Claim::Relation { source, targets } => {
            format!("relation row {source}: {:?}", words(targets))
        }
        Claim::Transducer {
            source,
            observed,
            outcomes,
        } => {
            let (observed, outcomes) = (words(observed), words(outcomes));
            format!("transducer row {source}: {observed:?}, {outcomes:?}")
        }
        Claim::Terminal { bad_output, states } => {
            format!("terminal list {bad_output}: {:?}", words(states))
        }
    }
}

/// Compares one call. Says whether it is accepted.
pub fn check(run: &mut Run, call: &Call) -> bool {
    let reading = call.answered(reading::make);
    let reason = reading.made.reason;
    let answers = Answers {
        ours: call.answered(run.ours.make),
        rust: call.rust(reason),
        reading,
    };
    run.tally.check(answers, || call.shown());
    reason == 0
}
