//! Locks: transition models, their step, and the clauses of claims about them.

mod predicate;
mod reading;
mod record;
mod rows;

pub use reading::parse_ascii_aiger_transition;
pub use rows::{
    relation_row_completeness_cnf, terminal_completeness_cnf, transducer_row_completeness_cnf,
};

pub use crate::library::AigerAnd;

use crate::refusal::error_named;
use crate::{Refusal, library};

pub const AIGER_OBLIGATION_VERSION: u32 = 1;
pub const MAX_AIGER_VARIABLES: usize = 1_000_000;
pub const MAX_AIGER_INPUTS: usize = 64;
pub const MAX_AIGER_LATCHES: usize = 8;
pub const MAX_AIGER_OUTPUTS: usize = 128;
pub const MAX_PREDICATE_CLAUSES: usize = 64;
pub const MAX_PREDICATE_LITERALS: usize = 1_024;
pub const MAX_ASCII_AIGER_BYTES: usize = 16 * 1024 * 1024;
/// The most claimed outcomes of a row. The original has no such limit.
pub const MAX_CLAIMED_OUTCOMES: usize = 65_536;

error_named!(AigerObligationError);

/// A latch: its literal, and that of its next value.
#[derive(Clone, Debug, Eq, PartialEq)]
pub struct AigerLatch {
    pub current: usize,
    pub next: usize,
}

/// A transition model (R5). Literals are AIGER's: a variable doubled, and one more where it is
/// negated (R0.6).
#[derive(Clone, Debug, Eq, PartialEq)]
pub struct AigerTransition {
    pub max_variable: usize,
    pub inputs: Vec<usize>,
    pub latches: Vec<AigerLatch>,
    pub outputs: Vec<usize>,
    pub ands: Vec<AigerAnd>,
}

/// Clauses over the relevant inputs: a variable is an index into their list, with true where it is
/// positive. All clauses must be met.
#[derive(Clone, Debug, Eq, PartialEq)]
pub struct AigerInputPredicate {
    pub clauses: Vec<Vec<(usize, bool)>>,
}

/// A claimed target, with bit k of `outputs` the k-th observed output's.
#[derive(Clone, Copy, Debug, Eq, Ord, PartialEq, PartialOrd)]
pub struct AigerOutcome {
    pub target: usize,
    pub outputs: u128,
}

/// A state that no model has: 2^L is at most 256.
const NO_STATE: u64 = u64::MAX;
/// The reason of a step whose state is not one of the model's.
const STATE_REFUSED: u8 = 12;

impl AigerTransition {
    /// Whether the model keeps the limits; 11 where it does not.
    pub fn validate(&self) -> Result<(), AigerObligationError> {
        // The library validates a model before it looks at the state that it is asked to step.
        match self.step(NO_STATE, 0) {
            Err(error) if error.number() != STATE_REFUSED => Err(error),
            _ => Ok(()),
        }
    }

    /// How many states there are, 2^L. Where that is no number of 64 bits, which the original does
    /// not survive in a debug build, it is the largest one.
    pub fn state_count(&self) -> usize {
        let latches = u32::try_from(self.latches.len()).unwrap_or(u32::MAX);
        1usize.checked_shl(latches).unwrap_or(usize::MAX)
    }

    /// The state that follows a state under an input word, and the outputs: bit k is latch, input
    /// or output k. Gates are computed in their order in the list, as the original does; where one
    /// reads a gate that is listed later, this may differ from what the clauses of a row say.
    pub fn evaluate(
        &self,
        state: usize,
        declared_input: u64,
    ) -> Result<(usize, u128), AigerObligationError> {
        let stepped = self.step(state as u64, declared_input)?;
        let outputs = u128::from(stepped.high) << 64 | u128::from(stepped.low);
        Ok((stepped.target as usize, outputs))
    }

    fn step(&self, state: u64, input: u64) -> Result<library::Stepped, AigerObligationError> {
        let record = record::of(self);
        let mut work = record::work(&record);
        let words = record.words();
        let stepped = library::nit_step_records(words, &self.ands, &mut work, state, input);
        Refusal::accepted(stepped.reason)?;
        Ok(stepped)
    }
}
