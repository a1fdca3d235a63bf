//! What is compared in the obligation layer: the three calls that make clauses.

/// What a call answers: reason 0 and the counts, or the reason's number and zeros.
pub use crate::library::Made;

/// A model's record as words, its gate words, the relevant inputs, the predicate and the claim.
#[derive(Clone, Copy)]
pub struct Asked<'a> {
    pub record: &'a [u64],
    pub gates: &'a [u64],
    pub relevant: &'a [u64],
    /// Offset and length of each predicate clause.
    pub predicate_pairs: &'a [u64],
    /// 2 x place in the relevant inputs, plus 1 when positive.
    pub predicate_literals: &'a [u32],
    pub claim: Claim<&'a [u64]>,
}

/// Which call is made, and what is claimed.
#[derive(Clone, Copy, Debug)]
pub enum Claim<L> {
    Relation {
        source: u64,
        targets: L,
    },
    Transducer {
        source: u64,
        observed: L,
        /// Target, high and low half of each outcome.
        outcomes: L,
    },
    Terminal {
        bad_output: u64,
        states: L,
    },
}

/// What is lent to a call: work words, then room for pairs and literals.
pub struct Lent<'a> {
    pub work: &'a mut [u64],
    pub pairs: &'a mut [u64],
    pub literals: &'a mut [u32],
}

pub type Make = fn(&Asked, &mut Lent) -> Made;

/// The functions of the obligation layer: the claim says which of the three is called.
#[derive(Clone, Copy)]
pub struct Subject {
    pub make: Make,
}

impl Made {
    pub fn refused(reason: u64) -> Self {
        Self {
            reason,
            clauses: 0,
            literals: 0,
        }
    }
}

impl Claim<Vec<u64>> {
    pub fn lend(&self) -> Claim<&[u64]> {
        match self {
            Self::Relation { source, targets } => Claim::Relation {
                source: *source,
                targets,
            },
            Self::Transducer {
                source,
                observed,
                outcomes,
            } => Claim::Transducer {
                source: *source,
                observed,
                outcomes,
            },
            Self::Terminal { bad_output, states } => Claim::Terminal {
                bad_output: *bad_output,
                states,
            },
        }
    }
}
