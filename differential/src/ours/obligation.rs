//! The obligation layer of the proved library.

use crate::subject::obligation::Subject;

#[cfg(not(feature = "stand-in"))]
use library as chosen;
#[cfg(feature = "stand-in")]
use stand_in as chosen;

/// The functions that are compared.
pub const SUBJECT: Subject = chosen::SUBJECT;

#[cfg(feature = "stand-in")]
mod stand_in {
    use crate::reading::obligation as reading;
    use crate::subject::obligation::Subject;

    pub const SUBJECT: Subject = Subject {
        make: reading::make,
    };
}

#[cfg(not(feature = "stand-in"))]
mod library {
    use crate::library::{nit_relation_row, nit_terminal, nit_transducer_row};
    use crate::subject::obligation::{Asked, Claim, Lent, Made, Subject};

    pub const SUBJECT: Subject = Subject { make };

    fn make(asked: &Asked, lent: &mut Lent) -> Made {
        let Asked {
            record,
            gates,
            relevant,
            predicate_pairs: pairs,
            predicate_literals: literals,
            claim,
        } = *asked;
        let Lent {
            work,
            pairs: pair_room,
            literals: word_room,
        } = lent;
        match claim {
            Claim::Relation { source, targets } => nit_relation_row(
                record, gates, relevant, source, pairs, literals, targets, work, pair_room,
                word_room,
            ),
            Claim::Transducer {
                source,
                observed,
                outcomes,
            } => nit_transducer_row(
                record, gates, relevant, source, pairs, literals, observed, outcomes, work,
                pair_room, word_room,
            ),
            Claim::Terminal { bad_output, states } => nit_terminal(
                record, gates, relevant, pairs, literals, bad_output, states, work, pair_room,
                word_room,
            ),
        }
    }
}
