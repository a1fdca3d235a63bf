//! The model layer of the proved library.

use crate::subject::model::Subject;

#[cfg(not(feature = "stand-in"))]
use library as chosen;
#[cfg(feature = "stand-in")]
use stand_in as chosen;

/// The functions that are compared.
pub const SUBJECT: Subject = chosen::SUBJECT;

#[cfg(feature = "stand-in")]
mod stand_in {
    use crate::reading::model as reading;
    use crate::subject::model::Subject;

    pub const SUBJECT: Subject = Subject {
        read: reading::read,
        validate: reading::validate,
        step: reading::step,
        validate_words: reading::validate_words,
        step_words: reading::step_words,
        step_records: reading::step_words,
    };
}

#[cfg(not(feature = "stand-in"))]
mod library {
    use crate::library::{AigerAnd, nit_read_transition, nit_step, nit_step_records};
    use crate::subject::model::{Model, Stepped, Subject};

    calls! {
        fn probe_validate(model: &[u64], gates: &[u64], work: &mut [u64],) -> u64;
    }

    pub const SUBJECT: Subject = Subject {
        read: nit_read_transition,
        validate,
        step,
        validate_words: probe_validate,
        step_words: nit_step,
        step_records,
    };

    fn validate(model: &Model, gates: &[u64], work: &mut [u64]) -> u64 {
        probe_validate(model.words(), gates, work)
    }

    fn step(model: &Model, gates: &[u64], work: &mut [u64], state: u64, input: u64) -> Stepped {
        nit_step(model.words(), gates, work, state, input)
    }

    fn step_records(
        record: &[u64],
        gates: &[u64],
        work: &mut [u64],
        state: u64,
        input: u64,
    ) -> Stepped {
        nit_step_records(record, records(gates), work, state, input)
    }

    /// The gates that lie in words, three words each.
    fn records(words: &[u64]) -> &[AigerAnd] {
        const { assert!(size_of::<AigerAnd>() == size_of::<[u64; 3]>()) };
        let (gates, _) = words.as_chunks::<3>();
        // SAFETY: a gate is `repr(C)` with three words and nothing else, and any words are a gate;
        // the slice lives as long as the words.
        unsafe { std::slice::from_raw_parts(gates.as_ptr().cast(), gates.len()) }
    }
}
