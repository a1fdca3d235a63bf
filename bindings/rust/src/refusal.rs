//! Why a call was refused.

use std::error::Error;
use std::fmt;

/// The number of the first reason that applies, out of the 20 of `docs/REQUIREMENTS.md`: 16 is R9.16.
#[derive(Clone, Copy, Debug, Eq, Hash, PartialEq)]
pub struct Refusal(u8);

/// The sentences, by number less 1.
const SENTENCES: [&str; 20] = [
    "there are fewer than 2 or more than 64 witnesses",
    "a witness starts before the end of the one ahead of it, or runs past the end of the buffer",
    "the text has more than 16,777,216 bytes or a byte above 127; or, for a witness or the model of \
     a composition, it is empty, has a byte 13, or its last line is not ended by a line feed",
    "the first line is not 'aag' and as many readable numbers as are taken: five of a lock, five to \
     nine of a witness or the model of a composition",
    "the counts in the first line do not add up, or are beyond the limits",
    "the justice or fairness count is not 0",
    "there is too little memory lent for the gates or for the work",
    "a line of a section is missing, has too few or too many fields, an unreadable number or a bad \
     initial value",
    "a symbol line has the wrong form, kind or index, or names an input or latch a second time",
    "the first word of a witness's comment line is MAPPING or INTERVENTION",
    "a literal is out of range or order, a variable is defined twice, or the model breaks the limits",
    "the state is not one of the model's, or the input word has a bit beyond the model's inputs",
    "the list of inputs for the predicate is not strictly rising or names an input that the model \
     lacks, or the predicate is too long or speaks of an input outside that list",
    "a state or an output is not one of the model's, a list is not strictly rising, an outcome has \
     a bit beyond the observed outputs, or there are too many outcomes",
    "there is too little memory for the work of composing",
    "a name that maps to the model ('= ' and a literal) is unreadable, or its literal is 0, odd, \
     absent from the model or of another kind there",
    "the composition would have a gate with a variable above 2,000,000",
    "a latch that witnesses share gets two different next or reset literals",
    "a witness has no bad and no output",
    "the result needs more room than there is",
];

impl Refusal {
    /// There is no memory for what composing needs.
    pub(crate) const NO_WORK: Self = Self(15);

    /// The refusal that a reason of the library's answer stands for; none for 0, acceptance.
    pub(crate) fn of(reason: u64) -> Option<Self> {
        let number = u8::try_from(reason).unwrap_or(u8::MAX);
        (number != 0).then_some(Self(number))
    }

    /// The reason of an answer as a result.
    pub(crate) fn accepted(reason: u64) -> Result<(), Self> {
        Self::of(reason).map_or(Ok(()), Err)
    }

    /// The number, 1 to 20.
    pub fn number(self) -> u8 {
        self.0
    }

    /// What the number means, in a sentence without a capital and a full stop.
    pub fn sentence(self) -> &'static str {
        let place = usize::from(self.0).wrapping_sub(1);
        SENTENCES
            .get(place)
            .unwrap_or(&"the number is not one of the list")
    }
}

impl fmt::Display for Refusal {
    fn fmt(&self, formatter: &mut fmt::Formatter<'_>) -> fmt::Result {
        write!(formatter, "refused {}: {}", self.number(), self.sentence())
    }
}

impl Error for Refusal {}

/// An error type of the original: a name of its own around a `Refusal`, so that a program may go
/// on telling the two modules' errors apart.
macro_rules! error_named {
    ($name:ident) => {
        /// Why a call of this module was refused. The original's field is a message, a `String`.
        #[derive(Clone, Copy, Debug, Eq, Hash, PartialEq)]
        pub struct $name(pub $crate::Refusal);

        impl $name {
            /// The number of the reason, 1 to 20.
            pub fn number(self) -> u8 {
                self.0.number()
            }

            /// What the number means.
            pub fn sentence(self) -> &'static str {
                self.0.sentence()
            }
        }

        impl std::fmt::Display for $name {
            fn fmt(&self, formatter: &mut std::fmt::Formatter<'_>) -> std::fmt::Result {
                self.0.fmt(formatter)
            }
        }

        impl std::error::Error for $name {}

        impl From<$crate::Refusal> for $name {
            fn from(refusal: $crate::Refusal) -> Self {
                Self(refusal)
            }
        }

        impl From<$name> for $crate::Refusal {
            fn from(error: $name) -> Self {
                error.0
            }
        }
    };
}

pub(crate) use error_named;

#[cfg(test)]
mod tests {
    use super::*;
    use std::collections::HashSet;

    #[test]
    fn every_number_has_a_sentence_of_its_own() {
        let sentences: HashSet<_> = (1..=20)
            .map(|number| Refusal::of(number).expect("a refusal").sentence())
            .collect();
        assert_eq!(sentences.len(), 20);
        assert!(sentences.iter().all(|sentence| !sentence.contains("  ")));
    }

    #[test]
    fn display_has_number_and_sentence() {
        let refusal = Refusal::of(19).expect("a refusal");
        assert_eq!(
            refusal.to_string(),
            "refused 19: a witness has no bad and no output"
        );
        let error = crate::composed_witness::ComposedWitnessError(refusal);
        assert_eq!(error.to_string(), refusal.to_string());
        assert_eq!((error.number(), error.sentence()), (19, refusal.sentence()));
    }

    #[test]
    fn acceptance_is_no_refusal_and_any_number_is_said() {
        assert_eq!(Refusal::of(0), None);
        for strange in [21, 255, 256, u64::MAX] {
            let refusal = Refusal::of(strange).expect("a refusal");
            assert_eq!(refusal.sentence(), "the number is not one of the list");
        }
    }
}
