//! Wrong simplifiers: constants, signs, repeats and order.

use super::super::{Fault, lists, meaning, predicates, random, small, tables};
use super::written;
use crate::reading::obligation::{simplified, word};
use crate::subject::obligation::{Asked, Lent, Made};

pub const FAULTS: &[Fault] = &[
    Fault {
        name: "an empty predicate clause is taken as true",
        group: predicates::SMALL.name,
        spoil: |subject| {
            subject.make = |asked, lent| {
                simplified_by(asked, lent, |clause| {
                    simplified(clause).filter(|_| !clause.is_empty())
                })
            };
        },
    },
    Fault {
        name: "a clause of which nothing remains is dropped",
        group: tables::TABLES.name,
        spoil: |subject| {
            subject.make = |asked, lent| {
                simplified_by(asked, lent, |clause| {
                    simplified(clause).filter(|words| !words.is_empty())
                })
            };
        },
    },
    Fault {
        name: "literals are sorted by sign, then variable",
        group: tables::TABLES.name,
        spoil: |subject| {
            subject.make = |asked, lent| {
                simplified_by(asked, lent, |clause| {
                    let mut words = simplified(clause)?;
                    words.sort_by_key(|word| (word % 2, *word));
                    Some(words)
                })
            };
        },
    },
    Fault {
        name: "literals are not sorted",
        group: predicates::LIMITS.name,
        spoil: |subject| {
            subject.make = |asked, lent| {
                simplified_by(asked, lent, |clause| {
                    let mut words = simplified(clause)?;
                    let place = |word: &u32| {
                        let mut literals = clause.iter();
                        literals.position(|&literal| literal > 1 && self::word(literal) == *word)
                    };
                    words.sort_by_key(place);
                    Some(words)
                })
            };
        },
    },
    Fault {
        name: "repeated literals are kept",
        group: small::RELATION.name,
        spoil: |subject| {
            subject.make = |asked, lent| {
                simplified_by(asked, lent, |clause| {
                    simplified(clause)?;
                    Some(sorted(clause))
                })
            };
        },
    },
    Fault {
        name: "repeated literals are kept in clauses of more than 64",
        group: predicates::LIMITS.name,
        spoil: |subject| {
            subject.make = |asked, lent| {
                simplified_by(asked, lent, |clause| {
                    let words = simplified(clause)?;
                    Some(if clause.len() > 64 {
                        sorted(clause)
                    } else {
                        words
                    })
                })
            };
        },
    },
    Fault {
        name: "a clause with both signs is kept",
        group: small::TRANSDUCER.name,
        spoil: |subject| {
            subject.make = |asked, lent| {
                simplified_by(asked, lent, |clause| {
                    if clause.contains(&1) {
                        return None;
                    }
                    let mut words = sorted(clause);
                    words.dedup();
                    Some(words)
                })
            };
        },
    },
    Fault {
        name: "the last literal of 1,024 is lost",
        group: predicates::LIMITS.name,
        spoil: |subject| {
            subject.make = |asked, lent| {
                simplified_by(asked, lent, |clause| {
                    simplified(&clause[..clause.len().min(1_023)])
                })
            };
        },
    },
    Fault {
        name: "false constants are kept",
        group: small::TRANSDUCER.name,
        spoil: |subject| {
            subject.make = |asked, lent| {
                simplified_by(asked, lent, |clause| {
                    let mut words = simplified(clause)?;
                    words.extend(clause.iter().filter(|&&literal| literal == 0).map(|_| !0));
                    Some(words)
                })
            };
        },
    },
    Fault {
        name: "a clause with a false constant is dropped",
        group: meaning::SMALL.name,
        spoil: |subject| {
            subject.make = |asked, lent| {
                simplified_by(asked, lent, |clause| {
                    simplified(clause).filter(|_| !clause.contains(&0))
                })
            };
        },
    },
    Fault {
        name: "a true constant is removed as a false one",
        group: meaning::SMALL.name,
        spoil: |subject| {
            subject.make = |asked, lent| {
                simplified_by(asked, lent, |clause| {
                    let mut clause = clause.to_vec();
                    clause.retain(|&literal| literal > 1);
                    simplified(&clause)
                })
            };
        },
    },
    Fault {
        name: "words are even when positive",
        group: meaning::RANDOM.name,
        spoil: |subject| subject.make = |asked, lent| each_word(asked, lent, |word| word ^ 1),
    },
    Fault {
        name: "words have the AIGER variable",
        group: random::ACCEPTED.name,
        spoil: |subject| subject.make = |asked, lent| each_word(asked, lent, |word| word + 2),
    },
    Fault {
        name: "words have 16 bits",
        group: random::LARGE.name,
        spoil: |subject| subject.make = |asked, lent| each_word(asked, lent, |word| word & 0xffff),
    },
    Fault {
        name: "a clause that was written before is not written again",
        group: lists::MANY.name,
        spoil: |subject| {
            subject.make = |asked, lent| {
                written(asked, lent, |clauses, _| {
                    let mut before = std::collections::HashSet::new();
                    let mut kept: Vec<Vec<u32>> =
                        clauses.iter().filter_map(|each| simplified(each)).collect();
                    kept.retain(|clause| before.insert(clause.clone()));
                    kept
                })
            };
        },
    },
];

/// A call with another simplifier.
fn simplified_by(asked: &Asked, lent: &mut Lent, simplify: fn(&[u64]) -> Option<Vec<u32>>) -> Made {
    written(asked, lent, |clauses, _| {
        clauses.iter().filter_map(|each| simplify(each)).collect()
    })
}

/// A call with other words for the literals.
fn each_word(asked: &Asked, lent: &mut Lent, change: fn(u32) -> u32) -> Made {
    written(asked, lent, |clauses, _| {
        let simplified = clauses.iter().filter_map(|each| simplified(each));
        simplified
            .map(|words| words.into_iter().map(change).collect())
            .collect()
    })
}

/// The words of a clause's variables, sorted with their repeats.
fn sorted(clause: &[u64]) -> Vec<u32> {
    let literals = clause.iter().filter(|&&literal| literal > 1);
    let mut words: Vec<u32> = literals.map(|&literal| word(literal)).collect();
    words.sort_unstable();
    words
}
