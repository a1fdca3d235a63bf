//! Wrong refusals of relevant inputs and predicates.

use super::super::{Fault, predicates};
use super::{OURS, refused_where};
use crate::reading::obligation::parts;
use crate::subject::obligation::{Asked, Lent, Made};

pub const FAULTS: &[Fault] = &[
    Fault {
        name: "64 relevant inputs are refused",
        group: predicates::RELEVANT.name,
        spoil: |subject| {
            subject.make = |asked, lent| refused_where(asked.relevant.len() > 63, 13, asked, lent);
        },
    },
    Fault {
        name: "equal relevant inputs are taken",
        group: predicates::RELEVANT.name,
        spoil: |subject| {
            subject.make = |asked, lent| {
                let mut relevant = asked.relevant.to_vec();
                relevant.dedup();
                let relevant = &relevant[..];
                (OURS.make)(&Asked { relevant, ..*asked }, lent)
            };
        },
    },
    Fault {
        name: "relevant inputs need not rise",
        group: predicates::SMALL.name,
        spoil: |subject| {
            subject.make = |asked, lent| {
                let mut relevant = asked.relevant.to_vec();
                relevant.sort_unstable();
                let relevant = &relevant[..];
                (OURS.make)(&Asked { relevant, ..*asked }, lent)
            };
        },
    },
    Fault {
        name: "the index after the relevant inputs is taken",
        group: predicates::SMALL.name,
        spoil: |subject| {
            subject.make = |asked, lent| {
                let end = 2 * asked.relevant.len() as u32;
                let mut literals = asked.predicate_literals.to_vec();
                for word in &mut literals {
                    if *word / 2 == end / 2 && end > 0 {
                        *word -= 2;
                    }
                }
                let predicate_literals = &literals[..];
                (OURS.make)(
                    &Asked {
                        predicate_literals,
                        ..*asked
                    },
                    lent,
                )
            };
        },
    },
    Fault {
        name: "64 predicate clauses are refused",
        group: predicates::LIMITS.name,
        spoil: |subject| {
            subject.make =
                |asked, lent| refused_where(asked.predicate_pairs.len() / 2 > 63, 13, asked, lent);
        },
    },
    Fault {
        name: "only the first 64 predicate clauses are looked at",
        group: predicates::LIMITS.name,
        spoil: |subject| {
            subject.make = |asked, lent| {
                let pairs = asked.predicate_pairs;
                let predicate_pairs = &pairs[..pairs.len().min(128)];
                (OURS.make)(
                    &Asked {
                        predicate_pairs,
                        ..*asked
                    },
                    lent,
                )
            };
        },
    },
    Fault {
        name: "1,024 predicate literals are refused",
        group: predicates::LIMITS.name,
        spoil: |subject| {
            subject.make = |asked, lent| {
                let literals = predicate_literals(asked);
                refused_where(literals > 1_023, 13, asked, lent)
            };
        },
    },
    Fault {
        name: "predicate literals are counted with the gaps",
        group: predicates::LIMITS.name,
        spoil: |subject| {
            subject.make = |asked, lent| {
                refused_where(asked.predicate_literals.len() > 1_024, 13, asked, lent)
            };
        },
    },
    Fault {
        name: "1,025 predicate literals are taken in two clauses",
        group: predicates::LIMITS.name,
        spoil: |subject| {
            subject.make = |asked, lent| match predicate_literals(asked) {
                1_025 => {
                    let mut pairs = asked.predicate_pairs.to_vec();
                    let place = pairs.len() - 1 - pairs.len() % 2;
                    pairs[place] = pairs[place].saturating_sub(1);
                    let predicate_pairs = &pairs[..];
                    (OURS.make)(
                        &Asked {
                            predicate_pairs,
                            ..*asked
                        },
                        lent,
                    )
                }
                _ => (OURS.make)(asked, lent),
            };
        },
    },
    Fault {
        name: "half a pair is read as an empty one",
        group: predicates::PAIRS.name,
        spoil: |subject| {
            subject.make = |asked, lent| {
                let mut pairs = asked.predicate_pairs.to_vec();
                if pairs.len() % 2 == 1 {
                    pairs.push(0);
                }
                let predicate_pairs = &pairs[..];
                (OURS.make)(
                    &Asked {
                        predicate_pairs,
                        ..*asked
                    },
                    lent,
                )
            };
        },
    },
    Fault {
        name: "half a pair is refused",
        group: predicates::PAIRS.name,
        spoil: |subject| {
            subject.make =
                |asked, lent| refused_where(asked.predicate_pairs.len() % 2 == 1, 13, asked, lent);
        },
    },
    Fault {
        name: "pairs may overlap",
        group: predicates::PAIRS.name,
        spoil: |subject| {
            subject.make = |asked, lent| {
                let [0, first, start, length] = *asked.predicate_pairs else {
                    return (OURS.make)(asked, lent);
                };
                let end = asked.predicate_literals.len() as u64;
                if start >= first || first > end || length > end - start {
                    return (OURS.make)(asked, lent);
                }
                let parts = [(0, first), (start, length)];
                laid_out(asked, lent, &parts)
            };
        },
    },
    Fault {
        name: "the end of a pair wraps",
        group: predicates::PAIRS.name,
        spoil: |subject| {
            subject.make = |asked, lent| match *asked.predicate_pairs {
                [start, length] if start.checked_add(length).is_none() => {
                    laid_out(asked, lent, &[(0, 0)])
                }
                _ => (OURS.make)(asked, lent),
            };
        },
    },
    Fault {
        name: "an empty pair may stand anywhere",
        group: predicates::PAIRS.name,
        spoil: |subject| {
            subject.make = |asked, lent| match *asked.predicate_pairs {
                [_, 0] => laid_out(asked, lent, &[(0, 0)]),
                _ => (OURS.make)(asked, lent),
            };
        },
    },
    Fault {
        name: "an empty pair at the end is refused",
        group: predicates::PAIRS.name,
        spoil: |subject| {
            subject.make = |asked, lent| {
                let end = asked.predicate_literals.len() as u64;
                let mut pairs = asked.predicate_pairs.chunks_exact(2);
                let at_end = pairs.any(|pair| pair[0] == end);
                refused_where(at_end, 13, asked, lent)
            };
        },
    },
    Fault {
        name: "the first pair must start at 0",
        group: predicates::PAIRS.name,
        spoil: |subject| {
            subject.make = |asked, lent| {
                let later = asked.predicate_pairs.len() > 1 && asked.predicate_pairs[0] > 0;
                refused_where(later, 13, asked, lent)
            };
        },
    },
];

/// The call with a predicate of these parts of the literals, one behind the other.
fn laid_out(asked: &Asked, lent: &mut Lent, starts: &[(u64, u64)]) -> Made {
    let mut pairs = Vec::new();
    let mut literals = Vec::new();
    for &(start, length) in starts {
        pairs.extend([literals.len() as u64, length]);
        let part = start as usize..(start + length) as usize;
        literals.extend(&asked.predicate_literals[part]);
    }
    let other = Asked {
        predicate_pairs: &pairs,
        predicate_literals: &literals,
        ..*asked
    };
    (OURS.make)(&other, lent)
}

fn predicate_literals(asked: &Asked) -> usize {
    let parts = parts(asked.predicate_pairs, asked.predicate_literals);
    parts.map_or(0, |parts| parts.iter().map(|part| part.len()).sum())
}
