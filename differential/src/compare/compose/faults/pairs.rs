//! Wrong takings of pairs.

use super::super::{Fault, pairs, tables};
use super::{OURS, reason_due, refused_if, with_witnesses};
use crate::subject::compose::{Asked, Composed, Lent};

pub const FAULTS: &[Fault] = &[
    Fault {
        name: "65 witnesses are taken",
        group: pairs::COUNTS.name,
        spoil: |subject| {
            subject.compose = |asked, lent| {
                with_pairs(
                    asked.pairs.len() / 2 == 65,
                    &asked.pairs[..asked.pairs.len().min(128)],
                    asked,
                    lent,
                )
            };
        },
    },
    Fault {
        name: "one witness is enough",
        group: pairs::COUNTS.name,
        spoil: |subject| {
            subject.compose = |asked, lent| match parts(asked, 0)[..] {
                [only] => with_witnesses(&[only, only], asked, lent),
                _ => (OURS.compose)(asked, lent),
            };
        },
    },
    Fault {
        name: "64 witnesses are too many",
        group: pairs::COUNTS.name,
        spoil: |subject| {
            subject.compose = |asked, lent| refused_if(asked.pairs.len() / 2 == 64, 1, asked, lent);
        },
    },
    Fault {
        name: "words are counted as pairs",
        group: pairs::COUNTS.name,
        spoil: |subject| {
            subject.compose = |asked, lent| refused_if(asked.pairs.len() > 64, 1, asked, lent);
        },
    },
    Fault {
        name: "half a pair is refused",
        group: pairs::COUNTS.name,
        spoil: |subject| {
            subject.compose = |asked, lent| refused_if(asked.pairs.len() % 2 == 1, 2, asked, lent);
        },
    },
    Fault {
        name: "half a pair counts as one",
        group: pairs::COUNTS.name,
        spoil: |subject| {
            subject.compose =
                |asked, lent| refused_if(asked.pairs.len().div_ceil(2) == 65, 1, asked, lent);
        },
    },
    Fault {
        name: "a pair may start a byte before the end of the one ahead",
        group: pairs::PLACES.name,
        spoil: |subject| {
            subject.compose = |asked, lent| overlapping(1, asked, lent);
        },
    },
    Fault {
        name: "pairs may overlap",
        group: pairs::PLACES.name,
        spoil: |subject| {
            subject.compose = |asked, lent| overlapping(usize::MAX, asked, lent);
        },
    },
    Fault {
        name: "a pair past the buffer is cut",
        group: pairs::PLACES.name,
        spoil: |subject| {
            subject.compose = |asked, lent| {
                let end = asked.witnesses.len() as u64;
                let cut: Vec<u64> = asked
                    .pairs
                    .chunks(2)
                    .flat_map(|pair| match pair {
                        [offset, length] if *offset <= end => {
                            [*offset, (*length).min(end - offset)]
                        }
                        [offset, length] => [*offset, *length],
                        _ => [u64::MAX, u64::MAX],
                    })
                    .collect();
                with_pairs(
                    reason_due(asked) == 2 && asked.pairs.len() % 2 == 0,
                    &cut,
                    asked,
                    lent,
                )
            };
        },
    },
    Fault {
        name: "a sum that passes 2^64 wraps",
        group: pairs::PLACES.name,
        spoil: |subject| {
            subject.compose = |asked, lent| {
                // Such a pair is in the buffer then, and no text that is accepted.
                let length = asked.witnesses.len() as u64;
                let mut pairs = asked.pairs.chunks_exact(2);
                let within = pairs.all(|pair| pair[0].wrapping_add(pair[1]) <= length);
                refused_if(within && reason_due(asked) == 2, 3, asked, lent)
            };
        },
    },
    Fault {
        name: "an empty pair is refused",
        group: pairs::PLACES.name,
        spoil: |subject| {
            subject.compose = |asked, lent| {
                refused_if(
                    asked.pairs.chunks_exact(2).any(|pair| pair[1] == 0) && reason_due(asked) == 3,
                    2,
                    asked,
                    lent,
                )
            };
        },
    },
    Fault {
        name: "the first pair must start at 0",
        group: pairs::PLACES.name,
        spoil: |subject| {
            subject.compose = |asked, lent| {
                refused_if(
                    asked.pairs.first().is_some_and(|&offset| offset > 0) && reason_due(asked) > 2,
                    2,
                    asked,
                    lent,
                )
            };
        },
    },
    Fault {
        name: "gaps are refused",
        group: pairs::COUNTS.name,
        spoil: |subject| {
            subject.compose = |asked, lent| {
                let gap = asked
                    .pairs
                    .chunks_exact(2)
                    .zip(asked.pairs.chunks_exact(2).skip(1))
                    .any(|(one, next)| one[0].wrapping_add(one[1]) < next[0]);
                refused_if(gap && reason_due(asked) > 2, 2, asked, lent)
            };
        },
    },
    Fault {
        name: "bytes behind the last pair are refused",
        group: pairs::COUNTS.name,
        spoil: |subject| {
            subject.compose = |asked, lent| {
                let behind = asked.pairs.chunks_exact(2).last().is_some_and(|pair| {
                    pair[0].wrapping_add(pair[1]) < asked.witnesses.len() as u64
                });
                refused_if(behind && reason_due(asked) > 2, 2, asked, lent)
            };
        },
    },
    Fault {
        name: "a pair may not end with the buffer",
        group: tables::TABLES.name,
        spoil: |subject| {
            subject.compose = |asked, lent| {
                let ends = asked
                    .pairs
                    .chunks_exact(2)
                    .any(|pair| pair[0].wrapping_add(pair[1]) == asked.witnesses.len() as u64);
                refused_if(ends && reason_due(asked) > 2, 2, asked, lent)
            };
        },
    },
];

/// Composes with other pairs, where the condition holds.
fn with_pairs(other: bool, pairs: &[u64], asked: &Asked, lent: &mut Lent) -> Composed {
    let pairs = if other { pairs } else { asked.pairs };
    (OURS.compose)(&Asked { pairs, ..*asked }, lent)
}

/// Composes where pairs start at most so many bytes too early.
fn overlapping(early: usize, asked: &Asked, lent: &mut Lent) -> Composed {
    let parts = parts(asked, early);
    if reason_due(asked) != 2 || parts.is_empty() {
        return (OURS.compose)(asked, lent);
    }
    with_witnesses(&parts, asked, lent)
}

/// The parts of pairs that are in the buffer and start at most so many bytes too early; none where
/// there is another.
fn parts<'a>(asked: &Asked<'a>, early: usize) -> Vec<&'a [u8]> {
    let mut free: usize = 0;
    let parts = asked.pairs.chunks_exact(2).map(|pair| {
        let (start, end) = (pair[0] as usize, pair[0].checked_add(pair[1])? as usize);
        let fits = start.saturating_add(early) >= free;
        free = end;
        asked.witnesses.get(start..end).filter(|_| fits)
    });
    parts.collect::<Option<Vec<&[u8]>>>().unwrap_or_default()
}
