//! Wrong counts, and wrong contents of what is lent.

use super::super::{Fault, limits, meaning, random, small};
use super::{OURS, tried};
use crate::reading::obligation;
use crate::subject::obligation::{Asked, Lent, Made};

pub const FAULTS: &[Fault] = &[
    Fault {
        name: "the count of clauses is one too many",
        group: small::TRANSDUCER.name,
        spoil: |subject| {
            subject.make = |asked, lent| accepted(asked, lent, |made, _| made.clauses += 1);
        },
    },
    Fault {
        name: "the count of clauses is one too few",
        group: meaning::SMALL.name,
        spoil: |subject| {
            subject.make = |asked, lent| {
                accepted(asked, lent, |made, _| {
                    made.clauses = made.clauses.saturating_sub(1)
                })
            };
        },
    },
    Fault {
        name: "the count of literals is that of clauses",
        group: small::TERMINAL.name,
        spoil: |subject| {
            subject.make =
                |asked, lent| accepted(asked, lent, |made, _| made.literals = made.clauses);
        },
    },
    Fault {
        name: "accepted, and the buffers are untouched",
        group: random::ACCEPTED.name,
        spoil: |subject| subject.make = |asked, lent| tried(asked, lent).0,
    },
    Fault {
        name: "accepted, and only the pairs are written",
        group: random::ACCEPTED.name,
        spoil: |subject| {
            subject.make = |asked, lent| {
                let (made, pairs, _) = tried(asked, lent);
                lent.pairs.copy_from_slice(&pairs);
                made
            };
        },
    },
    Fault {
        name: "the pair past the result is changed",
        group: random::ACCEPTED.name,
        spoil: |subject| {
            subject.make = |asked, lent| {
                accepted(asked, lent, |made, lent| {
                    if let Some(next) = lent.pairs.get_mut(2 * made.clauses as usize) {
                        *next = made.literals;
                    }
                })
            };
        },
    },
    Fault {
        name: "a literal past the result is changed",
        group: random::ACCEPTED.name,
        spoil: |subject| {
            subject.make = |asked, lent| {
                accepted(asked, lent, |made, lent| {
                    lent.literals[made.literals as usize..].fill(0);
                })
            };
        },
    },
    Fault {
        name: "offsets are counted in clauses",
        group: small::TERMINAL.name,
        spoil: |subject| {
            subject.make = |asked, lent| {
                accepted(asked, lent, |made, lent| {
                    for place in 0..made.clauses {
                        lent.pairs[2 * place as usize] = place;
                    }
                })
            };
        },
    },
    Fault {
        name: "the offset of an empty clause is 0",
        group: small::RELATION.name,
        spoil: |subject| {
            subject.make = |asked, lent| {
                accepted(asked, lent, |made, lent| {
                    let pairs = lent.pairs.chunks_exact_mut(2);
                    for pair in pairs.take(made.clauses as usize) {
                        if pair[1] == 0 {
                            pair[0] = 0;
                        }
                    }
                })
            };
        },
    },
    Fault {
        name: "as much as fits is written before 20",
        group: limits::ROOM.name,
        spoil: |subject| {
            subject.make = |asked, lent| {
                let clauses = obligation::clauses(asked, lent.work.len());
                let made = (OURS.make)(asked, lent);
                if let (20, Ok(clauses), [first, ..]) = (made.reason, clauses, &mut *lent.pairs) {
                    *first = clauses.len() as u64;
                }
                made
            };
        },
    },
    Fault {
        name: "a refusal says how many clauses are needed",
        group: limits::ROOM.name,
        spoil: |subject| {
            subject.make = |asked, lent| {
                let clauses = obligation::clauses(asked, lent.work.len());
                let made = (OURS.make)(asked, lent);
                match (made.reason, clauses) {
                    (20, Ok(clauses)) => Made {
                        clauses: clauses.len() as u64,
                        ..made
                    },
                    _ => made,
                }
            };
        },
    },
    Fault {
        name: "work words are left behind",
        group: small::RELATION.name,
        spoil: |subject| {
            subject.make =
                |asked, lent| accepted(asked, lent, |made, lent| lent.work[1] = made.clauses);
        },
    },
    Fault {
        name: "work words past M + 1 stay as they were",
        group: random::ACCEPTED.name,
        spoil: |subject| {
            subject.make = |asked, lent| {
                let before = lent.work.to_vec();
                let needed = asked.record.first().map_or(0, |variables| variables + 1);
                let made = (OURS.make)(asked, lent);
                if before.len() as u64 > needed {
                    let needed = needed as usize;
                    lent.work[needed..].copy_from_slice(&before[needed..]);
                }
                made
            };
        },
    },
    Fault {
        name: "work words are not cleared on 7",
        group: limits::LENT.name,
        spoil: |subject| subject.make = |asked, lent| uncleared(7, asked, lent),
    },
    Fault {
        name: "work words are not cleared on 14",
        group: random::DAMAGED.name,
        spoil: |subject| subject.make = |asked, lent| uncleared(14, asked, lent),
    },
    Fault {
        name: "work words are not cleared on 20",
        group: limits::FIRST_REASON.name,
        spoil: |subject| subject.make = |asked, lent| uncleared(20, asked, lent),
    },
];

/// A call with another answer, or other contents, where it is accepted.
fn accepted(asked: &Asked, lent: &mut Lent, change: fn(&mut Made, &mut Lent)) -> Made {
    let mut made = (OURS.make)(asked, lent);
    if made.reason == 0 {
        change(&mut made, lent);
    }
    made
}

/// A call that leaves the work words as they were where it refuses for this reason.
fn uncleared(reason: u64, asked: &Asked, lent: &mut Lent) -> Made {
    let before = lent.work.to_vec();
    let made = (OURS.make)(asked, lent);
    if made.reason == reason {
        lent.work.copy_from_slice(&before);
    }
    made
}
