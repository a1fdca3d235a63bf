//! Wrong refusals for what is lent, and numbers out of order.

use super::super::{Fault, limits, random};
use super::OURS;
use crate::compare::model::records::filled_up;
use crate::subject::obligation::{Asked, Lent, Made};

pub const FAULTS: &[Fault] = &[
    Fault {
        name: "20 comes before 14",
        group: limits::FIRST_REASON.name,
        spoil: |subject| subject.make = |asked, lent| no_room_before(14, asked, lent),
    },
    Fault {
        name: "20 comes before 13",
        group: limits::FIRST_REASON.name,
        spoil: |subject| subject.make = |asked, lent| no_room_before(13, asked, lent),
    },
    Fault {
        name: "14 comes before 13",
        group: limits::FIRST_REASON.name,
        spoil: |subject| {
            subject.make = |asked, lent| {
                let made = (OURS.make)(asked, lent);
                let free = Asked {
                    relevant: &[],
                    predicate_pairs: &[],
                    ..*asked
                };
                first_of(made, 13, 14, &free, lent)
            };
        },
    },
    Fault {
        name: "11 comes before 7",
        group: limits::LENT.name,
        spoil: |subject| {
            subject.make = |asked, lent| {
                let made = (OURS.make)(asked, lent);
                let mut work = vec![0; 100];
                let longer = &mut Lent {
                    work: &mut work,
                    pairs: lent.pairs,
                    literals: &mut [],
                };
                first_of(made, 7, 11, asked, longer)
            };
        },
    },
    Fault {
        name: "20 is given before the result is measured",
        group: limits::ROOM.name,
        spoil: |subject| {
            subject.make = |asked, lent| {
                let made = (OURS.make)(asked, lent);
                let gates = asked.gates.len() / 3;
                if made.reason == 0 && lent.literals.len() < 7 * gates {
                    return Made::refused(20);
                }
                made
            };
        },
    },
    Fault {
        name: "a literal of room must be left over",
        group: limits::ROOM.name,
        spoil: |subject| {
            subject.make = |asked, lent| {
                let made = (OURS.make)(asked, lent);
                if made.reason == 0 && lent.literals.len() as u64 == made.literals {
                    return Made::refused(20);
                }
                made
            };
        },
    },
    Fault {
        name: "a pair of room must be left over",
        group: random::LARGE.name,
        spoil: |subject| {
            subject.make = |asked, lent| {
                let made = (OURS.make)(asked, lent);
                if made.reason == 0 && lent.pairs.len() as u64 / 2 == made.clauses {
                    return Made::refused(20);
                }
                made
            };
        },
    },
    Fault {
        name: "an odd number of pair words is 20",
        group: limits::ROOM.name,
        spoil: |subject| {
            subject.make = |asked, lent| {
                let made = (OURS.make)(asked, lent);
                if made.reason == 0 && lent.pairs.len() % 2 == 1 {
                    return Made::refused(20);
                }
                made
            };
        },
    },
    Fault {
        name: "a work slice of M words suffices",
        group: limits::LENT.name,
        spoil: |subject| {
            subject.make = |asked, lent| {
                let mut work = vec![1; lent.work.len() + 1];
                lent.work.fill(0);
                (OURS.make)(
                    asked,
                    &mut Lent {
                        work: &mut work,
                        pairs: lent.pairs,
                        literals: lent.literals,
                    },
                )
            };
        },
    },
    Fault {
        name: "too few gate words are 7",
        group: limits::LENT.name,
        spoil: |subject| {
            subject.make = |asked, lent| {
                let made = (OURS.make)(asked, lent);
                let gates = asked.record.get(212).copied().unwrap_or(0);
                if made.reason == 11 && (asked.gates.len() as u64) < gates.saturating_mul(3) {
                    return Made::refused(7);
                }
                made
            };
        },
    },
    Fault {
        name: "words of a record that are not there are 0",
        group: limits::RECORDS.name,
        spoil: |subject| {
            subject.make = |asked, lent| {
                let record = &filled_up(asked.record);
                (OURS.make)(&Asked { record, ..*asked }, lent)
            };
        },
    },
];

/// Gives 20 in the place of another number where no room is lent.
fn no_room_before(reason: u64, asked: &Asked, lent: &mut Lent) -> Made {
    let made = (OURS.make)(asked, lent);
    if made.reason == reason && (lent.pairs.len() < 2 || lent.literals.is_empty()) {
        return Made::refused(20);
    }
    made
}

/// Gives the later number in the place of the first, where a second call says that it applies too.
fn first_of(made: Made, first: u64, later: u64, second: &Asked, lent: &mut Lent) -> Made {
    if made.reason == first && (OURS.make)(second, lent).reason == later {
        return Made::refused(later);
    }
    made
}
