//! Wrong latches, and witnesses left out.

use super::super::{Fault, meaning, orders, random, small};
use super::{OURS, by, rebuilt, with_witnesses};
use crate::reading::compose::parts;

pub const FAULTS: &[Fault] = &[
    Fault {
        name: "the second definition of a latch wins",
        group: small::LATCHES.name,
        spoil: by_rules!(|rules| rules.agreed = |_, other| Ok(other)),
    },
    Fault {
        name: "the first definition of a latch wins",
        group: orders::LATER.name,
        spoil: by_rules!(|rules| rules.agreed = |first, _| Ok(first)),
    },
    Fault {
        name: "18 looks at the next literals only",
        group: small::LATCHES.name,
        spoil: by_rules!(|rules| {
            rules.agreed = |first, other| {
                if first[0] == other[0] {
                    Ok(first)
                } else {
                    Err(18)
                }
            }
        }),
    },
    Fault {
        name: "18 looks at the resets only",
        group: random::DAMAGED.name,
        spoil: by_rules!(|rules| {
            rules.agreed = |first, other| {
                if first[1] == other[1] {
                    Ok(first)
                } else {
                    Err(18)
                }
            }
        }),
    },
    Fault {
        name: "18 looks at variables, not signs",
        group: small::LATCHES.name,
        spoil: by_rules!(|rules| {
            rules.agreed = |first, other| {
                if first.map(|it| it / 2) == other.map(|it| it / 2) {
                    Ok(first)
                } else {
                    Err(18)
                }
            }
        }),
    },
    Fault {
        name: "a latch may be shared only once",
        group: small::LATCHES.name,
        spoil: by_rules!(|rules| rules.agreed = |_, _| Err(18)),
    },
    Fault {
        name: "resets are 0",
        group: meaning::RANDOM.name,
        spoil: |subject| {
            subject.compose = |asked, lent| {
                rebuilt(asked, lent, |made, _| {
                    for latch in &mut made.latches {
                        latch[1] = 0;
                    }
                })
            };
        },
    },
    Fault {
        name: "next and reset are swapped",
        group: small::LATCHES.name,
        spoil: |subject| {
            subject.compose = |asked, lent| {
                rebuilt(asked, lent, |made, _| {
                    for latch in &mut made.latches {
                        latch.reverse();
                    }
                })
            };
        },
    },
    Fault {
        name: "copies of the first witness",
        group: meaning::RANDOM.name,
        spoil: |subject| {
            subject.compose = |asked, lent| match parts(asked) {
                Ok(parts) => with_witnesses(&vec![parts[0]; parts.len()], asked, lent),
                Err(_) => (OURS.compose)(asked, lent),
            };
        },
    },
    Fault {
        name: "a witness after the 63rd is not composed",
        group: random::MANY.name,
        spoil: |subject| {
            subject.compose = |asked, lent| match parts(asked) {
                Ok(parts) if parts.len() > 63 => with_witnesses(&parts[..63], asked, lent),
                _ => (OURS.compose)(asked, lent),
            };
        },
    },
];
