//! Wrong gates: their sharing, their operands, their number.

use super::super::{Fault, large, limits, meaning, random, small, tables};
use super::{by, refused_if};
use crate::reading::compose::{RULES, composition, texts};

pub const FAULTS: &[Fault] = &[
    Fault {
        name: "operands stand as in the witness",
        group: small::GATES.name,
        spoil: by_rules!(|rules| rules.written = |operands| operands),
    },
    Fault {
        name: "the greater operand stands first",
        group: small::TWO_GATES.name,
        spoil: by_rules!(|rules| rules.written = |[left, right]| [left.max(right), left.min(right)]),
    },
    Fault {
        name: "swapped operands are not shared",
        group: small::GATES.name,
        spoil: by_rules!(|rules| rules.alike = |_, operands| (0, operands)),
    },
    Fault {
        name: "gates are not shared across witnesses",
        group: small::TWO_GATES.name,
        spoil: by_rules!(|rules| {
            rules.alike = |witness, [left, right]| (witness, [left.min(right), left.max(right)])
        }),
    },
    Fault {
        name: "gates are shared whatever their signs are",
        group: meaning::SMALL.name,
        spoil: by_rules!(|rules| {
            rules.alike = |_, [left, right]| (0, [left.min(right) / 2, left.max(right) / 2])
        }),
    },
    Fault {
        name: "gates of colliding operands are one",
        group: random::WHOLE.name,
        spoil: by_rules!(
            |rules| rules.alike = |_, [left, right]| (0, [left ^ right, left & right & 1])
        ),
    },
    Fault {
        name: "operands are cut to 16 bits",
        group: large::LARGE.name,
        spoil: by_rules!(|rules| {
            rules.alike =
                |_, [left, right]| (0, [left.min(right) & 0xffff, left.max(right) & 0xffff])
        }),
    },
    Fault {
        name: "x and x is folded into one gate with true and x",
        group: tables::TABLES.name,
        spoil: by_rules!(|rules| {
            rules.alike = |_, [left, right]| {
                (
                    0,
                    [
                        if left == right { 1 } else { left.min(right) },
                        left.max(right),
                    ],
                )
            }
        }),
    },
    Fault {
        name: "gates with a constant 0 share one",
        group: small::GATES.name,
        spoil: by_rules!(|rules| {
            rules.alike = |_, [left, right]| match left.min(right) {
                0 => (0, [0, 0]),
                least => (0, [least, left.max(right)]),
            }
        }),
    },
    Fault {
        name: "17 counts inputs and latches",
        group: limits::VARIABLES.name,
        spoil: |subject| {
            subject.compose = |asked, lent| {
                let many = texts(asked).is_ok_and(|texts| {
                    composition(&texts, &RULES).is_ok_and(|made| {
                        made.numbering.inputs.len() + made.numbering.latches.len() > 2_000_000
                    })
                });
                refused_if(many, 17, asked, lent)
            };
        },
    },
    Fault {
        name: "17 does not count inputs and latches",
        group: limits::VARIABLES.name,
        spoil: by_rules!(
            |rules| rules.fits = |variable, leaves| variable - leaves as u64 <= 2_000_000
        ),
    },
    Fault {
        name: "17 at 2,000,000",
        group: limits::VARIABLES.name,
        spoil: by_rules!(|rules| rules.fits = |variable, _| variable < 2_000_000),
    },
];
