//! Wrong bads and constraints.

use super::super::{Fault, meaning, small, tables};
use super::{by, rebuilt};

pub const FAULTS: &[Fault] = &[
    Fault {
        name: "bads stand in the order of appearance",
        group: small::LISTS.name,
        spoil: by_rules!(|rules| {
            rules.listed = |literals| {
                let mut kept = Vec::new();
                for literal in literals {
                    if !kept.contains(&literal) {
                        kept.push(literal);
                    }
                }
                kept
            }
        }),
    },
    Fault {
        name: "bads and constraints are repeated",
        group: small::LISTS.name,
        spoil: by_rules!(|rules| {
            rules.listed = |mut literals| {
                literals.sort();
                literals
            }
        }),
    },
    Fault {
        name: "bads and constraints descend",
        group: tables::TABLES.name,
        spoil: by_rules!(|rules| {
            rules.listed = |mut literals| {
                literals.sort();
                literals.dedup();
                literals.reverse();
                literals
            }
        }),
    },
    Fault {
        name: "bads and constraints are sets of variables",
        group: small::LISTS.name,
        spoil: by_rules!(|rules| {
            rules.listed = |mut literals| {
                literals.sort();
                literals.dedup_by_key(|literal| *literal / 2);
                literals
            }
        }),
    },
    Fault {
        name: "constants are left out of the lists",
        group: small::LISTS.name,
        spoil: by_rules!(|rules| {
            rules.listed = |mut literals| {
                literals.sort();
                literals.dedup();
                literals.retain(|&literal| literal > 1);
                literals
            }
        }),
    },
    Fault {
        name: "outputs come before bads",
        group: small::LISTS.name,
        spoil: by_rules!(|rules| {
            rules.safety = |sections| match &sections.outputs[..] {
                [] => &sections.bads,
                outputs => outputs,
            }
        }),
    },
    Fault {
        name: "outputs are no safety",
        group: small::SHAPES.name,
        spoil: by_rules!(|rules| rules.safety = |sections| &sections.bads),
    },
    Fault {
        name: "the first safety literal alone",
        group: meaning::RANDOM.name,
        spoil: by_rules!(|rules| {
            rules.safety = |sections| {
                let list = if sections.bads.is_empty() {
                    &sections.outputs
                } else {
                    &sections.bads
                };
                &list[..list.len().min(1)]
            }
        }),
    },
    Fault {
        name: "bads are negated",
        group: meaning::SMALL.name,
        spoil: |subject| {
            subject.compose = |asked, lent| {
                rebuilt(asked, lent, |made, _| {
                    for bad in &mut made.bads {
                        *bad ^= 1;
                    }
                })
            };
        },
    },
    Fault {
        name: "bads and constraints are swapped",
        group: small::LISTS.name,
        spoil: |subject| {
            subject.compose = |asked, lent| {
                rebuilt(asked, lent, |made, _| {
                    std::mem::swap(&mut made.bads, &mut made.constraints)
                })
            };
        },
    },
    Fault {
        name: "constraints of the last witness are left out",
        group: meaning::RANDOM.name,
        spoil: |subject| {
            subject.compose = |asked, lent| {
                rebuilt(asked, lent, |made, texts| {
                    let last = texts.witnesses.len() - 1;
                    let own = &texts.witnesses[last].sections.constraints;
                    let left: Vec<u64> = own
                        .iter()
                        .map(|literal| made.numbering.literal(last, *literal))
                        .collect();
                    made.constraints.retain(|literal| !left.contains(literal));
                })
            };
        },
    },
];
