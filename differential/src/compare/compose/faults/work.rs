//! Wrong treatment of work words.

use super::super::{Fault, lent as amounts, orders, pairs, random, tables};
use super::{OURS, answered, reason_due, refused_if};
use crate::reading::compose::{self as reading, Due, RULES, Texts};
use crate::sections::Sections;
use crate::subject::compose::{Asked, Composed, Lent};

pub const FAULTS: &[Fault] = &[
    Fault {
        name: "work words are left on 1",
        group: pairs::COUNTS.name,
        spoil: |subject| {
            subject.compose = |asked, lent| kept_work(asked, lent, |reason| reason == 1);
        },
    },
    Fault {
        name: "work words are left on 2",
        group: pairs::PLACES.name,
        spoil: |subject| {
            subject.compose = |asked, lent| kept_work(asked, lent, |reason| reason == 2);
        },
    },
    Fault {
        name: "work words are left on 3 to 11",
        group: orders::TEXTS.name,
        spoil: |subject| {
            subject.compose =
                |asked, lent| kept_work(asked, lent, |reason| (3..12).contains(&reason));
        },
    },
    Fault {
        name: "work words are left on 15",
        group: amounts::AMOUNTS.name,
        spoil: |subject| {
            subject.compose = |asked, lent| kept_work(asked, lent, |reason| reason == 15);
        },
    },
    Fault {
        name: "work words are left on 16 to 19",
        group: orders::LATER.name,
        spoil: |subject| {
            subject.compose =
                |asked, lent| kept_work(asked, lent, |reason| (16..20).contains(&reason));
        },
    },
    Fault {
        name: "work words are left on 20",
        group: amounts::AMOUNTS.name,
        spoil: |subject| {
            subject.compose = |asked, lent| kept_work(asked, lent, |reason| reason == 20);
        },
    },
    Fault {
        name: "work words are left on acceptance",
        group: tables::TABLES.name,
        spoil: |subject| {
            subject.compose = |asked, lent| kept_work(asked, lent, |reason| reason == 0);
        },
    },
    Fault {
        name: "work words past the needed are left",
        group: amounts::AMOUNTS.name,
        spoil: |subject| {
            subject.compose = |asked, lent| {
                let kept = lent.work.to_vec();
                let composed = (OURS.compose)(asked, lent);
                if let Ok(due) = reading::due(asked, &RULES)
                    && due.work < kept.len()
                {
                    lent.work[due.work..].copy_from_slice(&kept[due.work..]);
                }
                composed
            };
        },
    },
    Fault {
        name: "the last work word is left",
        group: random::WHOLE.name,
        spoil: |subject| {
            subject.compose = |asked, lent| {
                let kept = lent.work.last().copied();
                let composed = (OURS.compose)(asked, lent);
                if let (Some(last), Some(kept)) = (lent.work.last_mut(), kept) {
                    *last = kept;
                }
                composed
            };
        },
    },
    Fault {
        name: "work words must be 0 before",
        group: tables::TABLES.name,
        spoil: |subject| {
            subject.compose = |asked, lent| {
                let garbage = lent.work.iter().any(|&word| word != 0);
                refused_if(garbage && reason_due(asked) == 20, 18, asked, lent)
            };
        },
    },
    Fault {
        name: "a work word too few is enough",
        group: amounts::AMOUNTS.name,
        spoil: |subject| {
            subject.compose = |asked, lent| needs(asked, lent, |_, work| work - 1);
        },
    },
    Fault {
        name: "exactly enough work words are too few",
        group: amounts::AMOUNTS.name,
        spoil: |subject| {
            subject.compose = |asked, lent| needs(asked, lent, |_, work| work + 1);
        },
    },
    Fault {
        name: "the 1,024 words are not asked for",
        group: amounts::AMOUNTS.name,
        spoil: |subject| {
            subject.compose = |asked, lent| needs(asked, lent, |_, work| work - 1_024);
        },
    },
    Fault {
        name: "the model does not count for the work words",
        group: amounts::AMOUNTS.name,
        spoil: |subject| {
            subject.compose =
                |asked, lent| needs(asked, lent, |texts, work| work - 16 * counted(&texts.model));
        },
    },
    Fault {
        name: "outputs count for the work words only where used",
        group: amounts::AMOUNTS.name,
        spoil: |subject| {
            subject.compose = |asked, lent| {
                needs(asked, lent, |texts, work| {
                    let unused = texts
                        .witnesses
                        .iter()
                        .filter(|witness| !witness.sections.bads.is_empty());
                    work - 16
                        * unused
                            .map(|witness| witness.sections.outputs.len())
                            .sum::<usize>()
                })
            };
        },
    },
    Fault {
        name: "constraints do not count for the work words",
        group: random::WHOLE.name,
        spoil: |subject| {
            subject.compose = |asked, lent| {
                needs(asked, lent, |texts, work| {
                    work - 16
                        * texts
                            .witnesses
                            .iter()
                            .map(|witness| witness.sections.constraints.len())
                            .sum::<usize>()
                })
            };
        },
    },
    Fault {
        name: "the last witness does not count for the work words",
        group: random::MANY.name,
        spoil: |subject| {
            subject.compose = |asked, lent| {
                needs(asked, lent, |texts, work| {
                    work - 16
                        * texts
                            .witnesses
                            .last()
                            .map_or(0, |witness| counted(&witness.sections))
                })
            };
        },
    },
];

/// Composes, and puts the work words back where `left` holds of the reason.
fn kept_work(asked: &Asked, lent: &mut Lent, left: impl Fn(u64) -> bool) -> Composed {
    let kept = lent.work.to_vec();
    let composed = (OURS.compose)(asked, lent);
    if left(composed.reason) {
        lent.work.copy_from_slice(&kept);
    }
    composed
}

/// Composes with another number of work words needed.
fn needs(asked: &Asked, lent: &mut Lent, words: impl Fn(&Texts, usize) -> usize) -> Composed {
    let due = reading::due(asked, &RULES).map(|due| match reading::texts(asked) {
        Ok(texts) => Due {
            work: words(&texts, due.work),
            ..due
        },
        Err(_) => due,
    });
    answered(due, lent)
}

/// M + O + B + C.
fn counted(sections: &Sections) -> usize {
    let listed = [&sections.outputs, &sections.bads, &sections.constraints];
    sections.variables as usize + listed.map(Vec::len).iter().sum::<usize>()
}
