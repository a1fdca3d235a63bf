//! Wrong orders of reasons.

use super::super::{Fault, lent as amounts, limits, orders, small};
use super::{OURS, answered, by, reason_due, refused_if};
use crate::reading::compose::{
    self as reading, Due, RULES, Rules, Texts, composition, parts, texts,
};
use crate::reading::witness::sections;
use crate::subject::compose::{Asked, Lent};
use crate::subject::witness::Role;

pub const FAULTS: &[Fault] = &[
    Fault {
        name: "2 comes before 1",
        group: orders::TEXTS.name,
        spoil: |subject| {
            subject.compose = |asked, lent| {
                let overlap = asked
                    .pairs
                    .chunks_exact(2)
                    .zip(asked.pairs.chunks_exact(2).skip(1))
                    .any(|(one, next)| one[0].saturating_add(one[1]) > next[0]);
                refused_if(overlap, 2, asked, lent)
            };
        },
    },
    Fault {
        name: "the model is read before the pairs",
        group: orders::TEXTS.name,
        spoil: |subject| {
            subject.compose = |asked, lent| match sections(asked.model, Role::Model) {
                Err(reason) => refused_if(true, reason, asked, lent),
                Ok(_) => (OURS.compose)(asked, lent),
            };
        },
    },
    Fault {
        name: "witnesses are read before the model",
        group: orders::TEXTS.name,
        spoil: |subject| {
            subject.compose = |asked, lent| match first_of(&reasons(asked)) {
                Some(reason) => refused_if(true, reason, asked, lent),
                None => (OURS.compose)(asked, lent),
            };
        },
    },
    Fault {
        name: "the last witness is read first",
        group: orders::TEXTS.name,
        spoil: |subject| {
            subject.compose = |asked, lent| {
                let mut reasons = reasons(asked);
                reasons.reverse();
                match first_of(&reasons) {
                    Some(reason) if sections(asked.model, Role::Model).is_ok() => {
                        refused_if(true, reason, asked, lent)
                    }
                    _ => (OURS.compose)(asked, lent),
                }
            };
        },
    },
    Fault {
        name: "the lowest number of all texts wins",
        group: orders::TEXTS.name,
        spoil: |subject| {
            subject.compose = |asked, lent| {
                let mut reasons = reasons(asked);
                reasons.sort();
                match first_of(&reasons) {
                    Some(reason) if sections(asked.model, Role::Model).is_ok() => {
                        refused_if(true, reason, asked, lent)
                    }
                    _ => (OURS.compose)(asked, lent),
                }
            };
        },
    },
    Fault {
        name: "10 is told as 11",
        group: orders::TEXTS.name,
        spoil: |subject| {
            subject.compose = |asked, lent| refused_if(reason_due(asked) == 10, 11, asked, lent);
        },
    },
    Fault {
        name: "a model's comments may not map",
        group: orders::LATER.name,
        spoil: |subject| {
            subject.compose = |asked, lent| {
                let mapping = sections(asked.model, Role::Witness) == Err(10);
                refused_if(mapping && parts(asked).is_ok(), 10, asked, lent)
            };
        },
    },
    Fault {
        name: "the longest text is too long",
        group: limits::LONGEST.name,
        spoil: |subject| {
            subject.compose = |asked, lent| {
                let parts = parts(asked).unwrap_or_default();
                let longest = parts.iter().any(|text| text.len() == 16_777_216);
                refused_if(longest, 3, asked, lent)
            };
        },
    },
    Fault {
        name: "15 comes before 3 to 11",
        group: orders::TEXTS.name,
        spoil: |subject| {
            subject.compose = |asked, lent| {
                refused_if(
                    lent.work.is_empty() && parts(asked).is_ok(),
                    15,
                    asked,
                    lent,
                )
            };
        },
    },
    Fault {
        name: "15 comes before 1 and 2",
        group: amounts::AMOUNTS.name,
        spoil: |subject| {
            subject.compose = |asked, lent| refused_if(lent.work.len() < 1_024, 15, asked, lent);
        },
    },
    Fault {
        name: "15 comes after 16 to 19",
        group: orders::LATER.name,
        spoil: |subject| {
            subject.compose = |asked, lent| {
                let due = reading::due(asked, &RULES).map(|due| Due {
                    work: if due.text.is_err() { 0 } else { due.work },
                    ..due
                });
                answered(due, lent)
            };
        },
    },
    Fault {
        name: "20 comes before 16 to 19",
        group: orders::LATER.name,
        spoil: |subject| {
            subject.compose = |asked, lent| {
                refused_if(
                    (16..20).contains(&reason_due(asked))
                        && lent.out.is_empty()
                        && enough(asked, lent),
                    20,
                    asked,
                    lent,
                )
            };
        },
    },
    Fault {
        name: "20 comes before 15",
        group: amounts::AMOUNTS.name,
        spoil: |subject| {
            subject.compose = |asked, lent| {
                let room = lent.out.len();
                let due = reading::due(asked, &RULES).map(|due| match &due.text {
                    Ok(text) if text.len() > room => Due { work: 0, ..due },
                    _ => due,
                });
                answered(due, lent)
            };
        },
    },
    Fault {
        name: "19 comes before 16",
        group: orders::LATER.name,
        spoil: |subject| {
            subject.compose =
                |asked, lent| match later(asked, |rules| rules.shared = |_, _, _, _| Ok(None)) {
                    Some(19) if enough(asked, lent) => refused_if(true, 19, asked, lent),
                    _ => (OURS.compose)(asked, lent),
                };
        },
    },
    Fault {
        name: "19 comes before 18",
        group: orders::LATER.name,
        spoil: |subject| {
            subject.compose =
                |asked, lent| match later(asked, |rules| rules.agreed = |first, _| Ok(first)) {
                    Some(19) if enough(asked, lent) => refused_if(true, 19, asked, lent),
                    _ => (OURS.compose)(asked, lent),
                };
        },
    },
    Fault {
        name: "18 comes before 17",
        group: limits::VARIABLES.name,
        spoil: |subject| {
            subject.compose = |asked, lent| match reason_due(asked) {
                17 => refused_if(
                    later(asked, |rules| rules.fits = |_, _| true) == Some(18),
                    18,
                    asked,
                    lent,
                ),
                _ => (OURS.compose)(asked, lent),
            };
        },
    },
    Fault {
        name: "each witness is judged whole before the next",
        group: orders::LATER.name,
        spoil: |subject| {
            subject.compose = |asked, lent| match one_by_one(asked) {
                Some(reason) if enough(asked, lent) => refused_if(true, reason, asked, lent),
                _ => (OURS.compose)(asked, lent),
            };
        },
    },
    Fault {
        name: "a witness without variables is refused",
        group: small::SHAPES.name,
        spoil: |subject| {
            subject.compose = |asked, lent| {
                let empty = texts(asked).is_ok_and(|texts| {
                    texts
                        .witnesses
                        .iter()
                        .any(|witness| witness.sections.variables == 0)
                });
                refused_if(empty, 5, asked, lent)
            };
        },
    },
    Fault {
        name: "a witness without safety is passed over",
        group: orders::LATER.name,
        spoil: by_rules!(|rules| {
            rules.safety = |sections| match &sections.bads[..] {
                [] if sections.outputs.is_empty() => &[0],
                [] => &sections.outputs,
                bads => bads,
            }
        }),
    },
];

/// The reasons of the witnesses, 0 for those that are accepted; none where the pairs are refused.
fn reasons(asked: &Asked) -> Vec<u64> {
    let parts = parts(asked).unwrap_or_default();
    let reasons = parts.iter().map(|text| sections(text, Role::Witness).err());
    reasons.map(Option::unwrap_or_default).collect()
}

fn first_of(reasons: &[u64]) -> Option<u64> {
    reasons.iter().copied().find(|&reason| reason != 0)
}

/// Whether all texts are accepted and the work words are enough.
fn enough(asked: &Asked, lent: &Lent) -> bool {
    reading::due(asked, &RULES).is_ok_and(|due| lent.work.len() >= due.work)
}

/// The reason of 16 to 19 by other rules.
fn later(asked: &Asked, change: fn(&mut Rules)) -> Option<u64> {
    let mut rules = RULES;
    change(&mut rules);
    composition(&texts(asked).ok()?, &rules).err()
}

/// The first reason of 16 to 19 when witnesses are added one by one.
fn one_by_one(asked: &Asked) -> Option<u64> {
    let Texts { model, witnesses } = texts(asked).ok()?;
    let mut added = Texts {
        model,
        witnesses: Vec::new(),
    };
    for witness in witnesses {
        added.witnesses.push(witness);
        if let Err(reason) = composition(&added, &RULES) {
            return Some(reason);
        }
    }
    None
}
