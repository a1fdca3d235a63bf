//! Wrong mappings of inputs and latches.

use super::super::{Fault, mapping, random, small};
use super::by;
use super::names::word;
use crate::reading::compose::{Kind, RULES, Texts, by_name, by_position, names};

pub const FAULTS: &[Fault] = &[
    Fault {
        name: "each input and latch is mapped in its own way",
        group: mapping::MIXED.name,
        spoil: by_rules!(|rules| {
            rules.shared =
                |texts, index, kind, place| {
                    Ok(by_name(&texts.model, &texts.witnesses[index], kind, place)?
                        .or(by_position(&texts.model, kind, place)))
                }
        }),
    },
    Fault {
        name: "positions count whatever names say",
        group: mapping::MIXED.name,
        spoil: by_rules!(|rules| {
            rules.shared = |texts, _, kind, place| Ok(by_position(&texts.model, kind, place))
        }),
    },
    Fault {
        name: "inputs and latches are decided on apart",
        group: mapping::MIXED.name,
        spoil: by_rules!(|rules| {
            rules.shared = |texts, index, kind, place| match mapped(texts, index, kind) {
                true => by_name(&texts.model, &texts.witnesses[index], kind, place),
                false => Ok(by_position(&texts.model, kind, place)),
            }
        }),
    },
    Fault {
        name: "names of latches do not decide",
        group: mapping::NAMES.name,
        spoil: by_rules!(|rules| {
            rules.shared = |texts, index, kind, place| match mapped(texts, index, Kind::Input) {
                true => by_name(&texts.model, &texts.witnesses[index], kind, place),
                false => Ok(by_position(&texts.model, kind, place)),
            }
        }),
    },
    Fault {
        name: "one witness that maps decides for all",
        group: mapping::MIXED.name,
        spoil: by_rules!(|rules| {
            rules.shared =
                |texts, index, kind, place| match texts.witnesses.iter().any(|witness| witness.maps)
                {
                    true => by_name(&texts.model, &texts.witnesses[index], kind, place),
                    false => Ok(by_position(&texts.model, kind, place)),
                }
        }),
    },
    Fault {
        name: "surplus inputs are refused",
        group: mapping::PRIVATE.name,
        spoil: by_rules!(|rules| {
            rules.shared =
                |texts, index, kind, place| match (RULES.shared)(texts, index, kind, place)? {
                    None if !texts.witnesses[index].maps && kind == Kind::Input => Err(16),
                    shared => Ok(shared),
                }
        }),
    },
    Fault {
        name: "surplus latches share the last latch",
        group: mapping::PRIVATE.name,
        spoil: by_rules!(|rules| {
            rules.shared =
                |texts, index, kind, place| {
                    let shared = (RULES.shared)(texts, index, kind, place)?;
                    let last = texts.model.latches.len().saturating_sub(1);
                    Ok(shared
                        .or(by_position(&texts.model, kind, last).filter(|_| kind == Kind::Latch)))
                }
        }),
    },
    Fault {
        name: "a second own input mapped to one is private",
        group: random::WHOLE.name,
        spoil: by_rules!(|rules| {
            rules.shared = |texts, index, kind, place| {
                let shared = (RULES.shared)(texts, index, kind, place)?;
                let earlier =
                    (0..place).any(|place| (RULES.shared)(texts, index, kind, place) == Ok(shared));
                Ok(shared.filter(|_| !earlier))
            }
        }),
    },
    Fault {
        name: "private inputs of one place are shared",
        group: small::SHAPES.name,
        spoil: by_rules!(|rules| {
            rules.shared = |texts, index, kind, place| {
                Ok((RULES.shared)(texts, index, kind, place)?.or(Some(1_000 + 2 * place as u64)))
            }
        }),
    },
    Fault {
        name: "positions are counted from the other end",
        group: mapping::PRIVATE.name,
        spoil: by_rules!(|rules| {
            rules.shared = |texts, index, kind, place| {
                let count = names(&texts.witnesses[index].sections, kind).len();
                match texts.witnesses[index].maps {
                    true => (RULES.shared)(texts, index, kind, place),
                    false => Ok(by_position(&texts.model, kind, count - 1 - place)),
                }
            }
        }),
    },
];

/// Whether a name of this kind maps.
fn mapped(texts: &Texts, index: usize, kind: Kind) -> bool {
    let count = names(&texts.witnesses[index].sections, kind).len();
    (0..count).any(|place| word(texts, index, kind, place).is_some())
}
