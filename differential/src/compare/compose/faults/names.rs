//! Wrong readings of names that map.

use super::super::{Fault, limits, mapping, random};
use super::by;
use crate::reading::compose::{Kind, RULES, Texts, by_name, by_position, names};
use crate::reading::number;
use crate::subject::Rule;

pub const FAULTS: &[Fault] = &[
    Fault {
        name: "a mapped literal may be of another kind",
        group: mapping::NAMES.name,
        spoil: by_rules!(|rules| {
            rules.shared = |texts, index, kind, place| {
                corrected(texts, index, kind, place, |literal| {
                    (literal % 2 == 0 && (2..=8).contains(&literal)).then_some(literal)
                })
            }
        }),
    },
    Fault {
        name: "a gate's literal may be mapped",
        group: mapping::NAMES.name,
        spoil: by_rules!(|rules| {
            rules.shared = |texts, index, kind, place| {
                corrected(texts, index, kind, place, |literal| {
                    (literal == 10).then_some(literal)
                })
            }
        }),
    },
    Fault {
        name: "the sign of a mapped literal is dropped",
        group: mapping::NAMES.name,
        spoil: by_rules!(|rules| {
            rules.shared = |texts, index, kind, place| {
                corrected(texts, index, kind, place, |literal| {
                    (literal == 3).then_some(2)
                })
            }
        }),
    },
    Fault {
        name: "a literal that is absent is private",
        group: mapping::NAMES.name,
        spoil: by_rules!(|rules| {
            rules.shared = |texts, index, kind, place| {
                Ok((RULES.shared)(texts, index, kind, place).unwrap_or(None))
            }
        }),
    },
    Fault {
        name: "a mapping that is refused falls back to the position",
        group: random::DAMAGED.name,
        spoil: by_rules!(|rules| {
            rules.shared = |texts, index, kind, place| {
                Ok(
                    (RULES.shared)(texts, index, kind, place).unwrap_or(by_position(
                        &texts.model,
                        kind,
                        place,
                    )),
                )
            }
        }),
    },
    Fault {
        name: "the model's last input cannot be mapped",
        group: limits::LONGEST.name,
        spoil: by_rules!(|rules| {
            rules.shared =
                |texts, index, kind, place| match (RULES.shared)(texts, index, kind, place)? {
                    Some(4_000_000) => Err(16),
                    shared => Ok(shared),
                }
        }),
    },
    Fault {
        name: "no space is needed behind the equals sign",
        group: mapping::NAMES.name,
        spoil: by_rules!(|rules| {
            rules.shared = |texts, index, kind, place| {
                let witness = &texts.witnesses[index];
                let name = names(&witness.sections, kind)[place];
                match name.map(|name| witness.bytes(name)) {
                    Some(b"=2") => Ok(by_position(&texts.model, kind, 0)),
                    _ => (RULES.shared)(texts, index, kind, place),
                }
            }
        }),
    },
    Fault {
        name: "a bad's name decides that names map",
        group: mapping::NAMES.name,
        spoil: by_rules!(|rules| {
            rules.shared = |texts, index, kind, place| {
                let witness = &texts.witnesses[index];
                let mut lines = witness.text.split(|&byte| byte == 10);
                match lines.any(|line| line.starts_with(b"b0 = ")) {
                    true => by_name(&texts.model, witness, kind, place),
                    false => (RULES.shared)(texts, index, kind, place),
                }
            }
        }),
    },
    Fault {
        name: "blanks around a mapped literal are taken",
        group: mapping::NAMES.name,
        spoil: by_rules!(|rules| {
            rules.shared = |texts, index, kind, place| {
                reread(texts, index, kind, place, |word| {
                    number(Rule::Witness, word.trim_ascii())
                })
            }
        }),
    },
    Fault {
        name: "zeros in front of a mapped literal are taken",
        group: mapping::NAMES.name,
        spoil: by_rules!(|rules| {
            rules.shared = |texts, index, kind, place| {
                reread(texts, index, kind, place, |word| {
                    number(Rule::Transition, word)
                })
            }
        }),
    },
    Fault {
        name: "a plus sign is refused in a mapped literal",
        group: mapping::NAMES.name,
        spoil: by_rules!(|rules| {
            rules.shared = |texts, index, kind, place| match word(texts, index, kind, place) {
                Some([b'+', ..]) => Err(16),
                _ => (RULES.shared)(texts, index, kind, place),
            }
        }),
    },
    Fault {
        name: "a mapped literal wraps at 2^64",
        group: mapping::NAMES.name,
        spoil: by_rules!(|rules| {
            rules.shared = |texts, index, kind, place| {
                reread(texts, index, kind, place, |word| {
                    (word == b"18446744073709551618").then_some(2)
                })
            }
        }),
    },
];

/// What stands behind `= ` in a name that begins so.
pub fn word<'a>(texts: &'a Texts, index: usize, kind: Kind, place: usize) -> Option<&'a [u8]> {
    let witness = &texts.witnesses[index];
    let name = names(&witness.sections, kind)[place]?;
    witness.bytes(name).strip_prefix(b"= ")
}

/// Shares with the literal that `read` makes of a word that is refused, where it makes one.
fn reread(
    texts: &Texts,
    index: usize,
    kind: Kind,
    place: usize,
    read: impl Fn(&[u8]) -> Option<u64>,
) -> Result<Option<u64>, u64> {
    let shared = (RULES.shared)(texts, index, kind, place);
    match word(texts, index, kind, place).and_then(read) {
        Some(literal) if shared.is_err() && by_position(&texts.model, kind, 0) == Some(literal) => {
            Ok(Some(literal))
        }
        _ => shared,
    }
}

/// Shares with what `correct` makes of a literal that is refused, where it makes one.
fn corrected(
    texts: &Texts,
    index: usize,
    kind: Kind,
    place: usize,
    correct: impl Fn(u64) -> Option<u64>,
) -> Result<Option<u64>, u64> {
    let shared = (RULES.shared)(texts, index, kind, place);
    let literal = word(texts, index, kind, place).and_then(|word| number(Rule::Witness, word));
    match literal.and_then(correct) {
        Some(literal) if shared.is_err() => Ok(Some(literal)),
        _ => shared,
    }
}
