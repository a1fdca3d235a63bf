//! Wrong loaders.

use super::super::{Fault, large, loads, random, short};
use super::OURS;
use crate::reading::witness as reading;
use crate::sections::{Name, Sections};
use crate::subject::witness::Role;

pub const FAULTS: &[Fault] = &[
    Fault {
        name: "a name's offset is one off",
        group: loads::LENT.name,
        spoil: |subject| {
            subject.load = |text, role, words| {
                names_changed(text, role, words, |_, name| {
                    Some(Name {
                        offset: name.offset - 1,
                        ..name
                    })
                })
            };
        },
    },
    Fault {
        name: "a name's length counts byte 10",
        group: random::WHOLE.name,
        spoil: |subject| {
            subject.load = |text, role, words| {
                names_changed(text, role, words, |_, name| {
                    Some(Name {
                        length: name.length + 1,
                        ..name
                    })
                })
            };
        },
    },
    Fault {
        name: "an empty name is none",
        group: short::TAILS.name,
        spoil: |subject| {
            subject.load = |text, role, words| {
                names_changed(text, role, words, |_, name| {
                    (name.length > 0).then_some(name)
                })
            };
        },
    },
    Fault {
        name: "a name ends at a second space",
        group: random::WHOLE.name,
        spoil: |subject| {
            subject.load = |text, role, words| {
                names_changed(text, role, words, |text, name| {
                    let bytes = &text[name.offset..name.offset + name.length];
                    let end = bytes.iter().position(|&byte| byte == 32);
                    Some(Name {
                        length: end.unwrap_or(name.length),
                        ..name
                    })
                })
            };
        },
    },
    Fault {
        name: "names stand in the order of their lines",
        group: large::NAMES.name,
        spoil: |subject| {
            subject.load = |text, role, words| {
                changed(text, role, words, |_, sections| {
                    sections
                        .input_names
                        .sort_by_key(|name| name.map(|name| name.offset));
                })
            };
        },
    },
    Fault {
        name: "names of inputs and latches are swapped",
        group: loads::LENT.name,
        spoil: |subject| {
            subject.load = |text, role, words| {
                changed(text, role, words, |_, sections| {
                    std::mem::swap(&mut sections.input_names, &mut sections.latch_names);
                })
            };
        },
    },
    Fault {
        name: "an absent reset is the latch",
        group: random::WHOLE.name,
        spoil: |subject| {
            subject.load = |text, role, words| {
                changed(text, role, words, |_, sections| {
                    for latch in &mut sections.latches {
                        if latch.reset == 0 {
                            latch.reset = latch.current;
                        }
                    }
                })
            };
        },
    },
    Fault {
        name: "next and reset are swapped",
        group: short::LITERALS.name,
        spoil: |subject| {
            subject.load = |text, role, words| {
                changed(text, role, words, |_, sections| {
                    for latch in &mut sections.latches {
                        std::mem::swap(&mut latch.next, &mut latch.reset);
                    }
                })
            };
        },
    },
    Fault {
        name: "bads stand before the outputs",
        group: random::WHOLE.name,
        spoil: |subject| {
            subject.load = |text, role, words| {
                changed(text, role, words, |_, sections| {
                    let outputs = std::mem::take(&mut sections.outputs);
                    sections.outputs = std::mem::replace(&mut sections.bads, outputs);
                })
            };
        },
    },
    Fault {
        name: "the smaller operand stands first",
        group: short::LITERALS.name,
        spoil: |subject| {
            subject.load = |text, role, words| {
                changed(text, role, words, |_, sections| {
                    for gate in &mut sections.gates {
                        gate[1..].sort();
                    }
                })
            };
        },
    },
    Fault {
        name: "exactly enough words are too few",
        group: loads::LENT.name,
        spoil: |subject| {
            subject.load = |text, role, words| match words.split_last_mut() {
                Some((_, front)) => (OURS.load)(text, role, front),
                None => (OURS.load)(text, role, words),
            };
        },
    },
    Fault {
        name: "words are written where they are too few",
        group: loads::LENT.name,
        spoil: |subject| {
            subject.load = |text, role, words| {
                let reason = (OURS.load)(text, role, words);
                if let (20, Ok(sections)) = (reason, reading::sections(text, role)) {
                    let whole = sections.words();
                    words.copy_from_slice(&whole[..words.len()]);
                }
                reason
            };
        },
    },
    Fault {
        name: "words are written before the literals are checked",
        group: random::DAMAGED.name,
        spoil: |subject| {
            subject.load = |text, role, words| {
                let reason = (OURS.load)(text, role, words);
                if let (11, Ok(sections)) = (reason, reading::lines_of(text, role)) {
                    reading::put(&sections, words);
                }
                reason
            };
        },
    },
    Fault {
        name: "20 comes before 11",
        group: loads::LENT.name,
        spoil: |subject| {
            subject.load = |text, role, words| {
                let reason = (OURS.load)(text, role, words);
                match reading::lines_of(text, role) {
                    Ok(sections) if sections.words().len() > words.len() => 20,
                    _ => reason,
                }
            };
        },
    },
    Fault {
        name: "words past the result are cleared",
        group: loads::LENT.name,
        spoil: |subject| {
            subject.load = |text, role, words| {
                let reason = (OURS.load)(text, role, words);
                if let (0, Ok(sections)) = (reason, reading::sections(text, role)) {
                    words[sections.words().len()..].fill(0);
                }
                reason
            };
        },
    },
    Fault {
        name: "words of those without a name are left as they are",
        group: loads::LENT.name,
        spoil: |subject| {
            subject.load = |text, role, words| {
                let kept = words.to_vec();
                let reason = (OURS.load)(text, role, words);
                if let (0, Ok(sections)) = (reason, reading::sections(text, role)) {
                    for (index, name) in sections.input_names.iter().enumerate() {
                        if name.is_none() {
                            words[2 * index..2 * index + 2]
                                .copy_from_slice(&kept[2 * index..2 * index + 2]);
                        }
                    }
                }
                reason
            };
        },
    },
    Fault {
        name: "mappings are taken by the loader",
        group: loads::LENT.name,
        spoil: |subject| subject.load = |text, _, words| (OURS.load)(text, Role::Model, words),
    },
];

/// Loads what `change` makes of the sections.
fn changed(
    text: &[u8],
    role: Role,
    words: &mut [u64],
    change: impl Fn(&[u8], &mut Sections),
) -> u64 {
    match reading::sections(text, role) {
        Ok(mut sections) => {
            change(text, &mut sections);
            reading::put(&sections, words)
        }
        Err(_) => (OURS.load)(text, role, words),
    }
}

/// Loads what `change` makes of each name.
fn names_changed(
    text: &[u8],
    role: Role,
    words: &mut [u64],
    change: impl Fn(&[u8], Name) -> Option<Name>,
) -> u64 {
    changed(text, role, words, |text, sections| {
        let names = sections.input_names.iter_mut();
        for name in names.chain(&mut sections.latch_names) {
            *name = name.and_then(|name| change(text, name));
        }
    })
}
