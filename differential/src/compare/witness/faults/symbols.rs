//! Wrong readers: symbols and comments.

use super::super::{Fault, large, limits, loads, short, symbols};
use super::{OURS, refused_if, retried, with_line};
use crate::reading::witness as reading;
use crate::subject::witness::{Read, Role};

pub const FAULTS: &[Fault] = &[
    Fault {
        name: "a latch may have a second name",
        group: symbols::TWICE.name,
        spoil: |subject| subject.read = |text, role| once_named(text, role, "l"),
    },
    Fault {
        name: "an input may have a second name",
        group: short::TAILS.name,
        spoil: |subject| subject.read = |text, role| once_named(text, role, "i"),
    },
    Fault {
        name: "an output may not have a second name",
        group: symbols::TWICE.name,
        spoil: refusing!(9, |text, role, read| {
            let names = text.windows(4).filter(|part| part == b"\no0 ");
            read.reason == 0 && names.count() > 1
        }),
    },
    Fault {
        name: "an input and a latch of one index may not both be named",
        group: symbols::TWICE.name,
        spoil: |subject| {
            subject.read = |text, role| {
                refused_if(9, text, role, |_| {
                    reading::sections(text, role).is_ok_and(|sections| {
                        let mut both = sections.input_names.iter().zip(&sections.latch_names);
                        both.any(|(input, latch)| input.is_some() && latch.is_some())
                    })
                })
            };
        },
    },
    Fault {
        name: "a second name is not seen above index 65,535",
        group: large::NAMES.name,
        spoil: |subject| {
            subject.read = |text, role| {
                retried(9, text, role, |text| {
                    let (start, last) = text.trim_end().rsplit_once('\n')?;
                    let index: u64 = last.strip_prefix('i')?.split_once(' ')?.0.parse().ok()?;
                    (65_536..1_000_000)
                        .contains(&index)
                        .then(|| format!("{start}\n"))
                })
            };
        },
    },
    Fault {
        name: "symbols end at c0 name",
        group: symbols::TWICE.name,
        spoil: |subject| {
            subject.read = |text, role| {
                retried(9, text, role, |text| {
                    let (start, _) = text.split_once("\nc0 ")?;
                    Some(format!("{start}\n"))
                })
            };
        },
    },
    Fault {
        name: "c0 name is refused",
        group: short::TAILS.name,
        spoil: refusing!(9, |text, role, read| {
            read.reason == 0 && text.ends_with(b"\nc0 x\n")
        }),
    },
    Fault {
        name: "c and a blank begin the comments",
        group: symbols::COMMENTS.name,
        spoil: |subject| {
            subject.read =
                |text, role| retried(9, text, role, |text| replaced(text, "\nc \n", "\nc\n"));
        },
    },
    Fault {
        name: "a blank line after the gates is skipped",
        group: symbols::TWICE.name,
        spoil: |subject| {
            subject.read = |text, role| retried(9, text, role, |text| replaced(text, "\n\n", "\n"));
        },
    },
    Fault {
        name: "a symbol line that begins with a space is trimmed",
        group: symbols::TWICE.name,
        spoil: |subject| {
            subject.read = |text, role| retried(9, text, role, |text| replaced(text, "\n ", "\n"));
        },
    },
    Fault {
        name: "a name may be missing with its space",
        group: symbols::FORMS.name,
        spoil: |subject| {
            subject.read = |text, role| {
                retried(9, text, role, |text| {
                    let bare = text.trim_end_matches('\n');
                    bare.ends_with("i0").then(|| format!("{bare} \n"))
                })
            };
        },
    },
    Fault {
        name: "a tab ends kind and index",
        group: symbols::FORMS.name,
        spoil: |subject| {
            subject.read = |text, role| retried(9, text, role, |text| replaced(text, "\t", " "));
        },
    },
    Fault {
        name: "an empty name is refused",
        group: loads::LENT.name,
        spoil: refusing!(9, |text, role, read| {
            read.reason == 0 && text.ends_with(b"i0 \n")
        }),
    },
    Fault {
        name: "an index may be its count",
        group: limits::BOUNDS.name,
        spoil: |subject| {
            subject.read = |text, role| {
                retried(9, text, role, |text| {
                    with_line(text, |line| {
                        let index: u64 = line.strip_prefix('b')?.split_once(' ')?.0.parse().ok()?;
                        let counts = reading::counts(text.as_bytes())?;
                        (index == counts.bads).then(|| "b0 x".to_string())
                    })
                })
            };
        },
    },
    Fault {
        name: "an index is held to the inputs, whatever its kind",
        group: symbols::FORMS.name,
        spoil: refusing!(9, |text, role, read| {
            read.reason == 0 && read.inputs == 1 && text.ends_with(b"o2 x\n")
        }),
    },
    Fault {
        name: "i00 is taken",
        group: symbols::FORMS.name,
        spoil: |subject| {
            subject.read =
                |text, role| retried(9, text, role, |text| replaced(text, "\ni00 ", "\ni0 "));
        },
    },
    Fault {
        name: "i+0 is refused",
        group: short::TAILS.name,
        spoil: refusing!(9, |text, role, read| {
            read.reason == 0 && text.windows(4).any(|part| part == b"\ni+0")
        }),
    },
    Fault {
        name: "an index of 2^64 or more wraps",
        group: symbols::FORMS.name,
        spoil: |subject| {
            subject.read = |text, role| {
                retried(9, text, role, |text| {
                    replaced(text, "18446744073709551616", "0")
                })
            };
        },
    },
    Fault {
        name: "j symbols are taken",
        group: symbols::FORMS.name,
        spoil: |subject| {
            subject.read =
                |text, role| retried(9, text, role, |text| replaced(text, "\nj0 ", "\no0 "));
        },
    },
    Fault {
        name: "10 is for models too",
        group: symbols::COMMENTS.name,
        spoil: |subject| subject.read = |text, _| (OURS.read)(text, Role::Witness),
    },
    Fault {
        name: "10 is never answered",
        group: symbols::COMMENTS.name,
        spoil: |subject| {
            subject.read = |text, role| match (OURS.read)(text, role) {
                read if read.reason == 10 => (OURS.read)(text, Role::Model),
                read => read,
            };
        },
    },
    Fault {
        name: "a mapping may be any field of a comment",
        group: symbols::COMMENTS.name,
        spoil: |subject| {
            subject.read =
                |text, role| mapping_if(text, role, |text| text.contains("\nx MAPPING\n"));
        },
    },
    Fault {
        name: "a word that begins with MAPPING is one",
        group: symbols::COMMENTS.name,
        spoil: |subject| {
            subject.read =
                |text, role| mapping_if(text, role, |text| text.contains("\nMAPPINGS\n"));
        },
    },
    Fault {
        name: "a mapping must stand at the start of its line",
        group: symbols::COMMENTS.name,
        spoil: |subject| {
            subject.read = |text, role| {
                retried(10, text, role, |text| {
                    Some(text.replace(" MAPPING", " x").replace("\t", " x"))
                })
            };
        },
    },
    Fault {
        name: "interventions are not looked for",
        group: symbols::COMMENTS.name,
        spoil: |subject| {
            subject.read =
                |text, role| retried(10, text, role, |text| replaced(text, "INTERVENTION", "x"));
        },
    },
    Fault {
        name: "a symbol's name may be a mapping",
        group: symbols::COMMENTS.name,
        spoil: |subject| {
            subject.read =
                |text, role| mapping_if(text, role, |text| text.contains("\no0 MAPPING\n"));
        },
    },
];

/// Takes further names of inputs or latches away, where the text is refused with 9.
fn once_named(text: &[u8], role: Role, kind: &str) -> Read {
    retried(9, text, role, |text| {
        let mut seen = Vec::new();
        let mut kept = String::new();
        for line in text.lines() {
            let front = line.split(' ').next().unwrap_or_default().replace('+', "");
            if front.starts_with(kind) {
                if seen.contains(&front) {
                    continue;
                }
                seen.push(front);
            }
            kept += &format!("{line}\n");
        }
        Some(kept)
    })
}

/// Refuses a witness with 10 where it is accepted and this holds of it.
fn mapping_if(text: &[u8], role: Role, wrong: fn(&str) -> bool) -> Read {
    refused_if(10, text, role, |read| {
        read.reason == 0 && role == Role::Witness && std::str::from_utf8(text).is_ok_and(wrong)
    })
}

/// The text with a part replaced, where it has it.
fn replaced(text: &str, from: &str, to: &str) -> Option<String> {
    text.contains(from).then(|| text.replacen(from, to, 1))
}
