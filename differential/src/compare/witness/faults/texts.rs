//! Wrong readers: R9.3, the order of the numbers, and what is large.

use super::super::{Fault, large, orders, random, short};
use super::{OURS, refused_if, retried};
use crate::reading::LONGEST_TEXT;
use crate::subject::witness::Role;

pub const FAULTS: &[Fault] = &[
    Fault {
        name: "a last line without byte 10 is taken",
        group: short::BODIES.name,
        spoil: |subject| {
            subject.read = |text, role| retried(3, text, role, |text| Some(format!("{text}\n")));
        },
    },
    Fault {
        name: "an empty text is refused with 4",
        group: short::HEADER_BYTES.name,
        spoil: |subject| {
            subject.read = |text, role| refused_if(4, text, role, |_| text.is_empty());
        },
    },
    Fault {
        name: "byte 13 is a blank",
        group: short::HEADER_BYTES.name,
        spoil: |subject| {
            subject.read =
                |text, role| retried(3, text, role, |text| Some(text.replace('\r', " ")));
        },
    },
    Fault {
        name: "byte 13 is taken in comments",
        group: short::EACH_BYTE.name,
        spoil: |subject| {
            subject.read = |text, role| {
                retried(3, text, role, |text| {
                    let (start, comments) = text.split_once("\nc\n")?;
                    Some(format!("{start}\nc\n{}", comments.replace('\r', "x")))
                })
            };
        },
    },
    Fault {
        name: "bytes above 127 are taken",
        group: short::EACH_BYTE.name,
        spoil: |subject| {
            subject.read = |text, role| {
                let low: Vec<u8> = text.iter().map(|byte| byte & 127).collect();
                (OURS.read)(&low, role)
            };
        },
    },
    Fault {
        name: "16,777,217 bytes are taken",
        group: large::LONG.name,
        spoil: |subject| {
            subject.read = |text, role| match text.len() {
                length if length == LONGEST_TEXT + 1 => {
                    let (start, end) = text.split_at(length / 2);
                    (OURS.read)(&[start, &end[1..]].concat(), role)
                }
                _ => (OURS.read)(text, role),
            };
        },
    },
    Fault {
        name: "only the first 1,048,576 bytes of comments are looked at",
        group: large::LONG.name,
        spoil: |subject| {
            subject.read = |text, role| match text.len() {
                length if length > 1 << 20 => retried(10, text, role, |text| {
                    Some(format!("{}\n", &text[..1 << 20]))
                }),
                _ => (OURS.read)(text, role),
            };
        },
    },
    Fault {
        name: "9 comes before 8",
        group: orders::COMBINED.name,
        spoil: refusing!(9, |text, role, read| {
            read.reason == 8 && has(text, b"\nx0 ")
        }),
    },
    Fault {
        name: "10 comes before 9",
        group: orders::COMBINED.name,
        spoil: refusing!(10, |text, role, read| {
            read.reason == 9 && role == Role::Witness && has(text, b"c\nMAPPING\n")
        }),
    },
    Fault {
        name: "11 comes before 10",
        group: orders::COMBINED.name,
        spoil: refusing!(11, |text, role, read| {
            read.reason == 10 && has(text, b"\n3\n4")
        }),
    },
    Fault {
        name: "a bad input is told before a bad line",
        group: orders::COMBINED.name,
        spoil: refusing!(11, |text, role, read| {
            read.reason == 8 && has(text, b"\n3\n4")
        }),
    },
    Fault {
        name: "8 comes before 6 for a model, as in the Rust",
        group: orders::COMBINED.name,
        spoil: refusing!(8, |text, role, read| {
            read.reason == 6 && role == Role::Model && has(text, b"\n06\n")
        }),
    },
    Fault {
        name: "5 comes before 4",
        group: orders::COMBINED.name,
        spoil: refusing!(5, |text, role, read| {
            read.reason == 4 && text.starts_with(b"aag 2000001")
        }),
    },
    Fault {
        name: "blank lines between sections are skipped",
        group: random::DAMAGED.name,
        spoil: |subject| {
            subject.read = |text, role| {
                retried(8, text, role, |text| {
                    let kept: Vec<&str> = text.lines().filter(|line| !line.is_empty()).collect();
                    Some(kept.join("\n") + "\n")
                })
            };
        },
    },
    Fault {
        name: "a model's limit of 1,000,000 variables holds here too",
        group: large::VARIABLES.name,
        spoil: |subject| {
            subject.read =
                |text, role| refused_if(5, text, role, |read| read.max_variable > 1_000_000);
        },
    },
];

fn has(text: &[u8], part: &[u8]) -> bool {
    text.windows(part.len()).any(|window| window == part)
}
