//! Wrong treatment of the room.

use super::super::{Fault, lent as amounts, orders, random, tables};
use super::{OURS, reason_due, refused_if};
use crate::reading::compose::{RULES, due};
use crate::subject::compose::{Asked, Composed, Lent};

pub const FAULTS: &[Fault] = &[
    Fault {
        name: "exactly enough room is too little",
        group: amounts::AMOUNTS.name,
        spoil: |subject| {
            subject.compose = |asked, lent| match lent.out.split_last_mut() {
                Some((_, front)) => (OURS.compose)(
                    asked,
                    &mut Lent {
                        work: lent.work,
                        out: front,
                    },
                ),
                None => (OURS.compose)(asked, lent),
            };
        },
    },
    Fault {
        name: "20 is said before measuring",
        group: tables::TABLES.name,
        spoil: |subject| {
            subject.compose = |asked, lent| {
                refused_if(
                    reason_due(asked) == 20
                        && lent.out.len() < asked.model.len() + asked.witnesses.len() + 64,
                    20,
                    asked,
                    lent,
                )
            };
        },
    },
    Fault {
        name: "a text that does not fit is cut",
        group: amounts::AMOUNTS.name,
        spoil: |subject| {
            subject.compose = |asked, lent| {
                let composed = (OURS.compose)(asked, lent);
                match text(asked) {
                    Some(text) if composed.reason == 20 => {
                        let bytes = lent.out.len();
                        lent.out.copy_from_slice(&text[..bytes]);
                        Composed { reason: 0, bytes }
                    }
                    _ => composed,
                }
            };
        },
    },
    Fault {
        name: "the room is written on 20",
        group: amounts::AMOUNTS.name,
        spoil: |subject| {
            subject.compose = |asked, lent| {
                let composed = (OURS.compose)(asked, lent);
                if let (20, Some(text)) = (composed.reason, text(asked)) {
                    let bytes = lent.out.len();
                    lent.out.copy_from_slice(&text[..bytes]);
                }
                composed
            };
        },
    },
    Fault {
        name: "the header is written before 18 is found",
        group: orders::LATER.name,
        spoil: |subject| {
            subject.compose = |asked, lent| {
                let composed = (OURS.compose)(asked, lent);
                if composed.reason == 18 {
                    let bytes = lent.out.len().min(4);
                    lent.out[..bytes].copy_from_slice(&b"aag "[..bytes]);
                }
                composed
            };
        },
    },
    Fault {
        name: "the room is cleared on a refusal",
        group: orders::TEXTS.name,
        spoil: |subject| {
            subject.compose = |asked, lent| {
                let composed = (OURS.compose)(asked, lent);
                if composed.reason != 0 {
                    lent.out.fill(0);
                }
                composed
            };
        },
    },
    Fault {
        name: "the room past the text is cleared",
        group: random::WHOLE.name,
        spoil: |subject| {
            subject.compose = |asked, lent| {
                let composed = (OURS.compose)(asked, lent);
                if composed.reason == 0 {
                    lent.out[composed.bytes..].fill(0);
                }
                composed
            };
        },
    },
    Fault {
        name: "a byte 0 is written behind the text",
        group: random::WHOLE.name,
        spoil: |subject| {
            subject.compose = |asked, lent| {
                let composed = (OURS.compose)(asked, lent);
                if composed.reason == 0
                    && let Some(byte) = lent.out.get_mut(composed.bytes)
                {
                    *byte = 0;
                }
                composed
            };
        },
    },
    Fault {
        name: "the room is left as it is on acceptance",
        group: tables::TABLES.name,
        spoil: |subject| {
            subject.compose = |asked, lent| {
                let kept = lent.out.to_vec();
                let composed = (OURS.compose)(asked, lent);
                lent.out.copy_from_slice(&kept);
                composed
            };
        },
    },
    Fault {
        name: "the number of bytes is that of the room",
        group: amounts::AMOUNTS.name,
        spoil: |subject| {
            subject.compose = |asked, lent| {
                let composed = (OURS.compose)(asked, lent);
                match composed.reason {
                    0 => Composed {
                        bytes: lent.out.len(),
                        ..composed
                    },
                    _ => composed,
                }
            };
        },
    },
    Fault {
        name: "20 says how many bytes are needed",
        group: amounts::AMOUNTS.name,
        spoil: |subject| {
            subject.compose = |asked, lent| {
                let composed = (OURS.compose)(asked, lent);
                match (composed.reason, text(asked)) {
                    (20, Some(text)) => Composed {
                        bytes: text.len(),
                        ..composed
                    },
                    _ => composed,
                }
            };
        },
    },
    Fault {
        name: "all calls are refused",
        group: random::WHOLE.name,
        spoil: |subject| {
            subject.compose = |asked, lent| refused_if(reason_due(asked) == 20, 3, asked, lent);
        },
    },
];

fn text(asked: &Asked) -> Option<Vec<u8>> {
    due(asked, &RULES).ok()?.text.ok()
}
