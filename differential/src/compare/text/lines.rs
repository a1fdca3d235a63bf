//! Item 2: lines and fields, against `lines` and `split_whitespace`, which the Rust uses.

use super::{Group, Run};
use crate::compare::inputs::{all_line_texts, all_texts, ascii, random_text};
use crate::reading;
use crate::subject::{Part, Subject};
use crate::tally::{Answers, shown};

pub const SHORT: Group = Group {
    name: "lines: short texts, every place",
    run: |run| all_line_texts(|text| LINES.check_all(run, text)),
};

pub const RANDOM: Group = Group {
    name: "lines: random texts",
    run: |run| {
        for _ in 0..run.cases {
            let text = random_text(&mut run.random);
            LINES.walk(run, &text);
        }
    },
};

pub const LONG: Group = Group {
    name: "lines: up to 300 bytes, byte 10 at every place",
    run: |run| {
        for length in 0..=300 {
            let text = vec![b'a'; length];
            LINES.check(run, &text, 0);
            for place in 0..length {
                let mut broken = text.clone();
                broken[place] = 10;
                LINES.walk(run, &broken);
            }
        }
    },
};

pub const FIELDS_SHORT: Group = Group {
    name: "fields: short texts, every place",
    run: |run| all_line_texts(|text| FIELDS.check_all(run, text)),
};

pub const FIELDS_EACH_BYTE: Group = Group {
    name: "fields: each of the 256 bytes around fields",
    run: |run| each_byte(|line| FIELDS.check_all(run, line)),
};

pub const FIELDS_RANDOM: Group = Group {
    name: "fields: random texts",
    run: |run| {
        for _ in 0..run.cases {
            let text = random_text(&mut run.random);
            FIELDS.walk(run, &text);
        }
    },
};

pub const FIRST_FIELDS: Group = Group {
    name: "first fields: short, each byte, random",
    run: |run| {
        all_line_texts(|text| check_first_field(run, text));
        each_byte(|line| check_first_field(run, line));
        for _ in 0..run.cases {
            let text = random_text(&mut run.random);
            check_first_field(run, &text);
        }
    },
};

pub const HEADER_WORDS: Group = Group {
    name: "header words: short lines around `aag`",
    run: |run| {
        all_texts(b"aagAi \t1\n", 5, |line| check_header_word(run, line));
    },
};

/// Lines with one byte, or two alike, at the start, between fields and at the end.
fn each_byte(mut each: impl FnMut(&[u8])) {
    for byte in 0..=255 {
        for line in [
            &[byte][..],
            &[byte, byte],
            &[b'a', byte],
            &[byte, b'a'],
            &[b'a', byte, b'b'],
            &[b'a', byte, byte, b'b'],
            &[byte, b'a', byte, b'b', byte],
            &[b' ', byte, b' ', b'7', byte],
        ] {
            each(line);
        }
    }
}

/// All places in a text, and some past its end.
fn places(text: &[u8]) -> impl Iterator<Item = usize> + use<> {
    (0..text.len() + 3).chain([usize::MAX - 1, usize::MAX])
}

/// Finds a part of a text, a line or a field, from a place on.
type Find = fn(&[u8], usize) -> Option<Part>;

/// What finds such parts: of the library, of std, and of the reading.
struct Finder {
    ours: fn(&Subject) -> Find,
    rust: fn(&str, usize) -> Option<Part>,
    reading: Find,
}

const LINES: Finder = Finder {
    ours: |subject| subject.line,
    rust: std_line,
    reading: reading::line,
};

const FIELDS: Finder = Finder {
    ours: |subject| subject.field,
    rust: std_field,
    reading: reading::field,
};

impl Finder {
    /// From every place.
    fn check_all(&self, run: &mut Run, text: &[u8]) {
        for at in places(text) {
            self.check(run, text, at);
        }
    }

    /// One part after the other, from the start.
    fn walk(&self, run: &mut Run, text: &[u8]) {
        let mut at = 0;
        while let Some(part) = self.check(run, text, at) {
            at = part.next;
        }
    }

    /// Says where the part is by the reading.
    fn check(&self, run: &mut Run, text: &[u8], at: usize) -> Option<Part> {
        let part = (self.reading)(text, at);
        let answers = Answers {
            ours: (self.ours)(&run.ours)(text, at),
            rust: rest_of(text, at).map(|rest| (self.rust)(rest, at)),
            reading: part,
        };
        run.tally
            .check(answers, || format!("{} at {at}", shown(text)));
        part
    }
}

/// The first of `lines`. It drops a byte 13 before byte 10, which the port keeps: byte 13
/// separates fields, so that the fields are the same.
fn std_line(rest: &str, at: usize) -> Option<Part> {
    let line = rest.lines().next()?;
    let after = &rest[line.len()..];
    let kept = usize::from(after.starts_with("\r\n"));
    let ended = usize::from(!after.is_empty());
    let end = at + line.len() + kept;
    Some(Part {
        start: at,
        end,
        next: end + ended,
    })
}

fn std_field(rest: &str, at: usize) -> Option<Part> {
    let field = rest.split_whitespace().next()?;
    let start = at + (field.as_ptr() as usize - rest.as_ptr() as usize);
    let end = start + field.len();
    Some(Part {
        start,
        end,
        next: end,
    })
}

fn check_first_field(run: &mut Run, line: &[u8]) {
    let answers = Answers {
        ours: (run.ours.first_field)(line),
        rust: ascii(line).map(std_first_field),
        reading: reading::first_field(line),
    };
    run.tally.check(answers, || shown(line));
}

fn check_header_word(run: &mut Run, line: &[u8]) {
    let answers = Answers {
        ours: (run.ours.header_word)(line),
        rust: ascii(line).map(|line| line.split_whitespace().next() == Some("aag")),
        reading: reading::header_word(line),
    };
    run.tally.check(answers, || shown(line));
}

fn std_first_field(line: &str) -> Vec<u8> {
    line.split_whitespace()
        .next()
        .map_or(Vec::new(), |field| field.as_bytes().to_vec())
}

/// The rest of a text from a place in it, where the Rust can be asked.
fn rest_of(text: &[u8], at: usize) -> Option<&str> {
    ascii(text)?.get(at..)
}
