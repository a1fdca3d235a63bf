//! Deliberately wrong variants, each with one likely fault. The self-test has to find all of them.

use super::Fault;
use super::{checks, decimal, lines, literals, numbers, words};
use crate::ours::SUBJECT as OURS;
use crate::reading;
use crate::subject::{Part, Rule, Taken, Written};

pub const FAULTS: &[Fault] = &[
    Fault {
        name: "a plus alone is 0",
        group: numbers::SHORT.name,
        spoil: |subject| {
            subject.number = |rule, f| match f {
                b"+" => Some(0),
                _ => (OURS.number)(rule, f),
            };
        },
    },
    Fault {
        name: "the witness rule takes 07",
        group: numbers::SHORT.name,
        spoil: |subject| subject.number = |_, f| (OURS.number)(Rule::Transition, f),
    },
    Fault {
        name: "the witness rule refuses +07",
        group: numbers::SHORT.name,
        spoil: |subject| {
            subject.number = |rule, f| match (rule, f) {
                (Rule::Witness, [b'+', b'0', _, ..]) => None,
                _ => (OURS.number)(rule, f),
            };
        },
    },
    Fault {
        name: "the transition rule refuses 07",
        group: numbers::SHORT.name,
        spoil: |subject| subject.number = |_, f| (OURS.number)(Rule::Witness, f),
    },
    Fault {
        name: "byte 59 is a digit",
        group: numbers::PAIRS.name,
        spoil: |subject| {
            subject.number = |rule, f| match f {
                [59] => Some(11),
                _ => (OURS.number)(rule, f),
            };
        },
    },
    Fault {
        name: "the highest bit of a byte is lost",
        group: numbers::ABOVE_127.name,
        spoil: |subject| {
            subject.number = |rule, f| {
                let low: Vec<u8> = f.iter().map(|byte| byte & 127).collect();
                (OURS.number)(rule, &low)
            };
        },
    },
    Fault {
        name: "one digit too many is taken, and the value wraps",
        group: numbers::LIMITS.name,
        spoil: |subject| subject.number = |rule, f| wrapping_number(rule, f),
    },
    Fault {
        name: "2^64 - 1 is refused",
        group: numbers::LIMITS.name,
        spoil: |subject| {
            subject.number = |rule, f| (OURS.number)(rule, f).filter(|&n| n < u64::MAX);
        },
    },
    Fault {
        name: "more than 40 digits are refused",
        group: numbers::RANDOM.name,
        spoil: |subject| {
            subject.number = |rule, f| match f.len() {
                0..=40 => (OURS.number)(rule, f),
                _ => None,
            };
        },
    },
    Fault {
        name: "the place is not moved when a line is refused",
        group: literals::SHORT.name,
        spoil: |subject| {
            subject.take_literal = |rule, text, at| {
                let taken = (OURS.take_literal)(rule, text, at);
                match taken.value {
                    Some(_) => taken,
                    None => Taken { value: None, at },
                }
            };
        },
    },
    Fault {
        name: "a last line without byte 10 is lost",
        group: literals::SHORT.name,
        spoil: |subject| {
            subject.take_literal = |rule, text, at| {
                let taken = (OURS.take_literal)(rule, text, at);
                let ended = text.last() == Some(&10) || taken.at < text.len();
                Taken {
                    value: taken.value.filter(|_| ended),
                    at: taken.at,
                }
            };
        },
    },
    Fault {
        name: "a place past the end is brought back to it",
        group: literals::PLACES.name,
        spoil: |subject| {
            subject.take_literal = |rule, text, at| {
                let taken = (OURS.take_literal)(rule, text, at);
                Taken {
                    value: taken.value,
                    at: taken.at.min(text.len()),
                }
            };
        },
    },
    Fault {
        name: "further fields of a line are not seen",
        group: literals::RANDOM.name,
        spoil: |subject| {
            subject.take_literal = |rule, text, at| Taken {
                value: first_number(rule, text, at),
                at: (OURS.take_literal)(rule, text, at).at,
            };
        },
    },
    Fault {
        name: "a line follows a final byte 10",
        group: lines::SHORT.name,
        spoil: |subject| {
            subject.line = |text, at| {
                let extra = at == text.len() && text.last() == Some(&10);
                match (OURS.line)(text, at) {
                    None if extra => Some(Part {
                        start: at,
                        end: at,
                        next: at,
                    }),
                    part => part,
                }
            };
        },
    },
    Fault {
        name: "a byte 13 before byte 10 is dropped",
        group: lines::RANDOM.name,
        spoil: |subject| {
            subject.line = |text, at| {
                let part = (OURS.line)(text, at)?;
                let returned = part.end > part.start && text[part.end - 1] == 13;
                Some(Part {
                    end: part.end - usize::from(returned && part.next > part.end),
                    ..part
                })
            };
        },
    },
    Fault {
        name: "byte 11 does not separate fields",
        group: lines::FIELDS_SHORT.name,
        spoil: |subject| {
            subject.field =
                |line, at| field_over(line, at, |byte| if byte == 11 { 0 } else { byte })
        },
    },
    Fault {
        name: "bytes 28 to 31 separate fields",
        group: lines::FIELDS_EACH_BYTE.name,
        spoil: |subject| {
            subject.field = |line, at| {
                field_over(line, at, |byte| match byte {
                    28..=31 => 32,
                    _ => byte,
                })
            };
        },
    },
    Fault {
        name: "byte 160 separates fields",
        group: lines::FIELDS_EACH_BYTE.name,
        spoil: |subject| {
            subject.field =
                |line, at| field_over(line, at, |byte| if byte == 160 { 32 } else { byte });
        },
    },
    Fault {
        name: "byte 12 does not separate fields",
        group: lines::FIELDS_RANDOM.name,
        spoil: |subject| {
            subject.field =
                |line, at| field_over(line, at, |byte| if byte == 12 { 0 } else { byte })
        },
    },
    Fault {
        name: "the first field begins with the line",
        group: lines::FIRST_FIELDS.name,
        spoil: |subject| {
            subject.first_field = |line| {
                let end = (OURS.field)(line, 0).map_or(0, |part| part.end);
                line[..end].to_vec()
            };
        },
    },
    Fault {
        name: "a line of more than 64 bytes ends with its 64th",
        group: lines::LONG.name,
        spoil: |subject| {
            subject.line = |text, at| {
                let part = (OURS.line)(text, at)?;
                Some(Part {
                    end: part.end.min(part.start + 64),
                    ..part
                })
            };
        },
    },
    Fault {
        name: "a longer word that begins with aag is the header word",
        group: lines::HEADER_WORDS.name,
        spoil: |subject| {
            subject.header_word = |line| (OURS.first_field)(line).starts_with(b"aag");
        },
    },
    Fault {
        name: "the second block of a text is not looked at",
        group: checks::BLOCKS.name,
        spoil: |subject| {
            subject.good_text = |rule, text| {
                let mut looked_at = text.to_vec();
                let end = text.len().min(8192);
                for byte in looked_at.iter_mut().take(end).skip(4096) {
                    if *byte != 10 {
                        *byte = b'a';
                    }
                }
                (OURS.good_text)(rule, &looked_at)
            };
        },
    },
    Fault {
        name: "a word is the same as its beginning",
        group: words::SHORT.name,
        spoil: |subject| subject.same = OURS.begins_with,
    },
    Fault {
        name: "the last byte of a word is not looked at",
        group: words::NAMED.name,
        spoil: |subject| {
            subject.begins_with = |s, word| match word {
                [front @ .., _] => s.len() >= word.len() && (OURS.begins_with)(s, front),
                [] => true,
            };
        },
    },
    Fault {
        name: "the witness reader takes byte 13",
        group: checks::SHORT.name,
        spoil: |subject| {
            subject.good_text = |rule, text| {
                let other: Vec<u8> = text
                    .iter()
                    .map(|&byte| if byte == 13 { b'a' } else { byte })
                    .collect();
                (OURS.good_text)(rule, &other)
            };
        },
    },
    Fault {
        name: "byte 127 is refused",
        group: checks::SHORT.name,
        spoil: |subject| {
            subject.good_text = |rule, text| (OURS.good_text)(rule, text) && !text.contains(&127);
        },
    },
    Fault {
        name: "the greatest length is one lower",
        group: checks::LONG.name,
        spoil: |subject| {
            subject.good_text =
                |rule, text| (OURS.good_text)(rule, text) && text.len() < reading::LONGEST_TEXT;
        },
    },
    Fault {
        name: "what fits is written before it is refused",
        group: decimal::WRITTEN.name,
        spoil: |subject| {
            subject.write_decimal = |out, at, n| {
                let written = (OURS.write_decimal)(out, at, n);
                if !written.fits && at < out.len() {
                    out[at] = b'0';
                }
                written
            };
        },
    },
    Fault {
        name: "a byte behind the digits is changed",
        group: decimal::WRITTEN.name,
        spoil: |subject| {
            subject.write_decimal = |out, at, n| {
                let written = (OURS.write_decimal)(out, at, n);
                if written.next < out.len() {
                    out[written.next] = 0;
                }
                written
            };
        },
    },
    Fault {
        name: "place and length are added with a wrap",
        group: decimal::WRITTEN.name,
        spoil: |subject| {
            subject.write_decimal = |out, at, n| {
                let written = (OURS.write_decimal)(out, at, n);
                let next = at.wrapping_add((OURS.decimal_length)(n));
                Written {
                    fits: written.fits || next <= out.len(),
                    next: written.next,
                }
            };
        },
    },
    Fault {
        name: "a power of ten is one digit shorter",
        group: decimal::LENGTHS.name,
        spoil: |subject| {
            subject.decimal_length = |n| (OURS.decimal_length)(n.saturating_sub(1));
        },
    },
    Fault {
        name: "digits are written last first",
        group: decimal::READ_BACK.name,
        spoil: |subject| {
            subject.write_decimal = |out, at, n| {
                let written = (OURS.write_decimal)(out, at, n);
                if written.fits {
                    out[at..written.next].reverse();
                }
                written
            };
        },
    },
];

fn wrapping_number(rule: Rule, f: &[u8]) -> Option<u64> {
    let digits = f.strip_prefix(b"+").unwrap_or(f);
    if digits.len() != 20 || !digits.iter().all(u8::is_ascii_digit) {
        return (OURS.number)(rule, f);
    }
    if rule == Rule::Witness && f[0] == b'0' {
        return None;
    }
    Some(digits.iter().fold(0u64, |value, byte| {
        value.wrapping_mul(10).wrapping_add(u64::from(byte - b'0'))
    }))
}

fn first_number(rule: Rule, text: &[u8], at: usize) -> Option<u64> {
    let part = (OURS.line)(text, at)?;
    let line = &text[part.start..part.end];
    let field = (OURS.field)(line, 0)?;
    (OURS.number)(rule, &line[field.start..field.end])
}

/// The field reader on a line whose bytes were exchanged.
fn field_over(line: &[u8], at: usize, exchange: fn(u8) -> u8) -> Option<Part> {
    let other: Vec<u8> = line.iter().map(|&byte| exchange(byte)).collect();
    (OURS.field)(&other, at)
}
