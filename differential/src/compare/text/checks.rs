//! R9.3: which texts a reader takes at all, against the first check of the published readers.

use super::{Group, Run};
use crate::compare::inputs::all_texts;
use crate::reading::LONGEST_TEXT;
use crate::subject::RULES;
use crate::tally::{Answers, shown};
use crate::{oracle, reading};

pub const SHORT: Group = Group {
    name: "text checks: short texts, each byte",
    run: short,
};

pub const BLOCKS: Group = Group {
    name: "text checks: a byte around multiples of 4,096",
    run: blocks,
};

pub const LONG: Group = Group {
    name: "text checks: around 16,777,216 bytes",
    run: long,
};

/// Whole texts, some of which a reader accepts.
const TEXTS: [&[u8]; 6] = [
    b"aag 0 0 0 0 0\n",
    b"aag 1 0 1 0 0\n2 2\n",
    b"aag 1 0 1 0 0\r\n2 2\r\n",
    b"aag 1 0 1 0 0\n2 2",
    b"aag 3 1 1 1 1\n2\n4 6\n6\n6 4 2\n",
    b"aag 3 1 1 1 1\n2\n4 6\n6\n6 4 2\ni0 = 2\nc\ncomment\n",
];

fn check(run: &mut Run, text: &[u8]) {
    for rule in RULES {
        let answers = Answers {
            ours: (run.ours.good_text)(rule, text),
            rust: Some(oracle::good_text(rule, text)),
            reading: reading::good_text(rule, text),
        };
        run.tally
            .check(answers, || format!("{rule:?} {}", shown(text)));
    }
}

fn short(run: &mut Run) {
    // No byte of a digit: the published readers then stop at the header.
    all_texts(&[b'a', b'g', b' ', 0, 10, 13, 127, 128, 255], 4, |text| {
        check(run, text);
    });
    for length in 1..=70 {
        let text = plain_text(length);
        for place in [0, length / 2, length - 1] {
            for byte in 0..=255 {
                let mut changed = text.clone();
                changed[place] = byte;
                check(run, &changed);
            }
        }
    }
    for text in TEXTS {
        check(run, text);
    }
}

fn blocks(run: &mut Run) {
    for length in [4095, 4096, 4097, 8191, 8192, 8193, 12345] {
        let text = plain_text(length);
        check(run, &text);
        for middle in [4096, 8192, length] {
            for place in middle - 2..(middle + 2).min(length) {
                for byte in [10, 13, 127, 128] {
                    let mut changed = text.clone();
                    changed[place] = byte;
                    check(run, &changed);
                }
            }
        }
    }
}

fn long(run: &mut Run) {
    for length in [LONGEST_TEXT - 1, LONGEST_TEXT, LONGEST_TEXT + 1] {
        let mut text = plain_text(length);
        check(run, &text);
        for place in [0, length / 2, length - 1] {
            let kept = text[place];
            for byte in [b'a', 13, 127, 128, 255] {
                text[place] = byte;
                check(run, &text);
            }
            text[place] = kept;
        }
    }
}

/// A text that both readers' checks take, where its length allows. Its first line is no header.
fn plain_text(length: usize) -> Vec<u8> {
    let mut text = vec![b'a'; length];
    text[length - 1] = 10;
    if length > 2 {
        text[1] = 10;
    }
    text
}
