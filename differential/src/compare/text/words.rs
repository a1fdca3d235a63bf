//! Words compared with byte-string constants: `same` and `begins_with`.

use super::{Group, Run};
use crate::compare::inputs::{all_texts, damage};
use crate::reading;
use crate::tally::{Answers, shown};

pub const SHORT: Group = Group {
    name: "words: all pairs of up to 4 bytes",
    run: short,
};

pub const NAMED: Group = Group {
    name: "words: the constants, whole and damaged",
    run: named,
};

/// The words that the readers know.
const WORDS: [&[u8]; 6] = [b"", b"c", b"= ", b"aag", b"MAPPING", b"INTERVENTION"];

fn check(run: &mut Run, a: &[u8], b: &[u8]) {
    let same = Answers {
        ours: (run.ours.same)(a, b),
        rust: Some(a == b),
        reading: reading::same(a, b),
    };
    run.tally
        .check(same, || format!("same {} {}", shown(a), shown(b)));
    let begins = Answers {
        ours: (run.ours.begins_with)(a, b),
        rust: Some(a.starts_with(b)),
        reading: reading::begins_with(a, b),
    };
    run.tally
        .check(begins, || format!("begins_with {} {}", shown(a), shown(b)));
}

fn short(run: &mut Run) {
    let mut words = Vec::new();
    all_texts(&[b'a', b'g', 0, 225], 4, |word| words.push(word.to_vec()));
    for a in &words {
        for b in &words {
            check(run, a, b);
        }
    }
}

fn named(run: &mut Run) {
    for word in WORDS {
        for other in WORDS {
            check(run, word, other);
        }
        for length in 0..=word.len() {
            check(run, &word[..length], word);
            check(run, word, &word[..length]);
        }
        each_byte_changed(run, word);
    }
    for _ in 0..run.cases {
        let word = run.random.choose(&WORDS);
        let mut text = word.to_vec();
        for _ in 0..run.random.below(3) {
            damage(&mut run.random, &mut text);
        }
        check(run, &text, word);
        text.resize(run.random.below(300), b'a');
        check(run, &text, word);
        long_pair(run, text);
    }
}

fn each_byte_changed(run: &mut Run, word: &[u8]) {
    for place in 0..word.len() {
        for byte in 0..=255 {
            let mut text = word.to_vec();
            text[place] = byte;
            check(run, &text, word);
            text.push(byte);
            check(run, &text, word);
        }
    }
}

/// A text with itself, and with itself but for one change.
fn long_pair(run: &mut Run, text: Vec<u8>) {
    let mut other = text.clone();
    check(run, &text, &other);
    damage(&mut run.random, &mut other);
    check(run, &text, &other);
    check(run, &other, &text);
}
