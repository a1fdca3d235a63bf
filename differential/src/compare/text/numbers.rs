//! Item 1: the number reader, by both rules.

use super::{Group, Run};
use crate::compare::inputs::{TELLING, all_texts, ascii, damage, random_number};
use crate::subject::RULES;
use crate::tally::{Answers, shown};
use crate::{oracle, reading};

pub const SHORT: Group = Group {
    name: "numbers: all of up to 5 telling bytes",
    run: |run| all_texts(&TELLING, 5, |text| check(run, text)),
};

pub const PAIRS: Group = Group {
    name: "numbers: all of up to 2 ASCII bytes",
    run: |run| {
        let every: Vec<u8> = (0..=127).collect();
        all_texts(&every, 2, |text| check(run, text));
    },
};

pub const ABOVE_127: Group = Group {
    name: "numbers: with a byte above 127",
    run: above_127,
};

pub const LIMITS: Group = Group {
    name: "numbers: near the limits",
    run: limits,
};

pub const RANDOM: Group = Group {
    name: "numbers: random, mostly up to 60 digits",
    run: |run| {
        for _ in 0..run.cases {
            let text = random_number(&mut run.random);
            check(run, &text);
        }
    },
};

/// One text by both rules. The Rust is asked where the text is a `str` that it can meet.
fn check(run: &mut Run, text: &[u8]) {
    let published = ascii(text);
    for rule in RULES {
        let answers = Answers {
            ours: (run.ours.number)(rule, text),
            rust: published.map(|text| oracle::number(rule, text)),
            reading: reading::number(rule, text),
        };
        run.tally
            .check(answers, || format!("{rule:?} {}", shown(text)));
    }
}

fn above_127(run: &mut Run) {
    let every: Vec<u8> = (0..=255).collect();
    all_texts(&every, 2, |text| {
        if !text.is_ascii() {
            check(run, text);
        }
    });
    for _ in 0..run.cases {
        let mut text = random_number(&mut run.random);
        let place = run.random.below(text.len() + 1);
        text.insert(place, 128 + run.random.below(128) as u8);
        if run.random.once_in(8) {
            damage(&mut run.random, &mut text);
        }
        check(run, &text);
    }
}

/// All values within 300 of a limit, with up to 3 leading zeros and with a plus.
fn limits(run: &mut Run) {
    for limit in limit_values() {
        for value in limit.saturating_sub(300)..=limit + 300 {
            let digits = value.to_string();
            for zeros in ["", "0", "00", "000"] {
                check(run, format!("{zeros}{digits}").as_bytes());
                check(run, format!("+{zeros}{digits}").as_bytes());
            }
        }
    }
}

fn limit_values() -> Vec<u128> {
    let mut limits: Vec<u128> = (0..30).map(|power| 10u128.pow(power)).collect();
    limits.extend((7..70).map(|power| 1u128 << power));
    limits.extend([2 * 10u128.pow(19), 10 << 64, 3 << 64]);
    limits
}
