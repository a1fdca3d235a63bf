//! Item 2: `take_literal`. Answers and places are compared after every call.

use super::{Group, Run};
use crate::compare::inputs::{all_line_texts, ascii, random_text};
use crate::subject::{RULES, Rule, Taken};
use crate::tally::{Answers, shown};
use crate::{oracle, reading};

pub const SHORT: Group = Group {
    name: "take_literal: walks through short texts",
    run: |run| all_line_texts(|text| walk_by_both_rules(run, text)),
};

pub const PLACES: Group = Group {
    name: "take_literal: from every place, and past the end",
    run: |run| all_line_texts(|text| every_place(run, text)),
};

pub const RANDOM: Group = Group {
    name: "take_literal: walks through random texts",
    run: |run| {
        for _ in 0..run.cases {
            let text = random_text(&mut run.random);
            walk_by_both_rules(run, &text);
        }
    },
};

/// How many calls follow when every reader is at the end.
const CALLS_AT_END: usize = 2;

fn walk_by_both_rules(run: &mut Run, text: &[u8]) {
    for rule in RULES {
        walk(run, rule, text);
    }
}

/// Each reader goes its own way from the start, until all are at the end and then a little longer.
/// The walk stops at the first difference: the places no longer agree behind it.
fn walk(run: &mut Run, rule: Rule, text: &[u8]) {
    let published = ascii(text);
    let mut lines = published.unwrap_or_default().lines();
    let mut our_place = 0;
    let mut place = 0;
    let mut calls_at_end = 0;
    while calls_at_end < CALLS_AT_END {
        calls_at_end += usize::from(place >= text.len());
        let answers = Answers {
            ours: (run.ours.take_literal)(rule, text, our_place),
            rust: published.map(|text| Taken {
                value: oracle::take_literal(rule, &mut lines),
                at: oracle::place(text, &lines),
            }),
            reading: reading::take_literal(rule, text, place),
        };
        our_place = answers.ours.at;
        place = answers.reading.at;
        let agree = run.tally.check(answers, || {
            format!("{rule:?} {}, walked to {place}", shown(text))
        });
        if !agree {
            return;
        }
    }
}

/// The call from each place in a text is the Rust's call at the start of the rest of it.
fn every_place(run: &mut Run, text: &[u8]) {
    let past = [text.len() + 1, text.len() + 2, usize::MAX - 1, usize::MAX];
    for at in (0..=text.len()).chain(past) {
        for rule in RULES {
            let answers = Answers {
                ours: (run.ours.take_literal)(rule, text, at),
                rust: ascii(text)
                    .and_then(|text| text.get(at..))
                    .map(|rest| published_call(rule, rest, at)),
                reading: reading::take_literal(rule, text, at),
            };
            run.tally
                .check(answers, || format!("{rule:?} {} at {at}", shown(text)));
        }
    }
}

fn published_call(rule: Rule, rest: &str, at: usize) -> Taken {
    let mut lines = rest.lines();
    let value = oracle::take_literal(rule, &mut lines);
    Taken {
        value,
        at: at + oracle::place(rest, &lines),
    }
}
