//! Around 2,000,000 composed variables: R9.17, and what comes before and after it; texts of the
//! greatest length and models of the most variables.

use super::cases::Case;
use super::check::{Amount, Judged};
use super::{Group, Run};
use crate::reading::LONGEST_TEXT;
use std::fmt::Write;

pub const VARIABLES: Group = Group {
    name: "compose: around 2,000,000 composed variables",
    run: variables,
};

pub const LONGEST: Group = Group {
    name: "compose: the longest texts and models",
    run: longest,
};

/// In how many witnesses the inputs stand: many short ones have shorter numbers than few long ones.
const SPREAD: usize = 60;

/// The model has a latch, which the last two witnesses share.
const MODEL: &str = "aag 1 0 1 0 0\n2 2\n";

/// Witnesses with so many private inputs in all, and then these.
fn case(inputs: usize, last: &[&str]) -> Case {
    let mut texts = Vec::new();
    let mut left = inputs;
    for witness in 0..SPREAD {
        let count = left / (SPREAD - witness);
        left -= count;
        let mut text = format!("aag {count} {count} 0 1 0\n");
        for variable in 1..=count {
            writeln!(text, "{}", 2 * variable).expect("a String takes all");
        }
        text += "1\n";
        texts.push(text);
    }
    texts.extend(last.iter().map(|text| text.to_string()));
    Case::of(MODEL, &texts)
}

/// A witness with the shared latch and gates of these operands.
fn gates(operands: &[&str]) -> String {
    let count = operands.len();
    let mut text = format!("aag {} 0 1 1 {count}\n2 2\n1\n", count + 1);
    for (place, operands) in operands.iter().enumerate() {
        writeln!(text, "{} {operands}", 2 * place + 4).expect("a String takes all");
    }
    text
}

fn variables(run: &mut Run) {
    let none = gates(&[]);
    let one = gates(&["2 2"]);
    let again = gates(&["2 2", "2 2", "5 4"]);
    let another = gates(&["2 3"]);
    // With the latch, there are 1,999,999 before the gates: one gate has the last number.
    let below = 1_999_998;
    for last in [
        [&one, &none],
        [&one, &one],
        [&one, &another],
        [&none, &another],
        [&one, &again],
    ] {
        exactly(run, &case(below, &last.map(String::as_str)));
    }
    // No gate fits; but inputs and latches by themselves may be more.
    for inputs in [below + 1, below + 2] {
        exactly(run, &case(inputs, &[&none, &none]));
        exactly(run, &case(inputs, &[&none, &one]));
    }
    others(run, below);
}

/// 17 beside the reasons around it.
fn others(run: &mut Run, below: usize) {
    let full = gates(&["2 2", "2 3"]);
    let mapping = "aag 1 0 1 1 0\n2 2\n1\nl0 = 4\n";
    let disagrees = "aag 1 0 1 1 0\n2 3\n1\n";
    let no_safety = "aag 1 0 1 0 0\n2 2\n";
    for other in [mapping, disagrees, no_safety] {
        exactly(run, &case(below, &[&full, other]));
    }
    let case = case(below, &[no_safety, &full]);
    let judged = Judged::of(&case);
    let Amount { work, .. } = judged.needed();
    let [work, room] = [work - 1, 0];
    judged.lent(run, Amount { work, room });
}

/// Compares with exactly what is needed; with little room where nothing is made.
fn exactly(run: &mut Run, case: &Case) {
    let judged = Judged::of(case);
    let Amount { work, room } = judged.needed();
    let room = room.max(100);
    judged.lent(run, Amount { work, room });
}

fn longest(run: &mut Run) {
    // 2,000,000 inputs, and names that map to the last, to the one behind it, and by position.
    let most = inputs(2_000_000);
    for name in ["= 4000000", "= 4000002", "x"] {
        let first = format!("aag 1 1 0 1 0\n2\n2\ni0 {name}\n");
        exactly(
            run,
            &Case::of(&most, &[first.as_str(), "aag 1 1 0 1 0\n2\n3\n"]),
        );
    }
    // 4,000,000 private inputs: there is no limit on those.
    let private = format!("{}1\n", inputs(2_000_000).replacen(" 0 0 0", " 0 1 0", 1));
    exactly(run, &Case::of(MODEL, &[&private, &private]));
    // A private name of as many bytes as there may be.
    let start = "aag 1 1 0 1 0\n2\n2\n";
    let name = "n".repeat(LONGEST_TEXT - start.len() - "i0 \n".len());
    let named = format!("{start}i0 {name}\n");
    exactly(run, &Case::of(MODEL, &[named.as_str(), start]));
    // Each of the three texts at the greatest length, and a byte longer.
    let texts = [MODEL, "aag 1 1 0 1 0\n2\n2\n", "aag 1 0 1 1 0\n2 2\n3\n"];
    for place in 0..texts.len() {
        for length in [LONGEST_TEXT, LONGEST_TEXT + 1] {
            let mut texts = texts.map(|text| text.as_bytes().to_vec());
            texts[place].extend(b"c\n");
            texts[place].resize(length - 1, b'x');
            texts[place].push(10);
            exactly(run, &Case::of(&texts[0], &texts[1..]));
        }
    }
}

/// So many inputs, and nothing else.
fn inputs(count: usize) -> String {
    let mut text = format!("aag {count} {count} 0 0 0\n");
    for variable in 1..=count {
        writeln!(text, "{}", 2 * variable).expect("a String takes all");
    }
    text
}
