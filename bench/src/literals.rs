//! `take_literal` over all lines of a text, one call a line.

use crate::measure::times;
use crate::table::{Table, Unit};
use differential::oracle;
use differential::ours::SUBJECT as OURS;
use differential::subject::Rule;
use std::hint::black_box;

pub fn measure(table: &Table) {
    table.head("literals, one call a line", Unit::Lines);
    for lines in [1, 1_000, 1_000_000] {
        row(
            table,
            &format!("take_literal: plain, {lines}"),
            lines,
            |n| format!("{n}\n"),
        );
        let name = format!("take_literal: plus and blanks, {lines}");
        row(table, &name, lines, |n| format!(" +{n}\t\n"));
        let name = format!("take_literal: refused, {lines}");
        row(table, &name, lines, |n| format!("{n} 0\n"));
    }
}

fn row(table: &Table, name: &str, lines: usize, line: impl Fn(usize) -> String) {
    if !table.wants(name) {
        return;
    }
    let text: String = (1..=lines).map(|n| line(2 * n)).collect();
    assert_eq!(ours(&text, lines), rust(&text, lines), "the sums differ");
    let times = times(
        text.len(),
        || {
            black_box(ours(black_box(&text), lines));
        },
        || {
            black_box(rust(black_box(&text), lines));
        },
    );
    table.row(name, lines, &times);
}

/// The sum of the literals of so many lines; a refused one counts 0.
fn ours(text: &str, lines: usize) -> u64 {
    let mut at = 0;
    let mut sum = 0;
    for _ in 0..lines {
        let taken = (OURS.take_literal)(Rule::Witness, text.as_bytes(), at);
        sum += taken.value.unwrap_or(0);
        at = taken.at;
    }
    sum
}

fn rust(text: &str, lines: usize) -> u64 {
    let mut rest = text.lines();
    let mut sum = 0;
    for _ in 0..lines {
        sum += oracle::take_literal(Rule::Witness, &mut rest).unwrap_or(0);
    }
    sum
}
