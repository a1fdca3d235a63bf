//! Reading texts. Ours is lent exactly the words that it needs.

use crate::measure::times;
use crate::table::{Table, Unit};
use crate::texts;
use differential::oracle::aiger::parse_ascii_aiger_transition;
use differential::ours::model::SUBJECT as OURS;
use differential::reading::model::counts;
use std::hint::black_box;

pub fn measure(table: &Table) {
    table.head("reading", Unit::Bytes);
    for text in texts::all() {
        let name = format!("read: {}", text.name);
        if table.wants(&name) {
            row(table, &name, &(text.make)(), text.reason);
        }
    }
}

fn row(table: &Table, name: &str, text: &[u8], reason: u64) {
    let needed = counts(text).expect("a header");
    let mut gates = vec![0; 3 * needed.gates as usize];
    let mut work = vec![0; needed.variables as usize + 1];
    assert_eq!((OURS.read)(text, &mut gates, &mut work).reason, reason);
    assert_eq!(parse_ascii_aiger_transition(text).is_ok(), reason == 0);
    let times = times(
        text.len() + 8 * gates.len(),
        || {
            black_box((OURS.read)(black_box(text), &mut gates, &mut work));
        },
        || {
            let _ = black_box(parse_ascii_aiger_transition(black_box(text)));
        },
    );
    table.row(name, text.len(), &times);
}
