//! Reading witnesses, and loading all that is read. The Rust does both at once.

use crate::measure::{Times, times};
use crate::table::{Table, Unit};
use crate::witness_texts;
use differential::oracle::composed::access::parse_aag;
use differential::oracle::witness as oracle;
use differential::ours::witness::SUBJECT as OURS;
use differential::reading::witness as reading;
use differential::subject::witness::Role;
use std::hint::black_box;

pub fn measure(table: &Table) {
    table.head("witnesses", Unit::Bytes);
    for text in witness_texts::all() {
        let name = format!("witness read: {}", text.name);
        if table.wants(&name) {
            let bytes = (text.make)();
            table.row(&name, bytes.len(), &read(&bytes, text.reason));
        }
        let name = format!("witness load: {}", text.name);
        if text.reason == 0 && table.wants(&name) {
            let bytes = (text.make)();
            table.row(&name, bytes.len(), &load(&bytes));
        }
    }
}

fn read(text: &[u8], reason: u64) -> Times {
    assert_eq!((OURS.read)(text, Role::Witness).reason, reason);
    assert_eq!(parse_aag(text, true).is_ok(), reason == 0);
    times(
        text.len(),
        || {
            black_box((OURS.read)(black_box(text), Role::Witness));
        },
        || {
            let _ = black_box(parse_aag(black_box(text), true));
        },
    )
}

/// Ours is lent exactly the words that it needs, before the first turn.
fn load(text: &[u8]) -> Times {
    let reading = reading::sections(text, Role::Witness).expect("an accepted text");
    let rust = oracle::read(text, Role::Witness, Some(&reading));
    let rust = rust.expect("an accepted text").words();
    let mut words = vec![0; rust.len()];
    assert_eq!((OURS.load)(text, Role::Witness, &mut words), 0);
    assert!(words == rust, "the words differ");
    times(
        text.len() + 8 * rust.len(),
        || {
            black_box((OURS.load)(black_box(text), Role::Witness, &mut words));
        },
        || {
            let _ = black_box(parse_aag(black_box(text), true));
        },
    )
}
