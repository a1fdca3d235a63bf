//! Composing. Ours is lent exactly the work words and the room that it needs before the first turn;
//! the Rust makes its own memory.

use crate::compose_texts::{Named, of_bytes, of_gates};
use crate::measure::{Times, times};
use crate::table::{Table, Unit};
use differential::compare::compose::cases::Case;
use differential::oracle::compose as oracle;
use differential::ours::compose::SUBJECT as OURS;
use differential::reading::compose::{texts, work_words};
use differential::subject::compose::Lent;
use std::hint::black_box;

pub fn measure(table: &Table) {
    table.head("composing, by gates", Unit::Gates);
    for call in of_gates() {
        row(table, &call);
    }
    table.head("composing, by bytes", Unit::Bytes);
    for call in of_bytes() {
        row(table, &call);
    }
}

fn row(table: &Table, call: &Named) {
    if !table.wants(&call.name) {
        return;
    }
    let case = (call.make)();
    let size = match call.gates {
        0 => case.model.len() + case.witnesses.len(),
        gates => gates,
    };
    table.row(&call.name, size, &compose(&case, call.reason));
}

fn compose(case: &Case, reason: u64) -> Times {
    let asked = case.asked();
    let read = texts(&asked).expect("texts that are accepted");
    let witnesses: Vec<&[u8]> = read.witnesses.iter().map(|witness| witness.text).collect();
    let mut work = vec![0; work_words(&read)];
    let published = oracle::compose(&case.model, &witnesses);
    // The Rust has no limit on room.
    let accepts = reason == 0 || reason == 20;
    assert_eq!(published.is_some(), accepts, "the Rust's answer");
    let published = published.unwrap_or_default();
    let mut out = vec![0; published.len() - usize::from(reason == 20)];
    let mut ours = || {
        let mut lent = Lent {
            work: &mut work,
            out: &mut out,
        };
        (OURS.compose)(black_box(&asked), &mut lent)
    };
    let composed = ours();
    assert_eq!(composed.reason, reason);
    let bytes = case.model.len() + case.witnesses.len() + published.len();
    let times = times(
        bytes,
        || {
            black_box(ours());
        },
        || {
            black_box(oracle::compose(black_box(&case.model), &witnesses));
        },
    );
    assert!(reason != 0 || out == published, "the texts differ");
    times
}
