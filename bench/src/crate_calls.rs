//! Calls of the Rust crate in `bindings/rust`, which lends memory and makes lists of the answers, beside
//! the same calls of the published Rust.

use crate::circuits::{KINDS, circuit};
use crate::compose_texts;
use crate::measure::{Times, times};
use crate::stepping::k;
use crate::table::{Table, Unit};
use differential::circuit::Circuit;
use differential::compare::compose::cases::Case;
use differential::compare::model::pages::Page;
use differential::oracle::{aiger, composed};
use differential::reading::compose::texts;
use nitrasovy::{aiger_obligation as ours, composed_witness};
use std::hint::black_box;

pub fn measure(table: &Table) {
    table.head("through the Rust crate, models", Unit::Gates);
    let sizes = [1_000, 30_000, 700_000];
    let named = sizes.map(|size| (format!("{size} variables"), circuit(&KINDS[3], size)));
    for (name, circuit) in [("K".into(), k())].into_iter().chain(named) {
        for (call, row) in [
            ("read", read as fn(&Circuit) -> Times),
            ("step", step),
            ("row", row),
        ] {
            let name = format!("crate {call}: {name}");
            if table.wants(&name) {
                table.row(&name, circuit.gates.len(), &row(&circuit));
            }
        }
    }
    table.head("through the Rust crate, composing", Unit::Gates);
    for call in compose_texts::of_gates() {
        let name = format!("crate {}", call.name);
        if call.reason == 0 && table.wants(&name) {
            table.row(&name, call.gates, &compose(&(call.make)()));
        }
    }
}

fn read(circuit: &Circuit) -> Times {
    let text = Page::of(circuit).plain();
    let call = || ours::parse_ascii_aiger_transition(black_box(&text));
    let rust = || aiger::parse_ascii_aiger_transition(black_box(&text));
    assert_eq!(call().is_ok(), rust().is_ok());
    times(text.len(), || drop(call()), || drop(rust()))
}

/// The model of a circuit, in both forms.
fn models(circuit: &Circuit) -> (usize, ours::AigerTransition, aiger::AigerTransition) {
    let text = Page::of(circuit).plain();
    let model = ours::parse_ascii_aiger_transition(&text).expect("a model");
    let rust = aiger::parse_ascii_aiger_transition(&text).expect("a model");
    (size_of_val(circuit.words()), model, rust)
}

fn step(circuit: &Circuit) -> Times {
    let (bytes, model, rust) = models(circuit);
    let call = || black_box(&model).evaluate(1, 1).ok();
    let rust = || black_box(&rust).evaluate(1, 1).ok();
    assert_eq!(call(), rust());
    times(bytes, || _ = black_box(call()), || _ = black_box(rust()))
}

/// A row without predicate, with one claimed target.
fn row(circuit: &Circuit) -> Times {
    let (bytes, model, rust) = models(circuit);
    let clauses = Vec::new;
    let any = ours::AigerInputPredicate { clauses: clauses() };
    let call = || ours::relation_row_completeness_cnf(black_box(&model), &[], 1, &any, &[1]);
    let any = aiger::AigerInputPredicate { clauses: clauses() };
    let rust = || aiger::relation_row_completeness_cnf(black_box(&rust), &[], 1, &any, &[1]);
    let (made, clauses) = (call().expect("a row"), rust().expect("a row"));
    assert!(
        made.iter()
            .map(|clause| &clause.0)
            .eq(clauses.iter().map(|clause| &clause.0))
    );
    times(bytes, || drop(call()), || drop(rust()))
}

fn compose(case: &Case) -> Times {
    let asked = case.asked();
    let read = texts(&asked).expect("texts that are accepted");
    let witnesses: Vec<&[u8]> = read.witnesses.iter().map(|witness| witness.text).collect();
    let call = || composed_witness::compose_safety_witnesses_v1(black_box(&case.model), &witnesses);
    let rust = || composed::compose_safety_witnesses_v1(black_box(&case.model), &witnesses);
    let text = rust().expect("a composition");
    assert_eq!(call().ok().as_ref(), Some(&text));
    let bytes = case.model.len() + case.witnesses.len() + text.len();
    times(bytes, || drop(call()), || drop(rust()))
}
