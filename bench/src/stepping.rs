//! Validation and steps of models. Both validate at every step.

use crate::circuits::{KINDS, SIZES, circuit};
use crate::measure::times;
use crate::table::{Table, Unit};
use differential::circuit::Circuit;
use differential::oracle::model as oracle;
use differential::ours::model::SUBJECT as OURS;
use differential::subject::model::{Latch, Model, Step};
use std::hint::black_box;

pub fn measure(table: &Table) {
    table.head("validation and steps", Unit::Gates);
    let models = || {
        let kinds = KINDS.iter().flat_map(|kind| SIZES.map(|size| (kind, size)));
        kinds.map(|(kind, size)| (format!("{}, {size} variables", kind.name), kind, size))
    };
    measure_one(table, "K", &k);
    for (name, kind, size) in models() {
        measure_one(table, &name, &|| circuit(kind, size));
    }
}

/// Model K: one gate.
pub fn k() -> Circuit {
    Circuit {
        variables: 3,
        inputs: vec![2],
        latches: vec![Latch {
            current: 4,
            next: 6,
        }],
        outputs: vec![6],
        gates: vec![[6, 4, 2]],
    }
}

fn measure_one(table: &Table, name: &str, make: &dyn Fn() -> Circuit) {
    let rows = [
        (format!("validate: {name}"), validate as fn(&Circuit) -> _),
        (format!("step: {name}"), |circuit| {
            step(circuit, OURS.step_words)
        }),
        (format!("step by records: {name}"), |circuit| {
            step(circuit, OURS.step_records)
        }),
    ];
    for (name, row) in rows {
        if table.wants(&name) {
            let circuit = make();
            table.row(&name, circuit.gates.len(), &row(&circuit));
        }
    }
}

/// The bytes of a record and its gate words.
fn bytes(gates: &[u64]) -> usize {
    size_of::<Model>() + size_of_val(gates)
}

fn validate(circuit: &Circuit) -> crate::measure::Times {
    let (model, gates) = (Model::of(circuit), circuit.words());
    let mut work = vec![0; circuit.variables + 1];
    let transition = oracle::transition(circuit);
    assert_eq!((OURS.validate)(&model, gates, &mut work), 0);
    assert!(transition.validate().is_ok());
    times(
        bytes(gates),
        || {
            black_box((OURS.validate)(black_box(&model), gates, &mut work));
        },
        || {
            let _ = black_box(black_box(&transition).validate());
        },
    )
}

fn step(circuit: &Circuit, ours: Step<[u64]>) -> crate::measure::Times {
    let (model, gates) = (Model::of(circuit), circuit.words());
    let mut work = vec![0; circuit.variables + 1];
    let transition = oracle::transition(circuit);
    let answer = ours(model.words(), gates, &mut work, 1, 1);
    assert_eq!(Some(answer), oracle::step(&transition, 1, 1));
    times(
        bytes(gates),
        || {
            black_box(ours(black_box(model.words()), gates, &mut work, 1, 1));
        },
        || {
            let _ = black_box(black_box(&transition).evaluate(1, 1));
        },
    )
}
