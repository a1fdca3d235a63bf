//! Random circuits in any numbering with random predicates and claims.

use super::calls::set_apart;
use super::check::{Call, check};
use super::limits::needed;
use super::{Group, Run};
use crate::circuit::Circuit;
use crate::compare::lent::Words;
use crate::compare::model::circuits::{
    Operands, Order, Plan, Shape, any_plan, make, small_shape, wide_shape,
};

pub const ACCEPTED: Group = Group {
    name: "random calls that are accepted",
    run: accepted,
};

pub const DAMAGED: Group = Group {
    name: "random calls, damaged",
    run: damaged,
};

pub const LARGE: Group = Group {
    name: "models of 1,000,000 variables",
    run: large,
};

fn any_circuit(run: &mut Run, case: usize) -> Circuit {
    let shape = match case % 8 {
        0 => wide_shape(&mut run.random),
        _ => small_shape(&mut run.random),
    };
    let plan = any_plan(&mut run.random, shape);
    let mut circuit = make(&mut run.random, &plan);
    if run.random.once_in(2) {
        set_apart(&mut run.random, &mut circuit);
    }
    circuit
}

fn accepted(run: &mut Run) {
    for case in 0..run.cases {
        let circuit = any_circuit(run, case);
        let call = Call::any(&mut run.random, &circuit);
        let accepted = check(run, &call);
        assert!(accepted, "{}", call.shown());
    }
}

fn damaged(run: &mut Run) {
    for case in 0..run.cases * 2 {
        let circuit = any_circuit(run, case);
        let mut call = Call::any(&mut run.random, &circuit);
        for _ in 0..=run.random.below(2) {
            call.damage(&mut run.random, &circuit);
        }
        check(run, &call);
    }
}

/// Each kind of call once, with exactly what it needs; then one pair, literal or work word less.
fn large(run: &mut Run) {
    let plan = Plan {
        shape: Shape {
            inputs: 64,
            latches: 8,
            outputs: 128,
            gates: 999_928,
        },
        numbering: Order::Any,
        listing: Order::Any,
        operands: Operands::Any,
    };
    let mut circuit = make(&mut run.random, &plan);
    set_apart(&mut run.random, &mut circuit);
    for kind in 0..3 {
        let mut call = Call::any_of(&mut run.random, &circuit, kind);
        let (pairs, literals) = needed(&call);
        call.record.work = Words::garbage(&mut run.random, circuit.variables + 1);
        call.pairs = Words::garbage(&mut run.random, 2 * pairs);
        call.literals = Words::garbage(&mut run.random, literals);
        check(run, &call);
        match kind {
            0 => drop(call.pairs.0.pop()),
            1 => drop(call.literals.0.pop()),
            _ => drop(call.record.work.0.pop()),
        }
        check(run, &call);
    }
}
