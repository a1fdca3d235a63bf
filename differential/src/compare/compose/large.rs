//! Large compositions: many gates, many witnesses, many and long names.

use super::cases::Case;
use super::check::{Amount, Judged};
use super::collisions::colliding;
use super::leaves::{by_name, by_position, latches_by_name, listed};
use super::{Group, Run};
use crate::compare::model::circuits::{Operands, Order};
use crate::compare::witness::circuits::{Shape, make};
use crate::compare::witness::pages::Page;
use crate::random::Random;
use crate::sections::Sections;

pub const LARGE: Group = Group {
    name: "compose: large circuits",
    run: large,
};

/// A circuit of mostly gates.
pub fn circuit(random: &mut Random, gates: usize, operands: Operands) -> Sections {
    let shape = Shape {
        inputs: 40,
        latches: 60,
        outputs: 1,
        gates,
        bads: 3,
        constraints: 5,
    };
    make(random, &shape, operands, false)
}

/// A witness for a model of 40 inputs and 60 latches: the circuit with every latch keeping itself,
/// and so many gates of its own behind it.
fn variant(random: &mut Random, circuit: &Sections, own: usize) -> Vec<u8> {
    let mut changed = circuit.clone();
    for latch in &mut changed.latches {
        latch.next = latch.current;
    }
    for _ in 0..own {
        changed.variables += 1;
        let output = 2 * changed.variables;
        let [left, right] = [(); 2].map(|()| random.below(output as usize) as u64);
        changed.gates.push([output, left, right]);
    }
    changed.bads = vec![2 * changed.variables + 1];
    Page::of(&changed).plain()
}

fn large(run: &mut Run) {
    let model = Page::of(&circuit(&mut run.random, 10, Operands::Any)).plain();
    for operands in [Operands::Any, Operands::Near, Operands::Plain] {
        let shared = circuit(&mut run.random, 100_000, operands);
        let witnesses = [0, 1_000, 0].map(|own| variant(&mut run.random, &shared, own));
        around(run, &Case::of(&model, &witnesses));
    }
    // Nothing is shared but the leaves.
    let witnesses = [(); 3].map(|()| {
        let own = circuit(&mut run.random, 100_000, Operands::Any);
        variant(&mut run.random, &own, 0)
    });
    around(run, &Case::of(&model, &witnesses));
    // As many witnesses as there may be.
    let witnesses: Vec<Vec<u8>> = (0..64)
        .map(|_| {
            let own = circuit(&mut run.random, 6_000, Operands::Any);
            variant(&mut run.random, &own, 100)
        })
        .collect();
    around(run, &Case::of(&model, &witnesses));
    names(run, &model);
    leaves_only(run);
    around(run, &colliding(2_000));
}

/// Tables of what is shared, and lists that are sorted, repeated and not.
fn leaves_only(run: &mut Run) {
    around(run, &by_position(50_000));
    for case in [by_name, latches_by_name] {
        let case = case(&mut run.random, 50_000);
        around(run, &case);
    }
    for order in [Order::Rising, Order::Falling, Order::Any] {
        let case = listed(&mut run.random, 60_000, order);
        around(run, &case);
    }
}

/// 200,000 names in all, and one of 3,000,000 bytes.
fn names(run: &mut Run, model: &[u8]) {
    let named = |inputs: usize, name: &str| {
        let mut text = format!("aag {inputs} {inputs} 0 1 0\n");
        let literals = (1..=inputs).map(|variable| format!("{}\n", 2 * variable));
        text.extend(literals);
        text += "1\n";
        text.extend((0..inputs).rev().map(|index| format!("i{index} {name}\n")));
        text
    };
    let many = named(100_000, "a name of 24 bytes in all");
    around(run, &Case::of(model, &[&many, &many]));
    let long = named(41, &"x".repeat(70_000));
    around(run, &Case::of(model, &[&long, &many]));
}

/// Exactly what is needed, and a byte and a word less.
fn around(run: &mut Run, case: &Case) {
    let judged = Judged::of(case);
    let Amount { work, room } = judged.needed();
    assert!(room > 0, "a large case is refused");
    for (work, room) in [(work, room), (work, room - 1), (work - 1, room)] {
        judged.lent(run, Amount { work, room });
    }
}
