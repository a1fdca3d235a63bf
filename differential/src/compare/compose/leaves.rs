//! Witnesses without gates: shared by position, shared by name, private with names; and with many
//! bads and constraints.

use super::cases::Case;
use crate::compare::model::circuits::{Order, arrange};
use crate::random::Random;
use std::fmt::Write;

/// So many inputs, and these literals as bads and as constraints.
fn inputs(count: usize, bads: &[u64], constraints: &[u64]) -> String {
    let listed = format!("{} {}", bads.len(), constraints.len());
    let mut text = format!("aag {count} {count} 0 0 0 {listed}\n");
    let inputs = (1..=count as u64).map(|variable| 2 * variable);
    for literal in inputs.chain(bads.iter().chain(constraints).copied()) {
        writeln!(text, "{literal}").expect("a String takes all");
    }
    text
}

/// Two witnesses with all inputs of the model.
pub fn by_position(count: usize) -> Case {
    let texts = [2, 3].map(|bad| inputs(count, &[bad], &[]));
    Case::of(inputs(count, &[], &[]), &texts)
}

/// The same with a name for each input that maps it to any other, and the names in any order.
pub fn by_name(random: &mut Random, count: usize) -> Case {
    let texts = [2, 3].map(|bad| {
        let mut text = inputs(count, &[bad], &[]);
        let model = shuffled(random, count);
        for index in shuffled(random, count) {
            let literal = 2 * model[index as usize] + 2;
            writeln!(text, "i{index} = {literal}").expect("a String takes all");
        }
        text
    });
    Case::of(inputs(count, &[], &[]), &texts)
}

fn shuffled(random: &mut Random, count: usize) -> Vec<u64> {
    let mut numbers: Vec<u64> = (0..count as u64).collect();
    arrange(random, &mut numbers, Order::Any);
    numbers
}

/// Inputs that the model does not have, each with this name.
pub fn private(count: usize, name: &str) -> Case {
    let texts = [2, 3].map(|bad| {
        let mut text = inputs(count, &[bad], &[]);
        for index in 0..count {
            writeln!(text, "i{index} {name}").expect("a String takes all");
        }
        text
    });
    Case::of(inputs(0, &[], &[]), &texts)
}

/// The same of latches: one half of them, in any order, in each witness.
pub fn latches_by_name(random: &mut Random, count: usize) -> Case {
    let texts = [(); 2].map(|()| {
        let half = count / 2;
        let mut text = latches(half);
        text += "3\n";
        let model = shuffled(random, count);
        for index in shuffled(random, half) {
            let literal = 2 * model[index as usize] + 2;
            writeln!(text, "l{index} = {literal}").expect("a String takes all");
        }
        text
    });
    Case::of(latches(count) + "0\n", &texts)
}

/// Latches that keep themselves, and a header that asks for an output.
fn latches(count: usize) -> String {
    let mut text = format!("aag {count} 0 {count} 1 0\n");
    for literal in (1..=count).map(|variable| 2 * variable) {
        writeln!(text, "{literal} {literal}").expect("a String takes all");
    }
    text
}

/// Literals of a tenth as many inputs in this order, half of them bads and half constraints.
pub fn listed(random: &mut Random, literals: usize, order: Order) -> Case {
    let count = literals / 10;
    let texts = [(); 2].map(|()| {
        let [bads, constraints] = [(); 2].map(|()| {
            let any = (0..literals / 2).map(|_| random.below(2 * count + 2) as u64);
            let mut any: Vec<u64> = any.collect();
            arrange(random, &mut any, order);
            any
        });
        inputs(count, &bads, &constraints)
    });
    Case::of(inputs(count, &[], &[]), &texts)
}
