//! Random circuits: whole, and damaged.

use super::check::text;
use super::circuits::{any_shape, make};
use super::pages::{NAMES, Page};
use super::{Group, Run};
use crate::compare::model::circuits::{Operands, Order, arrange};
use crate::compare::model::pages::damage_bytes;
use crate::random::Random;
use crate::sections::Sections;

pub const WHOLE: Group = Group {
    name: "witness: random circuits",
    run: whole,
};

pub const DAMAGED: Group = Group {
    name: "witness: damaged circuits",
    run: damaged,
};

/// A circuit's text with names in any order and comments, most of which map nothing.
fn any_page(random: &mut Random) -> Page {
    let shape = any_shape(random);
    let operands = random.choose(&[Operands::Any, Operands::Near, Operands::Plain]);
    let resets = random.once_in(2);
    let circuit = make(random, &shape, operands, resets);
    let mut page = Page::of(&circuit);
    page.shorten_header(random);
    if random.once_in(3) {
        write_resets(random, &circuit, &mut page);
    }
    add_names(random, &circuit, &mut page);
    if random.once_in(2) {
        add_comments(random, &mut page);
    }
    page
}

/// Writes resets of 0 that are left out else.
fn write_resets(random: &mut Random, circuit: &Sections, page: &mut Page) {
    for place in 0..circuit.latches.len() {
        let line = &mut page.sections.0[1 + circuit.inputs.len() + place];
        if line.len() == 2 && random.once_in(2) {
            line.push("0".to_string());
        }
    }
}

/// Names for some of each kind, in any order; some of outputs, bads and constraints have several.
pub fn add_names(random: &mut Random, circuit: &Sections, page: &mut Page) {
    let kinds = [
        ('i', circuit.inputs.len()),
        ('l', circuit.latches.len()),
        ('o', circuit.outputs.len()),
        ('b', circuit.bads.len()),
        ('c', circuit.constraints.len()),
    ];
    let mut lines = Vec::new();
    for (kind, count) in kinds {
        for index in 0..count {
            let most = if "il".contains(kind) { 1 } else { 3 };
            for _ in 0..random.below(most + 1) {
                let sign = random.choose(&["", "", "", "+", "+00"]);
                lines.push(format!("{kind}{sign}{index} {}", random.choose(&NAMES)));
            }
        }
    }
    let mut order: Vec<u64> = (0..lines.len() as u64).collect();
    arrange(random, &mut order, Order::Any);
    let lines = order.into_iter().map(|place| lines[place as usize].clone());
    page.tail.extend(lines);
}

fn add_comments(random: &mut Random, page: &mut Page) {
    const LINES: [&str; 10] = [
        "",
        "c",
        "a comment",
        " MAPPINGS",
        "x MAPPING",
        "i0 x",
        "i0 x",
        "\t",
        "\u{0}\u{7f}",
        "\tINTERVENTION x",
    ];
    page.tail.push("c".to_string());
    for _ in 0..random.below(4) {
        page.tail.push(random.choose(&LINES).to_string());
    }
}

fn whole(run: &mut Run) {
    for _ in 0..run.cases * 2 {
        let page = any_page(&mut run.random);
        let dressed = page.dressed(&mut run.random);
        text(run, &dressed);
    }
}

fn damaged(run: &mut Run) {
    for _ in 0..run.cases * 3 {
        let mut page = any_page(&mut run.random);
        let bytes = run.random.once_in(3);
        if !bytes || run.random.once_in(8) {
            for _ in 0..=run.random.below(2) {
                page.damage(&mut run.random);
            }
        }
        let mut damaged = if run.random.once_in(2) {
            page.plain()
        } else {
            page.dressed(&mut run.random)
        };
        if bytes {
            damage_bytes(&mut run.random, &mut damaged);
        }
        text(run, &damaged);
    }
}
