//! Texts with as many variables, names or bytes as there may be.

use super::check::{lent, text};
use super::circuits::{Shape, make};
use super::pages::{Page, plain_text};
use super::{Group, Run, W};
use crate::compare::lent::Words;
use crate::compare::model::circuits::{Operands, Order, arrange};
use crate::random::Random;
use crate::reading::LONGEST_TEXT;
use crate::subject::witness::Role;

pub const VARIABLES: Group = Group {
    name: "witness: circuits of up to 2,000,001 variables",
    run: variables,
};

pub const NAMES: Group = Group {
    name: "witness: up to 1,000,000 names",
    run: names,
};

pub const LONG: Group = Group {
    name: "witness: texts around 16,777,216 bytes",
    run: long,
};

/// Compares a large text once, as a witness, with so many words lent.
fn once(run: &mut Run, text: &[u8], words: usize) {
    assert!(
        text.len() <= LONGEST_TEXT,
        "the text is too long to be read"
    );
    let words = Words::garbage(&mut run.random, words);
    lent(run, text, Role::Witness, &words);
}

fn variables(run: &mut Run) {
    let inputs = |inputs| Shape {
        inputs,
        ..Shape::default()
    };
    // 2,000,000 variables fit in a text where most are inputs.
    once(run, plain_text(&inputs(2_000_000)).as_bytes(), 4_000_000);
    once(run, plain_text(&inputs(2_000_001)).as_bytes(), 10);
    let mixed = Shape {
        inputs: 1_800_000,
        latches: 100_000,
        gates: 100_000,
        outputs: 3,
        bads: 2,
        constraints: 1,
    };
    let gates = Shape {
        inputs: 1_000,
        latches: 5_000,
        gates: 894_000,
        outputs: 1,
        bads: 100,
        constraints: 10,
    };
    let needed = |shape: &Shape| {
        let listed = shape.outputs + shape.bads + shape.constraints;
        2 * (shape.inputs + shape.gates) + 4 * shape.latches + listed
    };
    // Names at both ends of the inputs and the latches, then one of them again or none.
    let start = plain_text(&mixed);
    let names = "i1799999 a\ni0 b\nl99999 c\nl0 d\n";
    for end in ["", "i1799999 e\n", "l99999 \n", "l0 d\n", "i1800000 x\n"] {
        once(
            run,
            format!("{start}{names}{end}").as_bytes(),
            needed(&mixed),
        );
    }
    let circuit = make(&mut run.random, &gates, Operands::Short, false);
    let page = Page::of(&circuit);
    once(run, &page.plain(), needed(&gates));
    once(run, &page.plain(), needed(&gates) - 1);
    // Faults in the last gate: 8, 11 twice, and 8 for a gate that is not there.
    let last = page.sections.0.len() - 1;
    let own = (2 * gates.variables()).to_string();
    for fault in [&["2", "4"][..], &["2", "4", "6"], &[&own, "2", &own], &[]] {
        let mut page = page.clone();
        page.sections.0[last] = fault.iter().map(|field| field.to_string()).collect();
        once(run, &page.plain(), needed(&gates));
    }
}

/// The lines that name so many inputs, in this order.
fn name_lines(random: &mut Random, count: usize, order: Order) -> String {
    let mut indexes: Vec<u64> = (0..count as u64).collect();
    arrange(random, &mut indexes, order);
    let lines = indexes.iter().map(|index| format!("i{index} \n"));
    lines.collect()
}

fn names(run: &mut Run) {
    // With the two latches, around 4,096 and 65,536 that can be named.
    for count in [1_000, 4_094, 4_095, 65_534, 65_535, 1_000_000] {
        let inputs = Shape {
            inputs: count,
            latches: 2,
            ..Shape::default()
        };
        let start = plain_text(&inputs);
        let words = 2 * count + 8;
        for order in [Order::Rising, Order::Falling, Order::Any] {
            let lines = name_lines(&mut run.random, count, order);
            let latches = match order {
                Order::Rising => "l0 \nl1 x\n",
                _ => "l1 x\nl0 \n",
            };
            let named = format!("{start}{lines}{latches}");
            once(run, named.as_bytes(), words);
            // The last line names one twice, the first, the last or any; or one that is not there.
            let any = run.random.below(count);
            let ends = [
                format!("i{any} x"),
                "i0 x".to_string(),
                format!("i{} x", count - 1),
                format!("i{count} x"),
                "l1 x".to_string(),
            ];
            let all = order == Order::Any || count < 100_000;
            let tried = if all { ends.len() } else { 1 };
            for end in &ends[..tried] {
                once(run, format!("{named}{end}\n").as_bytes(), words);
            }
        }
    }
    // Names of an output, over and over.
    let one = Shape {
        inputs: 1,
        outputs: 1,
        ..Shape::default()
    };
    let repeated = format!("{}{}", plain_text(&one), "o0 x\n".repeat(3_000_000));
    once(run, format!("{repeated}i0 y\n").as_bytes(), 3);
    once(run, format!("{repeated}i0 y\no1 x\n").as_bytes(), 3);
}

fn long(run: &mut Run) {
    let whole = std::str::from_utf8(W).expect("ASCII");
    let (sections, _) = whole.split_once("i0").expect("a name");
    // A text in two parts, and the byte that fills the room between them.
    let forms: [(&str, u8, &str); 9] = [
        (whole, 10, "\n"),
        (whole, b'x', "\n"),
        (whole, 10, " MAPPING\n"),
        ("", b' ', whole),
        ("aag +", b'0', &whole[4..]),
        (&format!("{sections}i+"), b'0', " x\nl0 x\n"),
        (&format!("{sections}i0 "), b' ', "\nl0 x\n"),
        (&format!("{sections}l0"), b'x', " y\n"),
        (&whole[..18], b' ', &whole[18..]),
    ];
    for (start, fill, end) in forms {
        for length in [LONGEST_TEXT - 1, LONGEST_TEXT, LONGEST_TEXT + 1] {
            let mut filled = start.as_bytes().to_vec();
            filled.resize(length - end.len(), fill);
            filled.extend(end.bytes());
            if fill == 10 {
                text(run, &filled);
            } else {
                let words = Words::garbage(&mut run.random, 20);
                lent(run, &filled, Role::Witness, &words);
            }
        }
    }
    // Short lines of comments, the last of which maps or not.
    for end in ["x\n", "MAPPING\n"] {
        let lines = (LONGEST_TEXT - whole.len() - end.len()) / 4;
        let filled = format!("{whole}{}{end}", "x y\n".repeat(lines));
        once(run, filled.as_bytes(), 20);
    }
}
