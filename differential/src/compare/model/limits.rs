//! The reader around its limits: counts, large circuits, long texts.

use super::check::{Lent, read};
use super::circuits::{Operands, Order, Plan, Shape, any_plan, make};
use super::pages::{Page, header};
use super::{Group, K, Run};
use crate::circuit::Circuit;
use crate::compare::inputs::all_words;
use crate::reading::LONGEST_TEXT;

pub const COUNTS: Group = Group {
    name: "read: counts around the limits",
    run: counts,
};

pub const LARGE: Group = Group {
    name: "read: circuits of up to 1,000,001 variables",
    run: large,
};

pub const LONG: Group = Group {
    name: "read: texts around 16,777,216 bytes",
    run: long,
};

fn counts(run: &mut Run) {
    for inputs in [0, 1, 63, 64, 65, 66] {
        for latches in [0, 1, 2, 7, 8, 9, 10] {
            for outputs in [0, 1, 63, 64, 65, 127, 128, 129, 130] {
                for gates in [0, 1, 5] {
                    let shape = Shape {
                        inputs,
                        latches,
                        outputs,
                        gates,
                    };
                    around(run, shape);
                }
            }
        }
    }
    wild_headers(run);
}

/// A circuit of a shape, and the same lines under a header that says something else.
fn around(run: &mut Run, shape: Shape) {
    let plan = any_plan(&mut run.random, shape);
    let circuit = make(&mut run.random, &plan);
    let page = Page::of(&circuit);
    let lent = Lent::of(&mut run.random, 3 * shape.gates + 3, circuit.variables + 2);
    read(run, &page.plain(), &lent);
    for place in 0..5 {
        for moved in [1, usize::MAX] {
            let mut counts = circuit.counts();
            counts[place] = counts[place].wrapping_add(moved);
            let mut page = page.clone();
            page.0[0] = header(counts);
            read(run, &page.plain(), &lent);
        }
    }
}

/// Counts whose sum passes 2^64, or that a narrower number would lose.
fn wild_headers(run: &mut Run) {
    const COUNTS: [&str; 14] = [
        "0",
        "1",
        "2",
        "65",
        "1000000",
        "1000001",
        "4294967296",
        "4294967297",
        "9223372036854775808",
        "18446744073709551614",
        "18446744073709551615",
        "18446744073709551616",
        "18446744073709551617",
        "+01",
    ];
    let lent = Lent::of(&mut run.random, 7, 7);
    all_words(&COUNTS, 5, |counts| {
        let text = format!("aag {}\n2 2\n4 2 2\n", counts.join(" "));
        read(run, text.as_bytes(), &lent);
    });
}

fn large(run: &mut Run) {
    for gates in [1_000, 100_000, 999_928, 999_929] {
        let shape = Shape {
            inputs: 64,
            latches: 8,
            outputs: 128,
            gates,
        };
        for (numbering, listing) in [(Order::Rising, Order::Rising), (Order::Any, Order::Falling)] {
            let plan = Plan {
                shape,
                numbering,
                listing,
                operands: Operands::Short,
            };
            let circuit = make(&mut run.random, &plan);
            check_large(run, &circuit, numbering == Order::Any);
        }
    }
}

/// A large circuit, whole and with a fault in its last gate; with exactly what is needed, and less.
fn check_large(run: &mut Run, circuit: &Circuit, also_short: bool) {
    let page = Page::of(circuit);
    let needed = (3 * circuit.gates.len(), circuit.variables + 1);
    let exact = Lent::of(&mut run.random, needed.0, needed.1);
    read(run, &page.plain(), &exact);
    if also_short {
        for (gate_words, work_words) in [(needed.0 - 1, needed.1), (needed.0, needed.1 - 1)] {
            let short = Lent::of(&mut run.random, gate_words, work_words);
            read(run, &page.plain(), &short);
        }
    }
    let last = page.0.len() - 1;
    let defined = circuit.inputs[0].to_string();
    let beyond = (2 * circuit.variables + 2).to_string();
    let faults: [&[&str]; 4] = [
        &["x", "2", "4"],
        &[&defined, "0", "1"],
        &[&beyond, "2", "4"],
        &[],
    ];
    for fault in faults {
        let mut damaged = page.clone();
        damaged.0[last] = fault.iter().map(|field| field.to_string()).collect();
        read(run, &damaged.plain(), &exact);
    }
}

fn long(run: &mut Run) {
    let lines: Vec<&str> = std::str::from_utf8(K).expect("ASCII").lines().collect();
    let [head, input, latch, output, gate] = lines[..] else {
        panic!("K has five lines");
    };
    let rest = format!("{input}\n{latch}\n{output}\n");
    // A text in two parts, and the byte that fills the room between them.
    let forms = [
        (format!("{head}\n{rest}{gate}\n"), 10, String::new()),
        (format!("{head}\n{rest}{gate}\n"), b'x', String::new()),
        (format!("{head}\n{rest}"), b'0', gate.to_string()),
        (format!("{head}\n{rest}6 4 "), b' ', "2\n".to_string()),
        (String::new(), b' ', format!("{head}\n{rest}{gate}\n")),
        (
            "aag ".to_string(),
            b'0',
            format!("{}\n{rest}{gate}\n", &head[4..]),
        ),
        (format!("{head}\n{rest}{gate}\n"), 127, "\u{7f}".to_string()),
        (format!("{head}\n"), b'9', format!("\n{rest}{gate}\n")),
    ];
    for (start, fill, end) in forms {
        for length in [LONGEST_TEXT - 1, LONGEST_TEXT, LONGEST_TEXT + 1] {
            let mut text = start.clone().into_bytes();
            text.resize(length - end.len(), fill);
            text.extend(end.bytes());
            let lent = Lent::of(&mut run.random, 5, 5);
            read(run, &text, &lent);
            if length == LONGEST_TEXT {
                text[length - 1] = 128;
                read(run, &text, &lent);
            }
        }
    }
}
