//! All small texts of a family.

use super::cases::Case;
use super::check::{check, texts};
use super::{Group, Run};
use crate::compare::inputs::{self, filled};
use crate::compare::witness::circuits::Shape;
use crate::compare::witness::pages::plain_text;

pub const SHAPES: Group = Group {
    name: "compose: all small counts of three texts",
    run: shapes,
};

pub const GATES: Group = Group {
    name: "compose: all operands of a gate in each witness",
    run: gates,
};

pub const TWO_GATES: Group = Group {
    name: "compose: all operands of two gates",
    run: two_gates,
};

pub const LATCHES: Group = Group {
    name: "compose: all definitions of a shared latch",
    run: latches,
};

pub const LISTS: Group = Group {
    name: "compose: all bads, outputs and constraints",
    run: lists,
};

pub const EACH_BYTE: Group = Group {
    name: "compose: each byte at each place of texts",
    run: each_byte,
};

/// One input and one latch, a gate, a bad and a constraint: in most groups below, the model.
pub const MODEL: &str = "aag 3 1 1 0 1 1 1\n2\n4 6\n6\n1\n6 2 4\n";

/// Up to one of each kind in both witnesses, none to two inputs and latches in the model.
fn shapes(run: &mut Run) {
    let plain = |bits: usize| {
        let bit = |place: usize| bits >> place & 1;
        plain_text(&Shape {
            inputs: bit(0),
            latches: bit(1),
            outputs: bit(2),
            gates: bit(3),
            bads: bit(4),
            constraints: bit(5),
        })
    };
    let witnesses: Vec<String> = (0..64).map(plain).collect();
    let models = [(0, 0), (0, 1), (1, 0), (2, 2)].map(|(inputs, latches)| {
        plain_text(&Shape {
            inputs,
            latches,
            outputs: inputs,
            ..Shape::default()
        })
    });
    for model in &models {
        for first in &witnesses {
            for second in &witnesses {
                texts(run, model, &[first, second]);
            }
        }
    }
}

/// Both operands in both witnesses, constants and both signs among them.
fn gates(run: &mut Run) {
    let form = "aag 3 1 1 0 1 1\n2\n4 4\n6\n6 # #\n";
    let all: Vec<String> = (0..36).map(|number| filled(form, number, 6)).collect();
    // Of two witnesses the second's leaves are swapped, or its latch is private.
    let others = ["", "i0 x\nl0 = 4\n", "i0 = 2\n"];
    for first in &all {
        for second in &all {
            for symbols in others {
                let second = format!("{second}{symbols}");
                texts(run, MODEL, &[first, &second]);
            }
        }
    }
}

/// Both operands of two gates, beside a witness that has some of them.
fn two_gates(run: &mut Run) {
    let form = "aag 3 1 0 0 2 2\n2\n4\n7\n4 # #\n6 # #\n";
    let others = [
        "aag 1 1 0 0 0 1\n2\n2\n",
        "aag 3 1 0 0 2 1\n2\n6\n4 2 2\n6 4 2\n",
        "aag 4 1 0 0 3 1\n2\n8\n4 3 1\n6 5 3\n8 6 0\n",
        "aag 3 1 0 0 2 1\n2\n6\n4 0 1\n6 1 5\ni0 x\n",
    ];
    // Operands of the first gate are below 4, those of the second below 6.
    for number in 0..36_u64.pow(2) {
        let [a, b, c, d] = [number % 6, number / 6 % 6, number / 36 % 6, number / 216];
        if a > 3 || b > 3 {
            continue;
        }
        let digits = a + 6 * b + 36 * c + 216 * d;
        let text = filled(form, digits, 6);
        for other in others {
            texts(run, MODEL, &[text.as_str(), other]);
            texts(run, MODEL, &[other, &text]);
        }
        texts(run, MODEL, &[&text, &text]);
    }
}

/// Next and reset of a latch that both have: equal, equal through sharing, and different.
fn latches(run: &mut Run) {
    let firsts = [
        "aag 3 1 1 0 1 1\n2\n4 6\n6\n6 2 4\n",
        "aag 3 1 1 0 1 1\n2\n4 2 1\n6\n6 1 2\n",
        "aag 3 1 1 0 1 1\n2\n4 0 7\n6\n6 2 2\n",
        "aag 4 1 1 0 2 1\n2\n4 8 9\n6\n6 4 4\n8 2 4\n",
        "aag 3 1 1 0 1 1\n2\n4 7 5\n6\n6 5 2\nl0 = 4\n",
    ];
    let form = "aag 3 1 1 0 1 1\n2\n4 # #\n6\n6 # #\n";
    // A second latch that is mapped to the same one, or to none.
    let wide = "aag 4 1 2 0 1 1\n2\n4 # #\n6 # #\n6\n8 2 4\ni0 = 2\nl0 = 4\nl1 = 4\n";
    for first in firsts {
        for number in 0..8_u64.pow(4) {
            let text = filled(form, number, 8);
            if text.contains("\n6 6") || text.contains("\n6 7") {
                continue;
            }
            texts(run, MODEL, &[first, &text]);
        }
        for number in (0..10_u64.pow(4)).step_by(3) {
            let text = filled(wide, number, 10);
            texts(run, MODEL, &[text.as_str(), first]);
            if number % 8 == 0 {
                texts(run, MODEL, &[text.replace("l1 = 4", "l1 = "), text]);
            }
        }
    }
}

/// Each literal as an output, a bad and a constraint of both witnesses.
fn lists(run: &mut Run) {
    let forms = [
        "aag 3 1 1 0 1 2 1\n2\n4 4\n#\n#\n#\n6 2 4\n",
        "aag 3 1 1 2 1 0 2\n2\n4 4\n#\n#\n#\n#\n6 4 2\n",
        "aag 3 1 1 1 1 1 0\n2\n4 4\n#\n#\n6 2 4\n",
    ];
    let others = [
        "aag 3 1 1 0 1 2 1\n2\n4 4\n7\n2\n3\n6 2 4\n",
        "aag 3 1 1 3 1\n2\n4 4\n1\n7\n0\n6 2 5\ni0 x\nl0 = 4\n",
        "aag 3 1 1 0 1 4 4\n2\n4 4\n6\n5\n4\n6\n6\n5\n4\n6\n6 3 5\n",
    ];
    for form in forms {
        let places = form.matches('#').count() as u32;
        for number in 0..8_u64.pow(places) {
            let text = filled(form, number, 8);
            for (turn, other) in (0..).zip(others) {
                // Of the form with four places, each has one of the others.
                if places < 4 || number % 3 == turn {
                    texts(run, MODEL, &[text.as_str(), other]);
                    texts(run, MODEL, &[other, &text]);
                }
            }
        }
    }
}

/// A byte inserted, changed or left out in the model, in the first and in the second witness.
fn each_byte(run: &mut Run) {
    let first = "aag 2 1 1 1 0\n2\n4 2\n2\ni0 = 2\nl0 x\n";
    let second = "aag 2 1 0 0 1 1 1\n2\n4\n3\n4 2 2\nc\nM\n";
    let model = "aag 2 1 1 0 0\n2\n4 2\ni0 a\n";
    inputs::each_byte(model.as_bytes(), |changed| {
        check(run, &Case::of(changed, &[first, second]));
    });
    inputs::each_byte(first.as_bytes(), |changed| {
        check(run, &Case::of(model, &[changed, second.as_bytes()]));
    });
    inputs::each_byte(second.as_bytes(), |changed| {
        check(run, &Case::of(model, &[first.as_bytes(), changed]));
    });
}
