//! Headers around the limits: M, sums, huge counts, liveness; and literals around theirs.

use super::check::text;
use super::circuits::Shape;
use super::pages::{plain_body, plain_text};
use super::{Group, Run};
use crate::compare::inputs::all_words;

pub const COUNTS: Group = Group {
    name: "witness: counts around the limits",
    run: counts,
};

pub const HUGE: Group = Group {
    name: "witness: huge counts of outputs, bads, constraints",
    run: huge,
};

pub const LIVENESS: Group = Group {
    name: "witness: justice and fairness",
    run: liveness,
};

pub const BOUNDS: Group = Group {
    name: "witness: literals and indexes around their bounds",
    run: bounds,
};

const MOST: usize = crate::reading::witness::MOST_VARIABLES as usize;

fn counts(run: &mut Run) {
    // M is the sum, one more and one less; the sum is around the limit, or is 0.
    for sum in [0, 1, 2, MOST - 1, MOST, MOST + 1] {
        for [inputs, latches] in [[0, 0], [sum, 0], [0, sum], [sum / 2, sum / 3]] {
            let gates = sum - inputs - latches;
            for variables in [sum, sum + 1, sum.wrapping_sub(1)] {
                for lines in ["", "2\n", "2 2\n", "2 0 0\n", "x\n"] {
                    let header = format!("aag {variables} {inputs} {latches} 0 {gates}");
                    text(run, format!("{header}\n{lines}").as_bytes());
                }
            }
        }
    }
    // Counts whose sum passes 2^64, or that a narrower number would lose.
    const COUNTS: [&str; 11] = [
        "0",
        "1",
        "2",
        "2000000",
        "2000001",
        "4294967296",
        "9223372036854775808",
        "18446744073709551614",
        "18446744073709551615",
        "18446744073709551616",
        "+01",
    ];
    all_words(&COUNTS, 4, |counts| {
        let [variables, inputs, latches, gates] = counts else {
            return;
        };
        for outputs in ["0", "1"] {
            let header = format!("aag {variables} {inputs} {latches} {outputs} {gates}");
            text(run, format!("{header}\n2\n4 2\n").as_bytes());
        }
    });
}

/// Counts that no text can have the lines for, with the lines before them whole or not.
fn huge(run: &mut Run) {
    const COUNTS: [&str; 12] = [
        "0",
        "1",
        "2",
        "8388608",
        "16777216",
        "16777217",
        "4294967297",
        "9223372036854775807",
        "9223372036854775808",
        "18446744073709551614",
        "18446744073709551615",
        "18446744073709551616",
    ];
    const BODIES: [&str; 7] = [
        "2\n4 4\n",
        "2\n4 4\n1\n1\n1\n1\n1\n1\n",
        "2\n4 4\n1\n1\n1\n1\n1\n1\ni0 x\no0 x\nc\nMAPPING\n",
        "2\n4 4\no18446744073709551613 x\nb0 x\nc0 x\n",
        "2\n4 9\n1\n1\n1\n1\n1\n1\n",
        "2\n4\n1\n1\n1\n1\n1\n1\n",
        "2\n",
    ];
    all_words(&COUNTS, 3, |counts| {
        let [outputs, bads, constraints] = counts else {
            return;
        };
        for body in BODIES {
            let header = format!("aag 2 1 1 {outputs} 0 {bads} {constraints}");
            text(run, format!("{header}\n{body}").as_bytes());
        }
    });
    for end in ["1 0", "0 1", "x", "0 0 0"] {
        let header = format!("aag 2 1 1 18446744073709551615 0 1 1 {end}");
        text(run, format!("{header}\n2\n4 4\n").as_bytes());
    }
}

/// J and F with sections that are whole or broken.
fn liveness(run: &mut Run) {
    const COUNTS: [&str; 7] = [
        "0",
        "+0",
        "00",
        "1",
        "2",
        "4294967296",
        "18446744073709551615",
    ];
    const TAILS: [&str; 5] = ["", "j0 x\n", "1\n2\n", "f0 x\nc\nMAPPING\n", "\n"];
    let shape = Shape {
        inputs: 1,
        latches: 1,
        outputs: 1,
        gates: 1,
        bads: 1,
        constraints: 1,
    };
    let body = plain_body(&shape);
    let lines: Vec<&str> = body.lines().collect();
    for justice in COUNTS {
        for fairness in ["", " 0", " 1", " +0", " 18446744073709551615"] {
            for kept in 0..=lines.len() {
                for (tail, broken) in TAILS.iter().flat_map(|tail| [(tail, ""), (tail, "x")]) {
                    let header = format!("aag 3 1 1 1 1 1 1 {justice}{fairness}");
                    let body = [lines[..kept].join("\n").as_str(), broken, "\n"].concat();
                    text(run, format!("{header}\n{body}{tail}").as_bytes());
                }
            }
        }
    }
}

/// Each place of a literal around 2M + 1 or the gate's variable, and each kind of symbol around its
/// count, in circuits of several sizes.
fn bounds(run: &mut Run) {
    for size in [1, 2, 3, 4, 8, 31, 64, 100] {
        let shape = Shape {
            inputs: size,
            latches: size + 1,
            outputs: size + 2,
            gates: size + 3,
            bads: size + 4,
            constraints: size + 5,
        };
        let whole = plain_text(&shape);
        let lines: Vec<&str> = whole.lines().collect();
        around_lines(run, &shape, &lines);
        let counts = [
            ('i', shape.inputs),
            ('l', shape.latches),
            ('o', shape.outputs),
            ('b', shape.bads),
            ('c', shape.constraints),
        ];
        for (kind, count) in counts {
            for index in [0, 1, count - 1, count, count + 1] {
                for sign in ["", "+", "+0"] {
                    let line = format!("{kind}{sign}{index} name");
                    text(run, format!("{whole}{line}\n").as_bytes());
                }
            }
        }
    }
}

fn around_lines(run: &mut Run, shape: &Shape, lines: &[&str]) {
    let highest = 2 * shape.variables() + 1;
    for place in 1..lines.len() {
        let fields: Vec<&str> = lines[place].split(' ').collect();
        let own: usize = fields[0].parse().expect("a number");
        for field in 0..3 {
            for number in [
                own.wrapping_sub(2),
                own.wrapping_sub(1),
                own,
                own + 1,
                own + 2,
                highest - 1,
                highest,
                highest + 1,
                highest + 2,
            ] {
                let number = number.to_string();
                let mut fields = fields.clone();
                match fields.get_mut(field) {
                    Some(field) => *field = &number,
                    None => fields.push(&number),
                }
                let line = fields.join(" ");
                let mut lines = lines.to_vec();
                lines[place] = &line;
                text(run, format!("{}\n", lines.join("\n")).as_bytes());
            }
        }
    }
}
