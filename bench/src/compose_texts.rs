//! The models and witnesses whose composing is measured.

use differential::compare::compose::cases::Case;
use differential::compare::compose::collisions::colliding;
use differential::compare::compose::leaves::{by_name, by_position, listed, private};
use differential::compare::compose::{FIRST, MODEL, SECOND};
use differential::compare::model::circuits::Order;
use differential::random::Random;
use std::fmt::Write;

/// Inputs and latches of most witnesses; all are shared with the model.
const INPUTS: usize = 20;
const LATCHES: usize = 50;
const LEAVES: usize = INPUTS + LATCHES;

/// How many gates each witness has.
const SIZES: [usize; 4] = [100, 1_000, 30_000, 1_000_000];
/// Chained operands have as many digits as their gate: with more, a text would be too long.
const CHAINED: [usize; 4] = [100, 1_000, 30_000, 650_000];
/// A bad table of gates would take time with the square of them.
const COLLIDING: [usize; 3] = [1_000, 8_000, 30_000];
/// So many in each of 64 witnesses; with the leaves, the last is near 2,000,000 variables.
const OF_64: [usize; 3] = [1_000, 8_000, 30_000];

/// Operands of one witness's gates.
type Pairs = Vec<[u64; 2]>;

/// Makes the call of witnesses with so many gates each.
type Make = fn(usize) -> Case;

/// A named call, made when it is measured, and what its size is counted in.
pub struct Named {
    pub name: String,
    pub make: Box<dyn Fn() -> Case>,
    /// How many gates the witnesses have in all; 0 where bytes are to be counted.
    pub gates: usize,
    /// The reason with which it is refused, or 0.
    pub reason: u64,
}

fn named(name: String, gates: usize, make: impl Fn() -> Case + 'static) -> Named {
    Named {
        name: format!("compose: {name}"),
        make: Box::new(make),
        gates,
        reason: 0,
    }
}

/// Calls whose size is their gates.
pub fn of_gates() -> Vec<Named> {
    let mut calls = Vec::new();
    let kinds: [(&str, &[usize], Make); 5] = [
        ("random operands", &SIZES, |gates| {
            two(|random| wide(random, gates))
        }),
        ("nearly equal", &SIZES, |gates| nearly_equal(2, gates)),
        ("chained operands", &CHAINED, |gates| {
            two(|random| chained(random, gates))
        }),
        ("few pairs", &SIZES, |gates| {
            two(|random| few(random, gates))
        }),
        ("colliding operands", &COLLIDING, colliding),
    ];
    for (name, sizes, make) in kinds {
        for &gates in sizes {
            let name = format!("2 x {gates}, {name}");
            calls.push(named(name, 2 * gates, move || make(gates)));
        }
    }
    let many: [(&str, Make); 3] = [
        ("random operands", |gates| {
            composed(64, |random| wide(random, gates))
        }),
        ("nearly equal", |gates| nearly_equal(64, gates)),
        ("few pairs", |gates| {
            composed(64, |random| few(random, gates))
        }),
    ];
    for (name, make) in many {
        for gates in OF_64 {
            let name = format!("64 x {gates}, {name}");
            calls.push(named(name, 64 * gates, move || make(gates)));
        }
    }
    calls.extend(refused());
    calls
}

/// Calls whose size is the bytes of their texts.
pub fn of_bytes() -> Vec<Named> {
    let case = || Case::of(MODEL, &[FIRST, SECOND]);
    let mut calls = vec![named("the requirements' case".into(), 0, case)];
    for inputs in [1_000, 30_000, 1_000_000] {
        let name = format!("2 x {inputs} inputs by position");
        calls.push(named(name, 0, move || by_position(inputs)));
    }
    for inputs in [1_000, 30_000, 600_000] {
        let name = format!("2 x {inputs} inputs by name, shuffled");
        calls.push(named(name, 0, move || by_name(&mut random(), inputs)));
        let name = format!("2 x {inputs} private names");
        calls.push(named(name, 0, move || private(inputs, "a name")));
    }
    for (inputs, length) in [(10, 1_000), (100, 4_000), (4_000, 4_000)] {
        let name = format!("2 x {inputs} private names of {length} bytes");
        let long = "n".repeat(length);
        calls.push(named(name, 0, move || private(inputs, &long)));
    }
    for literals in [1_000, 30_000, 1_000_000] {
        let name = format!("2 x {literals} bads and constraints");
        calls.push(named(name, 0, move || {
            listed(&mut random(), literals, Order::Any)
        }));
    }
    calls
}

/// A disagreement in the last latch (18), no bad in the last witness (19), a byte too few (20).
fn refused() -> Vec<Named> {
    let mut calls = Vec::new();
    for gates in [1_000, 30_000, 1_000_000] {
        for reason in [18, 19, 20] {
            let make = move || {
                let mut random = random();
                let texts = [(); 2].map(|()| wide(&mut random, gates));
                let [first, second] = texts.map(|pairs| witness(&pairs));
                let last = 2 * LEAVES;
                let second = match reason {
                    18 => {
                        second.replacen(&format!("\n{last} {last}\n"), &format!("\n{last} 0\n"), 1)
                    }
                    19 => no_safety(&second),
                    _ => second,
                };
                Case::of(model(), &[first, second])
            };
            let name = format!("refused ({reason}), 2 x {gates}");
            calls.push(Named {
                reason,
                ..named(name, 2 * gates, make)
            });
        }
    }
    calls
}

fn random() -> Random {
    Random::new(1, "composing")
}

/// Inputs and latches, and nothing else.
fn model() -> String {
    let mut text = format!("aag {LEAVES} {INPUTS} {LATCHES} 0 0\n");
    leaves(&mut text);
    text
}

/// Each latch keeps itself, so that all witnesses agree.
fn leaves(text: &mut String) {
    for variable in 1..=LEAVES {
        let literal = 2 * variable;
        let line = match variable > INPUTS {
            true => writeln!(text, "{literal} {literal}"),
            false => writeln!(text, "{literal}"),
        };
        line.expect("a String takes all");
    }
}

/// A witness with gates of these operands, two bads and a constraint.
fn witness(pairs: &[[u64; 2]]) -> String {
    let variables = LEAVES + pairs.len();
    let mut text = format!(
        "aag {variables} {INPUTS} {LATCHES} 0 {} 2 1 0 0\n",
        pairs.len()
    );
    leaves(&mut text);
    let last = 2 * variables;
    write!(text, "{last}\n{}\n{}\n", last - 3, last - 1).expect("a String takes all");
    for (variable, [left, right]) in (LEAVES + 1..).zip(pairs) {
        writeln!(text, "{} {left} {right}", 2 * variable).expect("a String takes all");
    }
    text
}

/// The same without its two bads.
fn no_safety(witness: &str) -> String {
    let mut lines: Vec<String> = witness.lines().map(str::to_string).collect();
    lines[0] = lines[0].replace(" 2 1 0 0", " 0 1 0 0");
    lines.drain(1 + LEAVES..3 + LEAVES);
    lines.join("\n") + "\n"
}

/// So many witnesses of these gates.
fn composed(count: usize, pairs: impl Fn(&mut Random) -> Pairs) -> Case {
    let mut random = random();
    let witnesses: Vec<String> = (0..count).map(|_| witness(&pairs(&mut random))).collect();
    Case::of(model(), &witnesses)
}

fn two(pairs: impl Fn(&mut Random) -> Pairs) -> Case {
    composed(2, pairs)
}

/// Any smaller operands, of at most 4 and 3 digits, so that a million gates fit in a text.
fn wide(random: &mut Random, gates: usize) -> Pairs {
    let below = |variable: usize, most: usize| (2 * variable).min(most);
    let pair = |variable| {
        [
            random.below(below(variable, 10_000)) as u64,
            random.below(below(variable, 1_000)) as u64,
        ]
    };
    (LEAVES + 1..).take(gates).map(pair).collect()
}

/// Those just below the gate.
fn chained(random: &mut Random, gates: usize) -> Pairs {
    let pair = |variable: usize| [(); 2].map(|()| (2 * variable - 1 - random.below(6)) as u64);
    (LEAVES + 1..).take(gates).map(pair).collect()
}

/// One of four pairs, one of them also the other way round, so that all gates of all witnesses are
/// four.
fn few(random: &mut Random, gates: usize) -> Pairs {
    let pair = |_| random.choose(&[[2, 4], [4, 2], [3, 5], [7, 100], [0, 1]]);
    (0..gates).map(pair).collect()
}

/// The same gates in all witnesses, but for one in a hundred of them.
fn nearly_equal(count: usize, gates: usize) -> Case {
    let common = wide(&mut random(), gates);
    composed(count, |random| {
        let mut pairs = common.clone();
        for (variable, pair) in (LEAVES + 1..).zip(&mut pairs) {
            if random.once_in(100) {
                pair[0] = random.below((2 * variable).min(10_000)) as u64;
            }
        }
        pairs
    })
}
