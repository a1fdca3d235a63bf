//! The reader on initializers, on what is lent, and on random texts.

use super::check::{Lent, Record, read, steps, validate};
use super::circuits::{any_plan, make, small_shape, wide_shape};
use super::pages::{Page, add_bytes, damage_bytes};
use super::steps::some_steps;
use super::{Group, K, Q, Run};

pub const INITIALIZERS: Group = Group {
    name: "read: initializers",
    run: initializers,
};

pub const LENT: Group = Group {
    name: "read: gate and work words around what is needed",
    run: lent_words,
};

pub const RANDOM: Group = Group {
    name: "read: random circuits",
    run: random,
};

pub const DAMAGED: Group = Group {
    name: "read: damaged circuits",
    run: damaged,
};

fn initializers(run: &mut Run) {
    const LITERALS: [&str; 14] = [
        "0", "1", "2", "4", "00", "01", "+0", "+1", "+2", "02", "+4", "04", "004", "x",
    ];
    const INITIALIZERS: [&str; 22] = [
        "",
        "0",
        "1",
        "2",
        "3",
        "4",
        "5",
        "00",
        "01",
        "+0",
        "+1",
        "+2",
        "02",
        "+4",
        "04",
        "+04",
        "-0",
        "0x",
        "x",
        "4 4",
        "0 0",
        "18446744073709551616",
    ];
    for literal in LITERALS {
        for next in LITERALS {
            for initializer in INITIALIZERS {
                for end in ["\n", " \n", "\r\n", ""] {
                    let text = format!("aag 2 1 1 0 0\n2\n{literal} {next} {initializer}{end}");
                    let lent = Lent::enough_for(&mut run.random, text.as_bytes());
                    read(run, text.as_bytes(), &lent);
                }
            }
        }
    }
}

/// Every number of lent words around what the header needs, with texts that are refused for each
/// of the reasons before and after 7.
fn lent_words(run: &mut Run) {
    let texts: [&[u8]; 14] = [
        K,
        Q,
        b"aag 1 0 1 0 0\n2 2\n",
        b"aag 3 1 1 1 1\n2\n4 6\n6\n6 4 2\xff\n",
        b"aag 3 1 1 1\n2\n4 6\n6\n6 4 2\n",
        b"aag 3 1 1 1 2\n2\n4 6\n6\n6 4 2\n",
        b"aag 3 1 0 1 2\n2\n6\n6 4 2\n4 2 2\n",
        b"aag 3 1 1 1 1\n2\n4 6\n6\n6 4\n",
        b"aag 3 1 1 1 1\n2\n4 6\n6\n6 4 6\n",
        b"aag 3 1 1 1 1\n2\n4 6\n6\n4 2 2\n",
        b"aag 3 1 1 1 1\n2\n4 6\n6\n",
        b"aag 3 1 1 1 1\n3\n4 6\n6\n6 4\n",
        b"aag 1000000 1 1 0 999998\n",
        b"aag 1000000 0 1 0 999999\n3 2\n",
    ];
    for text in texts {
        for gate_words in 0..=10 {
            for work_words in 0..=8 {
                let lent = Lent::of(&mut run.random, gate_words, work_words);
                read(run, text, &lent);
            }
        }
    }
    // 3A is taken without wrapping: these A are outside the limits, whatever is lent.
    for gates in [
        6148914691236517205_u64,
        6148914691236517206,
        12297829382473034411,
        u64::MAX - 1,
    ] {
        for variables in [gates.wrapping_add(1), 0, 1, 1000] {
            let text = format!("aag {variables} 0 1 0 {gates}\n2 2\n");
            let lent = Lent::of(&mut run.random, 4, 4);
            read(run, text.as_bytes(), &lent);
        }
    }
}

/// Compares a text, then the validation and some steps of the circuit, where it is one.
fn follow(run: &mut Run, text: &[u8], lent: &Lent) {
    let Some(circuit) = read(run, text, lent) else {
        return;
    };
    let record = Record::of(&mut run.random, &circuit);
    validate(run, &record);
    let cases = some_steps(&mut run.random, &circuit, 3);
    steps(run, &record, &cases);
}

fn random(run: &mut Run) {
    for case in 0..run.cases {
        let shape = match case % 8 {
            0 => wide_shape(&mut run.random),
            _ => small_shape(&mut run.random),
        };
        let plan = any_plan(&mut run.random, shape);
        let circuit = make(&mut run.random, &plan);
        let mut page = Page::of(&circuit);
        page.add_initializers(&mut run.random, &circuit, false);
        page.add_ignored(&mut run.random);
        let mut text = page.dressed(&mut run.random);
        if run.random.once_in(4) {
            add_bytes(&mut run.random, &mut text);
        }
        let lent = Lent::enough_for(&mut run.random, &text);
        follow(run, &text, &lent);
    }
}

fn damaged(run: &mut Run) {
    for case in 0..run.cases * 2 {
        let shape = match case % 16 {
            0 => wide_shape(&mut run.random),
            _ => small_shape(&mut run.random),
        };
        let plan = any_plan(&mut run.random, shape);
        let circuit = make(&mut run.random, &plan);
        let mut page = Page::of(&circuit);
        let bad = run.random.once_in(8);
        page.add_initializers(&mut run.random, &circuit, bad);
        let bytes = run.random.once_in(2);
        if !bytes || run.random.once_in(8) {
            for _ in 0..=run.random.below(2) {
                page.damage(&mut run.random);
            }
        }
        let mut text = if run.random.once_in(2) {
            page.plain()
        } else {
            page.dressed(&mut run.random)
        };
        if bytes {
            damage_bytes(&mut run.random, &mut text);
        }
        // What the circuit needed before the damage, and a little: 7 is met at times.
        let more = run.random.below(6);
        let gate_words = 3 * circuit.gates.len() + more;
        let work_words = circuit.variables + 1 + more;
        let lent = Lent::of(&mut run.random, gate_words, work_words);
        follow(run, &text, &lent);
    }
}
