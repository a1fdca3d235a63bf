//! Mapping by position and by name, and the names of what is private.

use super::check::texts;
use super::{Group, Run};
use crate::compare::inputs::{all_lists, all_words};

pub const NAMES: Group = Group {
    name: "compose: names of all telling forms",
    run: names,
};

pub const MIXED: Group = Group {
    name: "compose: names of several inputs and latches",
    run: mixed,
};

pub const PRIVATE: Group = Group {
    name: "compose: private names and surplus",
    run: private,
};

/// Two inputs, two latches, a gate, an output.
const MODEL: &str = "aag 5 2 2 1 1\n2\n4\n6 2\n8 4\n2\n10 2 4\n";
const MODELS: [&str; 4] = [
    MODEL,
    "aag 0 0 0 0 0\n",
    "aag 3 3 0 0 0\n2\n4\n6\n",
    "aag 3 0 3 0 0\n2 0\n4 0\n6 0\n",
];

/// Names, of which some map: to each of the model, to what is not there, and in other forms.
const TELLING: [&str; 50] = [
    "",
    "x",
    "=",
    "= ",
    "=  ",
    "=  2",
    "= 2 ",
    "= 2\t",
    "= \t2",
    "=2",
    "=\t2",
    " = 2",
    "\t= 2",
    "== 2",
    "-= 2",
    "= = 2",
    "= 0",
    "= 1",
    "= 2",
    "= 3",
    "= 4",
    "= 5",
    "= 6",
    "= 7",
    "= 8",
    "= 9",
    "= 10",
    "= 11",
    "= 12",
    "= 100",
    "= 02",
    "= 00",
    "= +2",
    "= +02",
    "= +0002",
    "= +0",
    "= ++2",
    "= -2",
    "= +",
    "= x",
    "= 2x",
    "= 2 4",
    "= 2.",
    "= 4000002",
    "= 18446744073709551614",
    "= 18446744073709551615",
    "= 18446744073709551616",
    "= 18446744073709551618",
    "= 2=",
    "w0:= 2",
];

/// A witness with so many inputs and latches. Each latch keeps itself; the last variable is bad.
fn witness(inputs: usize, latches: usize, symbols: &str) -> String {
    let count = inputs + latches;
    let mut text = format!("aag {count} {inputs} {latches} 0 0 1\n");
    for variable in 1..=count {
        let literal = 2 * variable;
        text += &match variable > inputs {
            true => format!("{literal} {literal}\n"),
            false => format!("{literal}\n"),
        };
    }
    format!("{text}{}\n{symbols}", 2 * count)
}

/// Each name for an input and for a latch, and each two, in either witness.
fn names(run: &mut Run) {
    let other = witness(1, 1, "i0 = 2\nl0 = 6\n");
    let plain = witness(2, 2, "");
    for model in MODELS {
        for first in TELLING {
            for kind in ["i0", "i1", "l0", "l1", "b0", "o0", "c0"] {
                let named = witness(2, 2, &format!("{kind} {first}\n"));
                texts(run, model, &[&named, &other]);
                texts(run, model, &[&plain, &named]);
                texts(run, model, &[&named, &named]);
            }
        }
    }
    for first in TELLING {
        for second in TELLING {
            for kinds in [["i0", "i1"], ["i0", "l0"], ["l1", "l0"]] {
                let [one, two] = kinds;
                let named = witness(2, 2, &format!("{one} {first}\n{two} {second}\n"));
                texts(run, MODEL, &[&named, &plain]);
            }
        }
    }
}

/// All choices of few names for two inputs and two latches, in one witness and in both.
fn mixed(run: &mut Run) {
    const FEW: [Option<&str>; 6] = [
        None,
        Some("x"),
        Some("= 2"),
        Some("= 4"),
        Some("= 6"),
        Some("= +08"),
    ];
    let named = |names: &[Option<&str>]| {
        let places = ["i0", "i1", "l0", "l1"].iter().zip(names);
        let lines = places.filter_map(|(place, name)| name.map(|name| format!("{place} {name}\n")));
        witness(2, 2, &lines.collect::<String>())
    };
    let mut all = Vec::new();
    all_words(&FEW, 4, |names| all.push(named(names)));
    let plain = witness(3, 3, "");
    for (place, first) in all.iter().enumerate() {
        texts(run, MODEL, &[first, &plain]);
        texts(run, MODEL, &[&plain, first]);
        // Every other witness would be many: some, in a fixed order.
        for step in 1..12 {
            let second = &all[(place * 7 + step * 113) % all.len()];
            texts(run, MODEL, &[first, second]);
            texts(run, MODEL, &[second, first, &plain]);
        }
    }
}

fn private(run: &mut Run) {
    const OWN: [&str; 12] = [
        "",
        " ",
        "x",
        "= ",
        "=2",
        "w0:x",
        "private-input",
        "a \t\u{b}\u{c} b ",
        "\u{0}\u{1f}\u{7f}",
        "i0 = 2",
        "c",
        "MAPPING",
    ];
    // More and fewer than the model has, named and not.
    for model in MODELS {
        for inputs in 0..5 {
            for latches in 0..5 {
                let first = witness(inputs, latches, "");
                let second = witness(latches, inputs, "");
                texts(run, model, &[&first, &second]);
                texts(run, model, &[&second, &first, &first]);
                for own in OWN {
                    let symbols = symbols(inputs, latches, own);
                    let named = witness(inputs, latches, &symbols);
                    texts(run, model, &[&first, &named]);
                    texts(run, model, &[&named, &named, &second]);
                }
            }
        }
    }
    every_byte(run);
    lists_of_symbols(run);
    two_digits(run);
}

/// The same name for every input and latch, the last ones first.
fn symbols(inputs: usize, latches: usize, own: &str) -> String {
    let latches = (0..latches).rev().map(|index| format!("l{index} {own}\n"));
    let inputs = (0..inputs).rev().map(|index| format!("i{index} {own}\n"));
    latches.chain(inputs).collect()
}

/// Each byte that a name may have, alone, in front of a name and behind it.
fn every_byte(run: &mut Run) {
    for byte in (0..128_u8).filter(|&byte| byte != 10 && byte != 13) {
        let byte = char::from(byte);
        for name in [
            format!("{byte}"),
            format!("{byte}= 2"),
            format!("= 2{byte}"),
        ] {
            let named = witness(3, 3, &format!("i2 {name}\nl2 {name}\n"));
            texts(run, MODEL, &[&named, &witness(2, 2, "")]);
        }
    }
    for length in [1, 9, 10, 99, 100, 1_000, 5_000] {
        let name = "n".repeat(length);
        let named = witness(3, 3, &format!("i2 {name}\nl2 = {name}\n"));
        texts(run, MODEL, &[&named, &named]);
    }
}

/// All short lists of symbol lines, with outputs, bads and constraints named as well.
fn lists_of_symbols(run: &mut Run) {
    const LINES: [&str; 10] = [
        "i0 = 2\n", "i0 y\n", "i1 = 2\n", "i2 \n", "l0 = 6\n", "l1 z\n", "o0 = 2\n", "b0 = 4\n",
        "c0 = x\n", "c\n",
    ];
    let start = "aag 5 3 2 1 0 1 1\n2\n4\n6\n8 8\n10 2\n2\n3\n4\n";
    all_lists(&LINES, 3, |lines| {
        let named = format!("{start}{}", lines.concat());
        texts(run, MODEL, &[named.as_str(), start]);
    });
}

/// Private names of witnesses 9, 10, 11 and 63.
fn two_digits(run: &mut Run) {
    for count in [10, 11, 12, 64] {
        let surplus = witness(3, 3, "i2 x\n");
        texts(run, MODEL, &vec![&surplus; count]);
    }
}
