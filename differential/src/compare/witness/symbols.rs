//! Symbol lines and comments.

use super::check::text;
use super::circuits::Shape;
use super::pages::{NAMES, plain_text};
use super::{Group, Run};
use crate::compare::inputs::all_lists;

pub const FORMS: Group = Group {
    name: "witness: symbol lines of all telling parts",
    run: forms,
};

pub const TWICE: Group = Group {
    name: "witness: names given twice",
    run: twice,
};

pub const COMMENTS: Group = Group {
    name: "witness: where comments begin, and mappings",
    run: comments,
};

fn one_of_each() -> Shape {
    Shape {
        inputs: 1,
        latches: 1,
        outputs: 1,
        gates: 1,
        bads: 1,
        constraints: 1,
    }
}

/// Different counts, so that an index is held to the count of its own kind.
fn shapes() -> [Shape; 4] {
    let rising = Shape {
        inputs: 1,
        latches: 2,
        outputs: 3,
        gates: 0,
        bads: 4,
        constraints: 5,
    };
    let falling = Shape {
        inputs: 5,
        latches: 4,
        outputs: 3,
        gates: 1,
        bads: 2,
        constraints: 1,
    };
    [Shape::default(), one_of_each(), rising, falling]
}

fn forms(run: &mut Run) {
    const KINDS: [&str; 13] = [
        "i", "l", "o", "b", "c", "j", "f", "I", "x", "", "ii", "+", "\t",
    ];
    const INDEXES: [&str; 18] = [
        "0",
        "1",
        "2",
        "3",
        "4",
        "5",
        "",
        "00",
        "+0",
        "+00",
        "+4",
        "-0",
        "0x",
        "+",
        "0\t",
        "18446744073709551615",
        "18446744073709551616",
        "18446744073709551617",
    ];
    const SEPARATORS: [&str; 6] = [" ", "", "\t", "  ", " \t", "\u{b}"];
    for shape in shapes() {
        let start = plain_text(&shape);
        for kind in KINDS {
            for index in INDEXES {
                for separator in SEPARATORS {
                    for name in NAMES {
                        let line = format!("{kind}{index}{separator}{name}\n");
                        text(run, format!("{start}{line}").as_bytes());
                    }
                }
            }
        }
    }
}

/// All short lists of lines after circuits with one of each kind, and with several.
fn twice(run: &mut Run) {
    const LINES: [&str; 15] = [
        "i0 a", "i0 ", "i+0 b", "i1 a", "l0 a", "l0 ", "l1 b", "o0 a", "b0 a", "c0 a", "o0", "c",
        "", "x", " i0 a",
    ];
    let [_, one, rising, falling] = shapes();
    for (shape, longest) in [(one, 4), (rising, 3), (falling, 3)] {
        let start = plain_text(&shape);
        all_lists(&LINES, longest, |lines| {
            text(run, format!("{start}{}\n", lines.join("\n")).as_bytes());
        });
    }
    far_apart(run);
}

/// Names for all but one of many inputs and latches, then one of each: only the left-out is free.
fn far_apart(run: &mut Run) {
    let shape = Shape {
        inputs: 130,
        latches: 67,
        ..Shape::default()
    };
    let start = plain_text(&shape);
    let lines: Vec<String> = (0..130)
        .map(|index| format!("i{index} \n"))
        .chain((0..67).map(|index| format!("l{index} x\n")))
        .collect();
    for left_out in [0, 63, 64, 129, 130, 193, 194, 196] {
        let others = [&lines[..left_out], &lines[left_out + 1..]].concat();
        let named = format!("{start}{}", others.concat());
        text(run, named.as_bytes());
        for line in &lines {
            text(run, format!("{named}{line}").as_bytes());
        }
        text(run, format!("{named}i130 x\n").as_bytes());
        text(run, format!("{named}l67 x\n").as_bytes());
    }
}

fn comments(run: &mut Run) {
    const STARTS: [&str; 14] = [
        "c",
        "c ",
        " c",
        "c\t",
        "cc",
        "C",
        "c0",
        "c0 x",
        "c0 x\nc",
        "c1 x",
        "c x",
        "i0 c\nc",
        "",
        "o0 MAPPING",
    ];
    const LINES: [&str; 24] = [
        "",
        " ",
        "c",
        "MAPPING",
        " MAPPING",
        "\tMAPPING x",
        "MAPPING\tx",
        "\u{b}\u{c} MAPPING\u{b}",
        "MAPPINGS",
        "xMAPPING",
        "x MAPPING",
        "mapping",
        "MAPPIN",
        "MAPPING\u{1c}",
        "\u{0}MAPPING",
        "INTERVENTION",
        " INTERVENTION 1",
        "INTERVENTION:",
        "INTERVENTIO",
        "MAPPING INTERVENTION",
        "i0 x",
        "j0 x",
        "\u{7f}",
        "\r",
    ];
    for shape in [Shape::default(), one_of_each()] {
        let page = plain_text(&shape);
        for start in STARTS {
            all_lists(&LINES, 2, |lines| {
                let whole = format!("{page}{start}\n{}\n", lines.join("\n"));
                text(run, whole.as_bytes());
            });
            text(run, format!("{page}{start}\n").as_bytes());
            text(run, format!("{page}{start}").as_bytes());
        }
        for line in LINES {
            let whole = format!("{page}c\n{}{line}\n{}", "x\n".repeat(20), "y\n".repeat(20));
            text(run, whole.as_bytes());
        }
    }
}
