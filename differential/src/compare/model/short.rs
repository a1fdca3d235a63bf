//! The reader on all short texts of a kind.

use super::check::{Lent, read};
use super::{Group, K, Q, Run};
use crate::compare::inputs::{self, all_texts, filled};

pub const HEADERS: Group = Group {
    name: "read: headers of all telling fields",
    run: headers,
};

pub const HEADER_BYTES: Group = Group {
    name: "read: all short ends of a header",
    run: header_bytes,
};

pub const BODIES: Group = Group {
    name: "read: all short texts after a header",
    run: bodies,
};

pub const LITERALS: Group = Group {
    name: "read: all literals of small circuits",
    run: literals,
};

pub const EACH_BYTE: Group = Group {
    name: "read: each byte at each place of K and Q",
    run: each_byte,
};

/// Compares a text with enough lent.
fn check(run: &mut Run, text: &[u8]) {
    let lent = Lent::enough_for(&mut run.random, text);
    read(run, text, &lent);
}

/// Five fields of a header, before lines that suffice for the smallest counts.
fn headers(run: &mut Run) {
    const FIELDS: [&str; 9] = ["0", "1", "2", "3", "+1", "00", "-1", "x", "9"];
    for number in 0..FIELDS.len().pow(5) {
        let mut rest = number;
        let mut text = "aag".to_string();
        for _ in 0..5 {
            text.push(' ');
            text.push_str(FIELDS[rest % FIELDS.len()]);
            rest /= FIELDS.len();
        }
        text.push_str("\n2 1\n4 2 3\n6 2 4\n");
        check(run, text.as_bytes());
    }
    for words in [
        "", "aag", "aa", "aagg", "AAG", "aig", "aag1", "1 aag", " aag", "\taag", "\naag",
    ] {
        for counts in [
            "",
            " 1",
            " 1 0 1 0",
            " 1 0 1 0 0",
            " 1 0 1 0 0 0",
            " 1 0 1 0 0 x",
            "1 0 1 0 0",
        ] {
            check(run, format!("{words}{counts}\n2 1\n").as_bytes());
            check(run, format!("{words}{counts}").as_bytes());
        }
    }
}

fn header_bytes(run: &mut Run) {
    for start in ["aag 1 0 1 ", "aag 2 0 1 0 ", "aag 1 0 ", "aa"] {
        all_texts(&[b'0', b'1', b'+', b' ', 10, 13, b'g'], 5, |end| {
            let text = [start.as_bytes(), end, b"\n2 1\n4 2 2\n"].concat();
            check(run, &text);
        });
    }
    all_texts(&[b'a', b'g', b' ', 9, 10, 13, 127, 128], 4, |text| {
        check(run, text)
    });
}

fn bodies(run: &mut Run) {
    for start in [
        "aag 1 0 1 0 0\n",
        "aag 1 0 1 0 0\n2",
        "aag 1 0 1 0 0\n2 ",
        "aag 1 0 1 1 0\n2 2\n",
        "aag 2 1 1 0 0\n2\n4",
        "aag 2 0 1 0 1\n2 4\n4 2",
    ] {
        all_texts(
            &[b'0', b'1', b'2', b'3', b'4', b'+', b' ', 10, 13],
            5,
            |end| {
                let text = [start.as_bytes(), end].concat();
                check(run, &text);
            },
        );
    }
}

/// Every number of a small circuit's lines at every value from 0 to past 2M + 1, and two gates in all orders.
fn literals(run: &mut Run) {
    for whole in [K, Q] {
        inputs::wild_literals(whole, |text| check(run, text));
    }
    const SHAPES: [(&str, usize, u64); 5] = [
        ("aag 1 0 1 1 0\n# #\n#\n", 3, 6),
        ("aag 2 1 1 1 0\n#\n# #\n#\n", 4, 8),
        ("aag 2 0 1 0 1\n# #\n# # #\n", 5, 8),
        ("aag 2 0 2 0 0\n# #\n# #\n", 4, 8),
        ("aag 2 1 1 0 0\n#\n# # #\n", 4, 8),
    ];
    for (form, numbers, limit) in SHAPES {
        for number in 0..limit.pow(numbers as u32) {
            check(run, filled(form, number, limit).as_bytes());
        }
    }
    // Two gates, listed in either order or with one output twice, and all operands up to 2M + 1.
    for outputs in [[6, 8], [8, 6], [6, 6], [8, 8]] {
        let [first, second] = outputs;
        let form = format!("aag 4 1 1 0 2\n2\n4 9\n{first} # #\n{second} # #\n");
        for number in 0..10_u64.pow(4) {
            check(run, filled(&form, number, 10).as_bytes());
        }
    }
}

fn each_byte(run: &mut Run) {
    let ended = b"aag 1 0 1 0 0\n2 2 2\nc\nx\n";
    for whole in [K, Q, ended] {
        inputs::each_byte(whole, |text| check(run, text));
    }
}
