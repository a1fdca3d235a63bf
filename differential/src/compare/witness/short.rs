//! All short texts of a kind.

use super::check::text;
use super::circuits::Shape;
use super::pages::plain_body;
use super::{Group, Run, W};
use crate::compare::inputs::{self, all_lists, all_texts, all_words, filled};
use crate::compare::model::K;
use crate::reading::witness::counts;

pub const HEADERS: Group = Group {
    name: "witness: headers of all telling fields",
    run: headers,
};

pub const HEADER_BYTES: Group = Group {
    name: "witness: all short ends of a header",
    run: header_bytes,
};

pub const BODIES: Group = Group {
    name: "witness: all short texts after a header",
    run: bodies,
};

pub const TAILS: Group = Group {
    name: "witness: all short texts after the gates",
    run: tails,
};

pub const LITERALS: Group = Group {
    name: "witness: all literals of small circuits",
    run: literals,
};

pub const EACH_BYTE: Group = Group {
    name: "witness: each byte at each place of texts",
    run: each_byte,
};

/// Headers of up to ten counts, each before the lines that its counts ask for.
fn headers(run: &mut Run) {
    const FIELDS: [&str; 9] = ["0", "1", "2", "3", "+1", "+02", "00", "01", "x"];
    all_words(&FIELDS, 5, |counts| {
        header(run, &format!("aag {}", counts.join(" ")))
    });
    for start in ["aag 1 1 0 0 0", "aag 2 0 1 1 1", "aag 0 0 0 0 0"] {
        all_lists(&["0", "1", "2", "+1", "01", "-1"], 5, |counts| {
            header(run, &format!("{start} {}", counts.join(" ")));
        });
    }
    for words in [
        "",
        "aag",
        "aa",
        "aagg",
        "AAG",
        "aig",
        "aag1",
        "1 aag",
        " aag",
        "\taag",
        "\u{b}aag ",
        "aag\u{1c}",
        "aag\r",
        "\naag",
        "c\naag",
    ] {
        for counts in [
            "",
            " 1",
            " 1 0 1 0",
            " 1 0 1 0 0",
            " 1 0 1 0 0 0",
            "\t1\u{b}0\u{c}1  0 0 ",
            " 1 0 1 0 0\u{1c}0",
            " 1 0 1 0 0 0 0 0 0",
            " 1 0 1 0 0 0 0 0 0 0",
            " 1 0 1 0 0 x",
            "1 0 1 0 0",
        ] {
            text(run, format!("{words}{counts}\n2 1\n").as_bytes());
            text(run, format!("{words}{counts}\n").as_bytes());
        }
    }
}

fn header(run: &mut Run, line: &str) {
    let line = format!("{line}\n");
    let body = counts(line.as_bytes()).map(|counts| {
        plain_body(&Shape {
            inputs: counts.inputs as usize,
            latches: counts.latches as usize,
            outputs: counts.outputs as usize,
            gates: counts.gates as usize,
            bads: counts.bads as usize,
            constraints: counts.constraints as usize,
        })
    });
    text(run, (line + &body.unwrap_or_default()).as_bytes());
}

fn header_bytes(run: &mut Run) {
    for start in [
        "aag 1 0 1 ",
        "aag 1 0 1 0 0",
        "aag 1 0 1 0 0 0 0 0 ",
        "aag 2 1 0 0 ",
        "aag 1 0 1 0 0 1",
    ] {
        all_texts(&[b'0', b'1', b'+', b' ', 9, 10, 13], 5, |end| {
            let changed = [start.as_bytes(), end, b"\n2 1\n2\n"].concat();
            text(run, &changed);
        });
    }
    all_texts(&[b'a', b'g', b' ', 9, 10, 13, 127, 128], 4, |start| {
        text(run, start);
        text(run, &[start, b"\n"].concat());
        text(run, &[start, b" 0 0 0 0 0\n"].concat());
    });
}

fn bodies(run: &mut Run) {
    for start in [
        "aag 0 0 0 0 0\n",
        "aag 0 0 0 2 0\n",
        "aag 1 1 0 0 0 1 1\n2\n",
        "aag 1 0 1 0 0\n",
        "aag 1 0 1 0 0\n2",
        "aag 1 0 1 1 0\n2 2\n",
        "aag 2 1 1 0 0\n2\n4",
        "aag 2 1 0 0 1\n2\n4 2",
        "aag 2 1 0 0 1\n2\n",
    ] {
        all_texts(
            &[b'0', b'1', b'2', b'3', b'4', b'+', b' ', 10, 11],
            5,
            |end| {
                let whole = [start.as_bytes(), end, b"\n"].concat();
                text(run, &whole);
                if end.len() < 4 {
                    text(run, &whole[..whole.len() - 1]);
                }
            },
        );
    }
}

/// Symbols and comments, of a circuit with one of each kind and one with none.
fn tails(run: &mut Run) {
    const ONE: &str = "aag 2 1 1 1 0 1 1\n2\n4 4\n0\n0\n0\n";
    const NONE: &str = "aag 0 0 0 0 0\n";
    let mut all = |start: &str, bytes: &[u8], longest: usize| {
        all_texts(bytes, longest, |end| {
            let whole = [start.as_bytes(), end, b"\n"].concat();
            text(run, &whole);
            if end.len() < 3 {
                text(run, &whole[..whole.len() - 1]);
            }
        });
    };
    let telling = b"ilobcjf01+ x\n";
    all(ONE, telling, 5);
    all(NONE, telling, 4);
    all(ONE, b"i0 \ncl", 7);
    for symbol in [
        "i0 x",
        "l0 ",
        "o0 x",
        "c0 x",
        "c",
        "i0 x\nl0 y\nc0 z",
        "c\nMAPPIN",
    ] {
        all(&format!("{ONE}{symbol}\n"), telling, 4);
        all(&format!("{ONE}{symbol}"), b"i0 \ncG", 4);
    }
}

/// Every number of a small circuit's lines at every value from 0 to past 2M + 1.
fn literals(run: &mut Run) {
    const FORMS: [(&str, u32, u64); 6] = [
        ("aag 1 0 1 1 0 1 1\n# # #\n#\n#\n#\n", 6, 6),
        ("aag 2 1 1 0 0\n#\n# # #\n", 4, 8),
        ("aag 2 1 0 1 1\n#\n#\n# # #\n", 5, 8),
        ("aag 3 1 1 0 1\n2\n4 # #\n# # #\n", 5, 10),
        ("aag 2 0 0 0 2\n# # #\n# # #\n", 6, 6),
        ("aag 3 1 0 0 2\n2\n4 # #\n6 # #\n", 4, 10),
    ];
    for (form, numbers, limit) in FORMS {
        for number in 0..limit.pow(numbers) {
            text(run, filled(form, number, limit).as_bytes());
        }
    }
    inputs::wild_literals(W, |changed| text(run, changed));
}

fn each_byte(run: &mut Run) {
    let plain = b"aag 2 1 1 0 0\n2\n4 2\ni0 \nl0 x\nc\n MAPPING\n";
    for whole in [K, W, plain] {
        inputs::each_byte(whole, |changed| text(run, changed));
    }
}
