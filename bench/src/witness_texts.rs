//! The texts of witnesses that are measured.

use crate::texts::{Text, filled, text};
use differential::compare::model::circuits::{Operands, Order, arrange};
use differential::compare::witness::W;
use differential::compare::witness::circuits::{Shape, make};
use differential::compare::witness::pages::{Page, plain_text};
use differential::random::Random;
use differential::reading::LONGEST_TEXT;

/// How many variables the circuits have. With more, mostly gates, a text would be too long.
const SIZES: [usize; 4] = [100, 1_000, 30_000, 900_000];
const NAMES: [usize; 5] = [10, 1_000, 30_000, 100_000, 1_000_000];
/// How many bytes of comments there are.
const COMMENTS: [usize; 3] = [10_000, 1_000_000, 16_000_000];

const ORDERS: [(Order, &str); 3] = [
    (Order::Rising, "in order"),
    (Order::Falling, "reversed"),
    (Order::Any, "shuffled"),
];

/// All texts, each made when it is measured.
pub fn all() -> Vec<Text> {
    let mut texts = vec![
        text("3 lines", || b"aag 1 0 1 1 0\n2 2\n3\n".to_vec()),
        text("one of each kind, names, comment", || W.to_vec()),
    ];
    for size in SIZES {
        let name = format!("short operands, {size} variables");
        texts.push(text(name, move || mapped(page(size, Operands::Short))));
    }
    for size in [100, 1_000, 30_000, 700_000] {
        let name = format!("chained operands, {size} variables");
        texts.push(text(name, move || mapped(page(size, Operands::Near))));
    }
    for inputs in [20_000, 200_000, 2_000_000] {
        let name = format!("inputs only, {inputs} variables");
        texts.push(text(name, move || inputs_only(inputs).into()));
    }
    texts.push(text("all kinds, 2000000 variables", mixed));
    texts.extend(padded());
    for (order, word) in ORDERS {
        for count in NAMES {
            let name = format!("{count} names {word}");
            texts.push(text(name, move || named(count, order).into()));
        }
    }
    texts.extend(commented());
    texts.extend(refused());
    texts
}

/// The shape of a witness: few inputs, more latches, mostly gates, a bad and some constraints.
fn page(size: usize, operands: Operands) -> Page {
    let (inputs, latches) = (size / 50, size / 20);
    let shape = Shape {
        inputs,
        latches,
        outputs: 1,
        gates: size - inputs - latches,
        bads: 1,
        constraints: size / 100,
    };
    Page::of(&make(&mut random(), &shape, operands, false))
}

/// The page's text, with a name for each input and latch that maps it to one of a model.
fn mapped(mut page: Page) -> Vec<u8> {
    let number = |place: usize| page.sections.0[0][place].parse::<usize>();
    let (inputs, latches) = (number(2).expect("I"), number(3).expect("L"));
    for (kind, count, first) in [('i', inputs, 1), ('l', latches, inputs + 1)] {
        let lines = (0..count).map(|index| format!("{kind}{index} = {}", 2 * (first + index)));
        page.tail.extend(lines);
    }
    page.plain()
}

fn random() -> Random {
    Random::new(1, "witnesses")
}

fn inputs_only(inputs: usize) -> String {
    plain_text(&Shape {
        inputs,
        ..Shape::default()
    })
}

/// As many variables as there may be. Most are inputs, whose lines are short.
fn mixed() -> Vec<u8> {
    let shape = Shape {
        inputs: 1_800_000,
        latches: 100_000,
        outputs: 1,
        gates: 100_000,
        bads: 1,
        constraints: 10_000,
    };
    plain_text(&shape).into()
}

/// W filled up to the longest text in several places.
fn padded() -> Vec<Text> {
    let whole = std::str::from_utf8(W).expect("ASCII");
    let (sections, symbols) = whole.split_once("i0 ").expect("a name");
    let (header, _) = whole.split_once('\n').expect("a header");
    let (start, end) = whole.split_at(header.len());
    let name = format!("{sections}i0 ");
    let (counts, rest) = whole.split_at(4);
    let forms = [
        ("blanks in front of the header", String::new(), b' ', whole),
        ("blanks behind the header", start.to_string(), b' ', end),
        ("zeros of a count", format!("{counts}+"), b'0', rest),
        ("one name", name, b'x', symbols),
    ];
    let padded = forms.map(|(name, start, fill, end)| {
        let end = end.to_string();
        text(format!("filled, {name}"), move || {
            filled(&start, fill, &end)
        })
    });
    padded.into()
}

/// Inputs and a line that names each, in this order. Names have no bytes, so that 1,000,000 fit.
fn named(count: usize, order: Order) -> String {
    let mut indexes: Vec<u64> = (0..count as u64).collect();
    arrange(&mut random(), &mut indexes, order);
    let lines = indexes.iter().map(|index| format!("i{index} \n"));
    inputs_only(count) + &lines.collect::<String>()
}

/// W with so many bytes of comments: lines without a byte, short ones, and one that is long.
fn commented() -> Vec<Text> {
    let mut texts = Vec::new();
    for size in COMMENTS {
        for (name, line, lines) in [
            ("empty lines", "\n", size),
            ("lines of 15", "a comment, 15 b\n", size / 16),
        ] {
            let name = format!("comments {size} bytes, {name}");
            texts.push(text(name, move || {
                [W, line.repeat(lines).as_bytes()].concat()
            }));
        }
        for (name, fill) in [("one line", "x"), ("blank line", " ")] {
            let name = format!("comments {size} bytes, {name}");
            texts.push(text(name, move || {
                [W, fill.repeat(size).as_bytes(), b"\n"].concat()
            }));
        }
    }
    texts.push(text("filled, comments of 7 bytes a line", || {
        let lines = (LONGEST_TEXT - W.len()) / 8;
        let mut commented = [W, "comment\n".repeat(lines).as_bytes()].concat();
        commented.resize(LONGEST_TEXT - 1, b'x');
        commented.push(10);
        commented
    }));
    texts
}

/// Texts with a fault in their last line, each with the number of its reason.
fn refused() -> Vec<Text> {
    let mut texts = Vec::new();
    for size in [1_000, 30_000, 900_000] {
        // A field too few; an operand that is the gate itself.
        for reason in [8, 11] {
            let make = move || {
                let mut page = page(size, Operands::Short);
                let last = page.sections.0.last_mut().expect("a gate");
                match reason {
                    8 => last.truncate(2),
                    _ => last[2] = last[0].clone(),
                }
                page.plain()
            };
            texts.push(refusal(reason, format!("{size} variables"), make));
        }
    }
    for count in NAMES {
        for (order, word) in ORDERS {
            let make = move || (named(count, order) + "i0 x\n").into();
            texts.push(refusal(9, format!("{count} names {word}"), make));
        }
    }
    for size in COMMENTS {
        let make = move || {
            let lines = "a comment, 15 b\n".repeat(size / 16);
            [W, lines.as_bytes(), b"MAPPING\n"].concat()
        };
        texts.push(refusal(10, format!("comments {size} bytes"), make));
    }
    texts
}

fn refusal(reason: u64, name: String, make: impl Fn() -> Vec<u8> + 'static) -> Text {
    Text {
        reason,
        ..text(format!("refused ({reason}), {name}"), make)
    }
}
