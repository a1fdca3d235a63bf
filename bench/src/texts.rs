//! The texts that are measured.

use crate::circuits::{KINDS, SIZES, circuit, widest};
use differential::circuit::Circuit;
use differential::compare::model::pages::Page;
use differential::reading::LONGEST_TEXT;

/// A named text, and the reason with which it is refused, or 0.
pub struct Text {
    pub name: String,
    pub make: Box<dyn Fn() -> Vec<u8>>,
    pub reason: u64,
}

const K: &str = "aag 3 1 1 1 1\n2\n4 6\n6\n6 4 2\n";

/// All texts, each made when it is measured.
pub fn all() -> Vec<Text> {
    let mut texts = vec![text("K", || K.into())];
    for kind in &KINDS {
        for size in SIZES {
            let size = size.min(kind.most_in_a_text);
            let name = format!("{}, {size} variables", kind.name);
            texts.push(text(name, move || Page::of(&circuit(kind, size)).plain()));
        }
    }
    texts.push(text("64 inputs, 8 latches, 128 outputs, no gate", || {
        Page::of(&widest()).plain()
    }));
    texts.extend(padded());
    for size in SIZES {
        // One field in the place of three; a gate that defines an input's variable again.
        texts.push(refused(8, size, |circuit| vec![circuit.inputs[0]]));
        texts.push(refused(11, size, |circuit| vec![circuit.inputs[0], 0, 0]));
    }
    texts
}

/// K filled up to the longest text in several places.
fn padded() -> Vec<Text> {
    let (start, last) = K.split_at(K.len() - 2);
    let forms = [
        ("zeros in front of a number", start, b'0', last),
        ("blanks in front of a number", start, b' ', last),
        ("blanks in front of the header", "", b' ', K),
        ("empty lines after the gates", K, 10, ""),
        ("one long line after the gates", K, b'x', ""),
    ];
    let mut texts: Vec<Text> = forms
        .into_iter()
        .map(|(name, start, fill, end)| {
            text(format!("K, {name}"), move || filled(start, fill, end))
        })
        .collect();
    texts.push(text("K, lines of 15 bytes after the gates", || {
        let lines = (LONGEST_TEXT - K.len()) / 16;
        format!("{K}{}", "c this is ignor\n".repeat(lines)).into()
    }));
    texts
}

/// A text of the greatest length: a part, one byte over and over, and an end.
pub fn filled(start: &str, fill: u8, end: &str) -> Vec<u8> {
    let mut text = start.as_bytes().to_vec();
    text.resize(LONGEST_TEXT - end.len(), fill);
    text.extend(end.bytes());
    text
}

/// A text of so many variables with other fields in its last line, for which it is refused.
fn refused(reason: u64, size: usize, last: fn(&Circuit) -> Vec<u64>) -> Text {
    let name = format!("refused at the last line ({reason}), {size} variables");
    let make = move || {
        let circuit = circuit(&KINDS[0], size);
        let mut page = Page::of(&circuit);
        page.0.pop();
        page.0
            .push(last(&circuit).iter().map(u64::to_string).collect());
        page.plain()
    };
    Text {
        reason,
        ..text(name, make)
    }
}

pub fn text(name: impl Into<String>, make: impl Fn() -> Vec<u8> + 'static) -> Text {
    Text {
        name: name.into(),
        make: Box::new(make),
        reason: 0,
    }
}
