//! The transition reader.

use crate::circuits::{model, spaced, text, theirs};
use crate::published::aiger_obligation as original;
use crate::random::Random;
use nitrasovy::aiger_obligation::parse_ascii_aiger_transition;

/// Reads with both; whether it was accepted.
fn compare(text: &[u8]) -> bool {
    let ours = parse_ascii_aiger_transition(text).ok();
    let expected = original::parse_ascii_aiger_transition(text).ok();
    let shown = String::from_utf8_lossy(&text[..text.len().min(300)]);
    assert_eq!(ours.as_ref().map(theirs), expected, "{shown:?}");
    ours.is_some()
}

#[test]
fn whole_texts_are_read_alike() {
    let mut random = Random::of("whole texts");
    for _ in 0..3_000 {
        let model = model(&mut random, 12);
        let mut text = text(&model);
        if random.once_in(2) {
            text = text.replace(' ', random.choose(&["\t", "  ", " +", " 0", "\x0b "]));
        }
        if random.once_in(2) {
            text.push_str(random.choose(&["i0 name\n", "c\nany\n", "\n", "\r\n", "no line feed"]));
        }
        if random.once_in(8) {
            text = text.replace('\n', "\r\n");
        }
        assert!(compare(text.as_bytes()), "{text}");
    }
}

/// Changes a byte, a field, or a line of a text. Fields of the first line stay small: the original
/// reserves memory for what they say.
pub fn damage(random: &mut Random, text: &str) -> Vec<u8> {
    let mut lines: Vec<String> = text.lines().map(str::to_string).collect();
    let at = random.below(lines.len());
    let mut fields: Vec<String> = lines[at].split(' ').map(str::to_string).collect();
    let field = random.below(fields.len());
    let small = [
        "0", "1", "2", "3", "07", "+7", "-1", "x", "", "64", "65", "129",
    ];
    let large = ["18446744073709551615", "18446744073709551616", "4294967296"];
    match random.below(7) {
        0 => drop(lines.remove(at)),
        1 => lines.insert(at, random.below(20).to_string()),
        2 => lines.swap(0, at),
        3 => lines[at].push_str(" 1"),
        4 if at > 0 => {
            fields[field] = random.choose(&large).to_string();
            lines[at] = fields.join(" ");
        }
        5 => {
            let mut bytes = text.as_bytes().to_vec();
            let place = random.below(bytes.len());
            bytes[place] = random.choose(b"\0\t\n\r 012aicl=+\x7f\x80\xff");
            return bytes;
        }
        _ => {
            fields[field] = random.choose(&small).to_string();
            lines[at] = fields.join(" ");
        }
    }
    let end = if random.once_in(6) { "" } else { "\n" };
    (lines.join("\n") + end).into_bytes()
}

#[test]
fn damaged_texts_are_read_alike() {
    let mut random = Random::of("damaged texts");
    let mut accepted = 0;
    for _ in 0..8_000 {
        let model = model(&mut random, 6);
        accepted += usize::from(compare(&damage(&mut random, &text(&model))));
    }
    assert!((300..6_000).contains(&accepted), "{accepted} of 8000");
}

#[test]
fn texts_around_the_limits_are_read_alike() {
    for inputs in [64, 65] {
        for latches in [0, 8, 9] {
            for outputs in [128, 129] {
                let variables = inputs + latches;
                let mut text = format!(
                    "aag {}\n",
                    spaced(&[variables, inputs, latches, outputs, 0])
                );
                (1..=inputs).for_each(|variable| text.push_str(&format!("{}\n", 2 * variable)));
                for variable in inputs + 1..=variables {
                    text.push_str(&format!("{} 3\n", 2 * variable));
                }
                text.push_str(&"4\n".repeat(outputs));
                compare(text.as_bytes());
            }
        }
    }
    for bytes in [16_777_215, 16_777_216, 16_777_217] {
        let mut text = b"aag 1 0 1 0 0\n2 3\n".to_vec();
        text.resize(bytes, b'\n');
        assert_eq!(compare(&text), bytes <= 16_777_216);
    }
}

/// A chain of gates up to the limit of variables.
#[test]
fn large_texts_are_read_alike() {
    for variables in [100_000usize, 1_000_000, 1_000_001] {
        let mut text = format!(
            "aag {variables} 0 1 1 {}\n2 {}\n5\n",
            variables - 1,
            2 * variables
        );
        for gate in 2..=variables {
            // Short operands, so that the longest text is within the limit of bytes.
            text.push_str(&format!("{} {} 2\n", 2 * gate, 2 * gate.min(4_000) - 1));
        }
        assert_eq!(compare(text.as_bytes()), variables <= 1_000_000);
    }
}
