//! Texts of circuits, as lines of fields: whole, damaged, and written down plainly or not.

use crate::circuit::Circuit;
use crate::compare::inputs::{damage, random_blanks};
use crate::random::Random;

/// The lines of a text, the header first, as fields.
#[derive(Clone, Debug)]
pub struct Page(pub Vec<Vec<String>>);

impl Page {
    pub fn of(circuit: &Circuit) -> Self {
        let mut lines = vec![header(circuit.counts())];
        lines.extend(circuit.inputs.iter().map(|literal| row(&[*literal])));
        let latches = circuit.latches.iter();
        lines.extend(latches.map(|latch| row(&[latch.current, latch.next])));
        lines.extend(circuit.outputs.iter().map(|literal| row(&[*literal])));
        lines.extend(circuit.gates.iter().map(|gate| row(gate)));
        Self(lines)
    }

    /// Each line's fields with one space between them, and byte 10.
    pub fn plain(&self) -> Vec<u8> {
        let mut text = Vec::new();
        for fields in &self.0 {
            text.extend(fields.join(" ").bytes());
            text.push(10);
        }
        text
    }

    /// The same fields written in other ways: blanks, plus signs, zeros, byte 13, no last byte 10.
    pub fn dressed(&self, random: &mut Random) -> Vec<u8> {
        let mut text = Vec::new();
        for fields in &self.0 {
            for (place, field) in fields.iter().enumerate() {
                if place > 0 || random.once_in(8) {
                    random_blanks(random, &mut text);
                }
                text.extend(dressed_field(random, field));
            }
            if random.once_in(8) {
                random_blanks(random, &mut text);
            }
            text.extend(random.choose::<&[u8]>(&[&[10], &[10], &[13, 10]]));
        }
        if random.once_in(4) {
            text.pop();
        }
        text
    }

    /// Gives latches initializers, some of them bad when `bad` is true.
    pub fn add_initializers(&mut self, random: &mut Random, circuit: &Circuit, bad: bool) {
        for (place, latch) in circuit.latches.iter().enumerate() {
            let own = latch.current;
            let initializer = match random.below(if bad { 9 } else { 6 }) {
                0 => continue,
                1 => "0".to_string(),
                2 => "1".to_string(),
                3 => own.to_string(),
                4 => format!("+{own}"),
                5 => format!("0{own}"),
                6 => (own + 1).to_string(),
                7 => random.choose(&["00", "01", "+0", "+1"]).to_string(),
                _ => latch.next.to_string(),
            };
            self.0[1 + circuit.inputs.len() + place].push(initializer);
        }
    }

    /// Adds lines that no reader of transitions looks at.
    pub fn add_ignored(&mut self, random: &mut Random) {
        const LINES: [&str; 6] = ["", "c", "i0 x", "2 4 6 8", "-1 \u{7f}", "aag 1 0 1 0 0"];
        for _ in 0..random.below(4) {
            self.0.push(split(random.choose(&LINES)));
        }
    }

    /// One change to lines, fields or numbers.
    pub fn damage(&mut self, random: &mut Random) {
        if self.0.is_empty() {
            return;
        }
        let place = random.below(self.0.len());
        let other = random.below(self.0.len());
        match random.below(10) {
            0 => {
                self.0.remove(place);
            }
            1 => self.0.insert(other, self.0[place].clone()),
            2 => self.0.swap(place, other),
            3 => {
                let extra = random.below(9).to_string();
                self.0[place].push(extra);
            }
            4 => {
                self.0[place].pop();
            }
            5 => self.0.insert(place, Vec::new()),
            _ => damage_number(random, &mut self.0[place]),
        }
    }
}

/// Adds bytes after a text, mostly of ASCII.
pub fn add_bytes(random: &mut Random, text: &mut Vec<u8>) {
    if text.last() != Some(&10) {
        text.push(10);
    }
    let limit = if random.once_in(6) { 256 } else { 128 };
    for _ in 0..random.below(40) {
        text.push(random.below(limit) as u8);
    }
}

/// Changes some bytes of a text.
pub fn damage_bytes(random: &mut Random, text: &mut Vec<u8>) {
    for _ in 0..=random.below(2) {
        damage(random, text);
    }
}

pub fn header(counts: [usize; 5]) -> Vec<String> {
    let mut fields = vec!["aag".to_string()];
    fields.extend(counts.iter().map(usize::to_string));
    fields
}

fn row(literals: &[u64]) -> Vec<String> {
    literals.iter().map(u64::to_string).collect()
}

fn split(line: &str) -> Vec<String> {
    line.split(' ').map(str::to_string).collect()
}

fn dressed_field(random: &mut Random, field: &str) -> Vec<u8> {
    let mut bytes = Vec::new();
    let number = field.bytes().all(|byte| byte.is_ascii_digit());
    // `0` and `1` may be initializers, which are taken in no other form.
    if number && field != "0" && field != "1" {
        if random.once_in(6) {
            bytes.push(b'+');
        }
        let zeros = random.choose(&[0, 0, 0, 1, 3]);
        bytes.resize(bytes.len() + zeros, b'0');
    }
    bytes.extend(field.bytes());
    bytes
}

/// Moves one number of a line by one or two, or puts another in its place.
fn damage_number(random: &mut Random, fields: &mut [String]) {
    if fields.is_empty() {
        return;
    }
    let field = &mut fields[random.below(fields.len())];
    let number: u64 = field.parse().unwrap_or(0);
    let changed = match random.below(8) {
        0..=2 => number.wrapping_add(1),
        3 | 4 => number.wrapping_sub(1),
        5 => number.wrapping_add(2),
        6 => random.below(20) as u64,
        _ => random.wide(),
    };
    *field = changed.to_string();
}
