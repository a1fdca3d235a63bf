//! Texts for the witness reader: lines of fields, then lines of bytes for symbols and comments.

use super::circuits::Shape;
use crate::compare::model::pages;
use crate::random::Random;
use crate::sections::Sections;

/// The header and the sections, and the lines after them.
#[derive(Clone, Debug)]
pub struct Page {
    pub sections: pages::Page,
    pub tail: Vec<String>,
}

impl Page {
    /// The sections of a circuit, with all nine counts and no line after them. A reset of 0 is not
    /// written.
    pub fn of(circuit: &Sections) -> Self {
        let mut lines = vec![header(&shape(circuit))];
        let one = |literal: &u64| vec![literal.to_string()];
        lines.extend(circuit.inputs.iter().map(one));
        lines.extend(circuit.latches.iter().map(|latch| {
            let count = if latch.reset == 0 { 2 } else { 3 };
            row(&[latch.current, latch.next, latch.reset][..count])
        }));
        lines.extend(circuit.outputs.iter().map(one));
        lines.extend(circuit.bads.iter().map(one));
        lines.extend(circuit.constraints.iter().map(one));
        lines.extend(circuit.gates.iter().map(|gate| row(gate)));
        Self {
            sections: pages::Page(lines),
            tail: Vec::new(),
        }
    }

    /// One space between fields, and byte 10 after each line.
    pub fn plain(&self) -> Vec<u8> {
        self.ended(self.sections.plain())
    }

    /// The same fields written in other ways: blanks, plus signs, and zeros after them.
    pub fn dressed(&self, random: &mut Random) -> Vec<u8> {
        let mut text = Vec::new();
        for fields in &self.sections.0 {
            for (place, field) in fields.iter().enumerate() {
                if place > 0 || random.once_in(8) {
                    blanks(random, &mut text);
                }
                if random.once_in(6) && field.bytes().all(|byte| byte.is_ascii_digit()) {
                    text.push(b'+');
                    text.resize(text.len() + random.choose(&[0, 0, 1, 3, 25]), b'0');
                }
                text.extend(field.bytes());
            }
            if random.once_in(8) {
                blanks(random, &mut text);
            }
            text.push(10);
        }
        self.ended(text)
    }

    fn ended(&self, mut text: Vec<u8>) -> Vec<u8> {
        for line in &self.tail {
            text.extend(line.bytes());
            text.push(10);
        }
        text
    }

    /// Leaves out some of the header's last counts that are 0.
    pub fn shorten_header(&mut self, random: &mut Random) {
        let header = &mut self.sections.0[0];
        while header.len() > 6 && header.last().is_some_and(|count| count == "0") {
            if random.once_in(4) {
                break;
            }
            header.pop();
        }
    }

    /// One change to the sections, or to the lines after them.
    pub fn damage(&mut self, random: &mut Random) {
        if self.tail.is_empty() || random.once_in(2) {
            self.sections.damage(random);
            return;
        }
        let place = random.below(self.tail.len());
        let other = random.below(self.tail.len());
        match random.below(6) {
            0 => {
                self.tail.remove(place);
            }
            1 => self.tail.insert(other, self.tail[place].clone()),
            2 => self.tail.swap(place, other),
            3 => self.tail[place] = random.choose(&ODD_LINES).to_string(),
            4 => self
                .tail
                .insert(place, random.choose(&ODD_LINES).to_string()),
            _ => {
                self.tail[place] =
                    self.tail[place].replacen(' ', random.choose(&["", "\t", "1 "]), 1)
            }
        }
    }
}

/// Lines that are symbols at times, comments at times, and often neither.
const ODD_LINES: [&str; 14] = [
    "", " ", "c", "c ", "c0 x", "c0", "i0", "j0 x", "f0 x", "x", "i99 x", "MAPPING", "C", "l00 x",
];

/// Names that tell rules apart.
pub const NAMES: [&str; 12] = [
    "",
    "x",
    "a b",
    " x",
    "x ",
    "= 2",
    "=",
    "c",
    "i0 x",
    "MAPPING",
    "\t",
    "a name of some length, with a \u{7f} and a \u{b} in it",
];

/// The header of a shape, with all nine counts.
pub fn header(shape: &Shape) -> Vec<String> {
    let counts = [
        shape.variables(),
        shape.inputs,
        shape.latches,
        shape.outputs,
        shape.gates,
        shape.bads,
        shape.constraints,
        0,
        0,
    ];
    let mut fields = vec!["aag".to_string()];
    fields.extend(counts.iter().map(usize::to_string));
    fields
}

/// The lines of a shape's sections, each as plain as it can be.
pub fn plain_body(shape: &Shape) -> String {
    let mut body = String::new();
    let leaves = shape.inputs + shape.latches;
    for variable in 1..=shape.inputs {
        body += &format!("{}\n", 2 * variable);
    }
    for variable in shape.inputs + 1..=leaves {
        body += &format!("{} 0\n", 2 * variable);
    }
    body += &"1\n".repeat(shape.outputs + shape.bads + shape.constraints);
    for variable in leaves + 1..=leaves + shape.gates {
        body += &format!("{} 0 1\n", 2 * variable);
    }
    body
}

/// The same after a header that has all nine counts.
pub fn plain_text(shape: &Shape) -> String {
    format!("{}\n{}", header(shape).join(" "), plain_body(shape))
}

fn shape(circuit: &Sections) -> Shape {
    Shape {
        inputs: circuit.inputs.len(),
        latches: circuit.latches.len(),
        outputs: circuit.outputs.len(),
        gates: circuit.gates.len(),
        bads: circuit.bads.len(),
        constraints: circuit.constraints.len(),
    }
}

fn row(literals: &[u64]) -> Vec<String> {
    literals.iter().map(u64::to_string).collect()
}

fn blanks(random: &mut Random, text: &mut Vec<u8>) {
    for _ in 0..=random.below(3) {
        text.push(random.choose(&[b' ', b' ', b' ', 9, 11, 12]));
    }
}
