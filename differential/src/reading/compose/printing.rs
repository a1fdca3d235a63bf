//! The text of a composition, in the form of R14.7.

use super::numbering::names;
use super::{Composition, Kind, Leaf, Texts};

const COMMENT: &str = "c\nGCC FM 2026 composed-witness baseline v1\n";

impl Composition {
    pub fn text(&self, texts: &Texts) -> Vec<u8> {
        let mut text = Vec::new();
        let mut line = |numbers: &[u64]| {
            let words: Vec<String> = numbers.iter().map(u64::to_string).collect();
            text.extend(words.join(" ").bytes());
            text.push(10);
        };
        let [inputs, latches, gates] = [
            self.numbering.inputs.len(),
            self.numbering.latches.len(),
            self.numbering.gates.len(),
        ];
        let mut current = (1..).map(|variable: u64| 2 * variable);
        let mut literals = |count: usize| -> Vec<u64> { current.by_ref().take(count).collect() };
        for literal in literals(inputs) {
            line(&[literal]);
        }
        for (literal, [next, reset]) in literals(latches).into_iter().zip(&self.latches) {
            line(&[literal, *next, *reset]);
        }
        for literal in self.bads.iter().chain(&self.constraints) {
            line(&[*literal]);
        }
        for (literal, [left, right]) in literals(gates).into_iter().zip(&self.numbering.gates) {
            line(&[literal, *left, *right]);
        }
        let header = self.header([inputs, latches, gates]);
        [header.into_bytes(), text, self.symbols(texts)].concat()
    }

    fn header(&self, [inputs, latches, gates]: [usize; 3]) -> String {
        let variables = inputs + latches + gates;
        let (bads, constraints) = (self.bads.len(), self.constraints.len());
        format!("aag {variables} {inputs} {latches} 0 {gates} {bads} {constraints} 0 0\n")
    }

    /// The names of inputs and latches, and the comment.
    fn symbols(&self, texts: &Texts) -> Vec<u8> {
        let mut symbols = Vec::new();
        let kinds = [
            ("i", Kind::Input, &self.numbering.inputs),
            ("l", Kind::Latch, &self.numbering.latches),
        ];
        for (letter, kind, leaves) in kinds {
            for (index, leaf) in leaves.iter().enumerate() {
                symbols.extend(format!("{letter}{index} ").bytes());
                symbols.extend(name(texts, kind, leaf));
                symbols.push(10);
            }
        }
        symbols.extend(COMMENT.bytes());
        symbols
    }
}

/// R8.8 for a private one; a shared one's is the mapping, in plain digits.
fn name(texts: &Texts, kind: Kind, leaf: &Leaf) -> Vec<u8> {
    match *leaf {
        Leaf::Shared(model) => format!("= {model}").into_bytes(),
        Leaf::Private {
            witness: index,
            place,
        } => {
            let witness = &texts.witnesses[index];
            let own = match (names(&witness.sections, kind)[place], kind) {
                (Some(name), _) => witness.bytes(name),
                (None, Kind::Input) => b"private-input",
                (None, Kind::Latch) => b"private-latch",
            };
            [format!("w{index}:").as_bytes(), own].concat()
        }
    }
}
