//! What the witness reader takes from a text, as lists.

/// M, the sections in file order, and the names of inputs and latches by index.
#[derive(Clone, Debug, Default, Eq, PartialEq)]
pub struct Sections {
    pub variables: u64,
    pub inputs: Vec<u64>,
    pub latches: Vec<Latch>,
    pub outputs: Vec<u64>,
    pub bads: Vec<u64>,
    pub constraints: Vec<u64>,
    /// Output, left and right of each gate.
    pub gates: Vec<[u64; 3]>,
    pub input_names: Vec<Option<Name>>,
    pub latch_names: Vec<Option<Name>>,
}

#[derive(Clone, Copy, Debug, Eq, PartialEq)]
pub struct Latch {
    pub current: u64,
    pub next: u64,
    pub reset: u64,
}

/// Where a name stands in the text. It may have no bytes.
#[derive(Clone, Copy, Debug, Eq, PartialEq)]
pub struct Name {
    pub offset: usize,
    pub length: usize,
}

impl Sections {
    /// The words of the library's form: names of inputs, names of latches, next and reset of each
    /// latch, outputs, bads, constraints, left and right of each gate.
    pub fn words(&self) -> Vec<u64> {
        let mut words = Vec::new();
        for name in self.input_names.iter().chain(&self.latch_names) {
            let (offset, length) = name.map_or((0, 0), |name| (name.offset, name.length));
            words.extend([offset as u64, length as u64]);
        }
        for latch in &self.latches {
            words.extend([latch.next, latch.reset]);
        }
        for list in [&self.outputs, &self.bads, &self.constraints] {
            words.extend(list);
        }
        for &[_, left, right] in &self.gates {
            words.extend([left, right]);
        }
        words
    }

    /// "Definitions are consecutive: inputs, latches, gates."
    pub fn consecutive(&self) -> bool {
        let inputs = self.inputs.iter().copied();
        let latches = self.latches.iter().map(|latch| latch.current);
        let gates = self.gates.iter().map(|gate| gate[0]);
        let mut defined = inputs.chain(latches).chain(gates).zip(1..);
        defined.all(|(literal, variable)| literal == 2 * variable)
    }
}
