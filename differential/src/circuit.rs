//! A transition model as lists.

use crate::subject::model::Latch;

/// M, and the literals of inputs, latches, outputs and gates in file order.
#[derive(Clone, Debug, Default, Eq, PartialEq)]
pub struct Circuit {
    pub variables: usize,
    pub inputs: Vec<u64>,
    pub latches: Vec<Latch>,
    pub outputs: Vec<u64>,
    /// Output, left and right of each gate.
    pub gates: Vec<[u64; 3]>,
}

impl Circuit {
    /// Three words a gate.
    pub fn words(&self) -> &[u64] {
        self.gates.as_flattened()
    }

    /// M I L O A.
    pub fn counts(&self) -> [usize; 5] {
        [
            self.variables,
            self.inputs.len(),
            self.latches.len(),
            self.outputs.len(),
            self.gates.len(),
        ]
    }
}
