/// Appended by the build: the private functions of this file, for the comparison.
pub mod access {
    use super::ComposedWitnessError;
    use std::collections::BTreeMap;
    use std::str::Lines;

    /// The number reader of the witness reader.
    pub fn parse_number(value: &str) -> Option<usize> {
        super::parse_number(Some(value), "number").ok()
    }

    /// The reader of a line with one literal.
    pub fn take_literal(lines: &mut Lines<'_>) -> Option<usize> {
        super::take_literal(lines, "literal").ok()
    }

    /// What the witness reader reads: current, next and reset of a latch; output, left and right of
    /// a gate.
    pub struct Circuit {
        pub max_variable: usize,
        pub inputs: Vec<usize>,
        pub latches: Vec<[usize; 3]>,
        pub outputs: Vec<usize>,
        pub bads: Vec<usize>,
        pub constraints: Vec<usize>,
        pub gates: Vec<[usize; 3]>,
        pub input_names: BTreeMap<usize, String>,
        pub latch_names: BTreeMap<usize, String>,
    }

    /// The witness reader. `witness` is false for a model.
    pub fn read_aag(bytes: &[u8], witness: bool) -> Option<Circuit> {
        let circuit = super::parse_aag(bytes, witness).ok()?;
        let latches = circuit.latches.iter();
        let gates = circuit.gates.iter();
        Some(Circuit {
            max_variable: circuit.max_variable,
            latches: latches
                .map(|latch| [latch.current, latch.next, latch.reset])
                .collect(),
            gates: gates
                .map(|gate| [gate.output, gate.left, gate.right])
                .collect(),
            inputs: circuit.inputs,
            outputs: circuit.outputs,
            bads: circuit.bads,
            constraints: circuit.constraints,
            input_names: circuit.input_names,
            latch_names: circuit.latch_names,
        })
    }

    /// The witness reader, without what it read. `witness` is false for a model.
    pub fn parse_aag(bytes: &[u8], witness: bool) -> Result<(), ComposedWitnessError> {
        super::parse_aag(bytes, witness).map(|_| ())
    }
}
