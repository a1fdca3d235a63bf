//! What people call the parts of a model.

use nitrasovy::aiger_obligation::AigerTransition;
use std::collections::HashMap;

/// The bits of a state by latch: `state 5 (latches 0 and 2 are 1)`.
pub fn state(state: usize) -> String {
    let set: Vec<String> = (0..64)
        .filter(|bit| state >> bit & 1 == 1)
        .map(|bit| bit.to_string())
        .collect();
    match &set[..] {
        [] => format!("state {state} (all latches 0)"),
        [one] => format!("state {state} (only latch {one} is 1)"),
        [first @ .., last] => {
            let first = first.join(", ");
            format!("state {state} (only latches {first} and {last} are 1)")
        }
    }
}

/// The states of a list.
pub fn states(list: &[usize]) -> String {
    let list: Vec<String> = list.iter().map(usize::to_string).collect();
    if list.is_empty() {
        "none".into()
    } else {
        list.join(", ")
    }
}

/// The names of variables: inputs and latches by their number in the file, gates by their literal
/// there.
pub struct Names {
    leaves: HashMap<usize, String>,
}

impl Names {
    pub fn of(model: &AigerTransition) -> Self {
        let inputs = model.inputs.iter().enumerate();
        let latches = model.latches.iter().enumerate();
        let inputs = inputs.map(|(at, literal)| (literal / 2, format!("input {at}")));
        let latches = latches.map(|(at, latch)| (latch.current / 2, format!("latch {at}")));
        Self {
            leaves: inputs.chain(latches).collect(),
        }
    }

    pub fn of_variable(&self, variable: usize) -> String {
        match self.leaves.get(&variable) {
            Some(name) => name.clone(),
            None => format!("gate {}", 2 * variable),
        }
    }
}

#[cfg(test)]
mod tests {
    use super::*;

    #[test]
    fn states_by_their_latches() {
        assert_eq!(state(0), "state 0 (all latches 0)");
        assert_eq!(state(4), "state 4 (only latch 2 is 1)");
        assert_eq!(state(13), "state 13 (only latches 0, 2 and 3 are 1)");
        assert_eq!(
            (states(&[]), states(&[0, 3])),
            ("none".into(), "0, 3".into())
        );
    }
}
