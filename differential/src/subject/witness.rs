//! What is compared in the witness layer: the witness reader, which says what a text's counts are,
//! and the loader, which hands its sections and names out as words.

/// What the reader answers: reason 0 and the counts, or the reason's number and zeros.
pub use crate::library::Witness as Read;

use crate::sections::Sections;

/// As what a text is read. Only a witness is refused for its comments.
#[derive(Clone, Copy, Debug, Eq, PartialEq)]
pub enum Role {
    Model,
    Witness,
}

pub const ROLES: [Role; 2] = [Role::Model, Role::Witness];

/// The functions of the witness layer.
#[derive(Clone, Copy)]
pub struct Subject {
    pub read: fn(&[u8], Role) -> Read,
    /// Answers 0 where the words in front are those of the text's sections; 20 where there are
    /// fewer than needed, and else the reader's reason: then all words stay as they are.
    pub load: fn(&[u8], Role, &mut [u64]) -> u64,
}

impl Read {
    pub fn of(sections: &Sections) -> Self {
        Self {
            reason: 0,
            max_variable: sections.variables,
            inputs: sections.inputs.len() as u64,
            latches: sections.latches.len() as u64,
            outputs: sections.outputs.len() as u64,
            gates: sections.gates.len() as u64,
            bads: sections.bads.len() as u64,
            constraints: sections.constraints.len() as u64,
        }
    }

    pub fn refused(reason: u64) -> Self {
        Self {
            reason,
            ..Self::default()
        }
    }
}
