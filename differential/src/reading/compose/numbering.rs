//! Which composed variable each witness variable is (R8.4).

use super::{Rules, Texts, Witness};
use crate::reading::{begins_with, number};
use crate::sections::{Name, Sections};
use crate::subject::Rule;
use std::collections::HashMap;
use std::ops::Range;

/// A name that begins so gives a literal of the model.
const MAPS: &[u8] = b"= ";

#[derive(Clone, Copy, Debug, Eq, PartialEq)]
pub enum Kind {
    Input,
    Latch,
}

/// A composed input or latch: shared by all that are mapped to one literal of the model, or private
/// to one witness, at this place of its kind there.
#[derive(Clone, Copy, Debug, Eq, PartialEq)]
pub enum Leaf {
    Shared(u64),
    Private { witness: usize, place: usize },
}

pub struct Numbering {
    pub inputs: Vec<Leaf>,
    pub latches: Vec<Leaf>,
    /// The operands of each composed gate.
    pub gates: Vec<[u64; 2]>,
    /// Of each witness, by its own variable; that of the constants is 0.
    pub variables: Vec<Vec<u64>>,
}

impl Numbering {
    /// The composed literal of a witness's literal.
    pub fn literal(&self, witness: usize, own: u64) -> u64 {
        literal(&self.variables[witness], own)
    }
}

fn literal(variables: &[u64], own: u64) -> u64 {
    2 * variables[(own / 2) as usize] + own % 2
}

/// Numbers all variables. Err is 16 or 17.
pub fn numbering(texts: &Texts, rules: &Rules) -> Result<Numbering, u64> {
    let mut variables = vec![vec![0]; texts.witnesses.len()];
    let inputs = number_leaves(texts, rules, Kind::Input, 0, &mut variables)?;
    let latches = number_leaves(texts, rules, Kind::Latch, inputs.len(), &mut variables)?;
    let leaves = inputs.len() + latches.len();
    Ok(Numbering {
        inputs,
        latches,
        gates: number_gates(texts, rules, leaves, &mut variables)?,
        variables,
    })
}

/// Numbers the inputs or the latches of all witnesses, after so many variables.
fn number_leaves(
    texts: &Texts,
    rules: &Rules,
    kind: Kind,
    before: usize,
    variables: &mut [Vec<u64>],
) -> Result<Vec<Leaf>, u64> {
    let mut leaves = Vec::new();
    let mut numbered: HashMap<u64, u64> = HashMap::new();
    for (witness, variables) in variables.iter_mut().enumerate() {
        let count = names(&texts.witnesses[witness].sections, kind).len();
        for place in 0..count {
            let shared = (rules.shared)(texts, witness, kind, place)?;
            let next = (before + leaves.len()) as u64 + 1;
            let variable = match shared {
                Some(model) => *numbered.entry(model).or_insert(next),
                None => next,
            };
            if variable == next {
                leaves.push(match shared {
                    Some(model) => Leaf::Shared(model),
                    None => Leaf::Private { witness, place },
                });
            }
            variables.push(variable);
        }
    }
    Ok(leaves)
}

/// Numbers the gates after so many inputs and latches, and returns their operands.
fn number_gates(
    texts: &Texts,
    rules: &Rules,
    before: usize,
    variables: &mut [Vec<u64>],
) -> Result<Vec<[u64; 2]>, u64> {
    let mut gates = Vec::new();
    let mut numbered: HashMap<(usize, [u64; 2]), u64> = HashMap::new();
    for (witness, variables) in variables.iter_mut().enumerate() {
        for &[_, left, right] in &texts.witnesses[witness].sections.gates {
            let operands = [left, right].map(|own| literal(variables, own));
            let next = (before + gates.len()) as u64 + 1;
            let alike = (rules.alike)(witness, operands);
            let variable = *numbered.entry(alike).or_insert(next);
            if variable == next {
                if !(rules.fits)(variable, before) {
                    return Err(17);
                }
                gates.push((rules.written)(operands));
            }
            variables.push(variable);
        }
    }
    Ok(gates)
}

pub fn names(sections: &Sections, kind: Kind) -> &[Option<Name>] {
    match kind {
        Kind::Input => &sections.input_names,
        Kind::Latch => &sections.latch_names,
    }
}

/// R8.2, R8.3: the literal of the model by name, or by position; none where it is private.
pub fn shared(texts: &Texts, index: usize, kind: Kind, place: usize) -> Result<Option<u64>, u64> {
    let witness = &texts.witnesses[index];
    if witness.maps {
        by_name(&texts.model, witness, kind, place)
    } else {
        Ok(by_position(&texts.model, kind, place))
    }
}

/// Whether any name of an input or a latch begins with `= `.
pub fn maps(text: &[u8], sections: &Sections) -> bool {
    let mut names = sections.input_names.iter().chain(&sections.latch_names);
    names
        .any(|name| name.is_some_and(|name| begins_with(&text[name.offset..][..name.length], MAPS)))
}

pub fn by_position(model: &Sections, kind: Kind, place: usize) -> Option<u64> {
    let Range { start, end } = variables(model, kind);
    let variable = start + place as u64;
    (variable < end).then_some(2 * variable)
}

/// The literal that a name gives, if it gives any. Err is R9.16.
pub fn by_name(
    model: &Sections,
    witness: &Witness,
    kind: Kind,
    place: usize,
) -> Result<Option<u64>, u64> {
    let Some(name) = names(&witness.sections, kind)[place] else {
        return Ok(None);
    };
    let Some(word) = witness.bytes(name).strip_prefix(MAPS) else {
        return Ok(None);
    };
    let literal = number(Rule::Witness, word).ok_or(16_u64)?;
    if literal % 2 == 0 && variables(model, kind).contains(&(literal / 2)) {
        Ok(Some(literal))
    } else {
        Err(16)
    }
}

/// The model's variables of a kind: its definitions are consecutive, inputs and then latches.
fn variables(model: &Sections, kind: Kind) -> Range<u64> {
    let inputs = model.inputs.len() as u64;
    match kind {
        Kind::Input => 1..inputs + 1,
        Kind::Latch => inputs + 1..inputs + 1 + model.latches.len() as u64,
    }
}
