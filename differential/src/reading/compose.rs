//! A plain reading of the requirements (R8, R9.1, R9.2, R9.15 to R9.20), made without the
//! published Rust. Texts are read by the reading of R4.

mod numbering;
mod printing;

pub use numbering::{Kind, Leaf, Numbering, by_name, by_position, names};

use super::witness;
use crate::sections::{Name, Sections};
use crate::subject::compose::{Asked, Composed, Lent};
use crate::subject::witness::Role;

/// R9.1: how many witnesses there may be.
pub const FEWEST_WITNESSES: usize = 2;
pub const MOST_WITNESSES: usize = 64;

/// R9.15: 16 words for each of T, and these.
pub const MORE_WORDS: usize = 1_024;

/// A witness: its bytes, what they say, and whether any of its names maps.
pub struct Witness<'a> {
    pub text: &'a [u8],
    pub sections: Sections,
    pub maps: bool,
}

impl Witness<'_> {
    pub fn bytes(&self, name: Name) -> &[u8] {
        &self.text[name.offset..name.offset + name.length]
    }
}

/// The model, and the witnesses in their order.
pub struct Texts<'a> {
    pub model: Sections,
    pub witnesses: Vec<Witness<'a>>,
}

/// The composed circuit. Latches, bads and constraints are made of composed literals.
pub struct Composition {
    pub numbering: Numbering,
    /// Next and reset of each composed latch.
    pub latches: Vec<[u64; 2]>,
    pub bads: Vec<u64>,
    pub constraints: Vec<u64>,
}

/// What is due of texts that are all accepted: how many work words a call needs, and the text that
/// it makes or the reason, 16 to 19, for which there is none.
pub struct Due {
    pub work: usize,
    pub text: Result<Vec<u8>, u64>,
}

/// A value, or the number of the reason for which there is none.
pub type OrReason<T> = Result<T, u64>;

/// Where R8 could be read in another way. The self-test puts wrong readings here.
#[derive(Clone, Copy)]
pub struct Rules {
    /// The model literal with which a witness's input or latch is shared, if with any. Err is 16.
    pub shared: fn(&Texts, usize, Kind, usize) -> OrReason<Option<u64>>,
    /// Gates of equal answers are one. A gate is given by its witness and its operands.
    pub alike: fn(usize, [u64; 2]) -> (usize, [u64; 2]),
    /// How the operands are written.
    pub written: fn([u64; 2]) -> [u64; 2],
    /// Whether a new gate may have a variable, after so many inputs and latches. Else it is 17.
    pub fits: fn(u64, usize) -> bool,
    /// Next and reset of a latch of which an earlier witness said the first pair. Err is 18.
    pub agreed: fn([u64; 2], [u64; 2]) -> OrReason<[u64; 2]>,
    pub safety: fn(&Sections) -> &[u64],
    /// How bads and constraints are listed.
    pub listed: fn(Vec<u64>) -> Vec<u64>,
}

pub const RULES: Rules = Rules {
    shared: numbering::shared,
    // R8.5: by its operands in rising order, whatever its witness is.
    alike: |_, operands| (0, ordered(operands)),
    written: ordered,
    // R9.17
    fits: |variable, _| variable <= witness::MOST_VARIABLES,
    // R9.18
    agreed: |first, other| if first == other { Ok(first) } else { Err(18) },
    // R8.6
    safety: |sections| match &sections.bads[..] {
        [] => &sections.outputs,
        bads => bads,
    },
    // R8.7
    listed: |mut literals| {
        literals.sort();
        literals.dedup();
        literals
    },
};

fn ordered([left, right]: [u64; 2]) -> [u64; 2] {
    [left.min(right), left.max(right)]
}

/// The composer.
pub fn compose(asked: &Asked, lent: &mut Lent) -> Composed {
    composed_by(&RULES, asked, lent)
}

/// The composer by other rules.
pub fn composed_by(rules: &Rules, asked: &Asked, lent: &mut Lent) -> Composed {
    lent.work.fill(0);
    let due = due(asked, rules);
    answer(&due, lent.work.len(), lent.out)
}

/// What a call answers to what is due, with so many work words and this room lent.
pub fn answer(due: &Result<Due, u64>, work: usize, out: &mut [u8]) -> Composed {
    match due {
        Err(reason) => Composed::refused(*reason),
        Ok(due) if work < due.work => Composed::refused(15),
        Ok(due) => match &due.text {
            Err(reason) => Composed::refused(*reason),
            Ok(text) => put(text, out),
        },
    }
}

/// Puts a text in front where there is room, or answers 20.
pub fn put(text: &[u8], out: &mut [u8]) -> Composed {
    match out.get_mut(..text.len()) {
        Some(front) => {
            front.copy_from_slice(text);
            Composed {
                reason: 0,
                bytes: text.len(),
            }
        }
        None => Composed::refused(20),
    }
}

/// What is due. Err is one of 1 to 11, for which no work words are needed.
pub fn due(asked: &Asked, rules: &Rules) -> Result<Due, u64> {
    let texts = texts(asked)?;
    Ok(Due {
        work: work_words(&texts),
        text: composition(&texts, rules).map(|made| made.text(&texts)),
    })
}

/// The witnesses' parts of the buffer: 1 before 2. A word left over is not a pair.
pub fn parts<'a>(asked: &Asked<'a>) -> Result<Vec<&'a [u8]>, u64> {
    let pairs = asked.pairs.chunks_exact(2);
    if !(FEWEST_WITNESSES..=MOST_WITNESSES).contains(&pairs.len()) {
        return Err(1);
    }
    let mut parts = Vec::new();
    let mut free: u128 = 0;
    for pair in pairs {
        let start = u128::from(pair[0]);
        let end = start + u128::from(pair[1]);
        if start < free || end > asked.witnesses.len() as u128 {
            return Err(2);
        }
        parts.push(&asked.witnesses[start as usize..end as usize]);
        free = end;
    }
    Ok(parts)
}

/// R10.2: the texts one after the other.
pub fn texts<'a>(asked: &Asked<'a>) -> Result<Texts<'a>, u64> {
    let parts = parts(asked)?;
    let model = witness::sections(asked.model, Role::Model)?;
    let mut witnesses = Vec::new();
    for text in parts {
        let sections = witness::sections(text, Role::Witness)?;
        witnesses.push(Witness {
            text,
            maps: numbering::maps(text, &sections),
            sections,
        });
    }
    Ok(Texts { model, witnesses })
}

/// R9.15: how many work words these texts need.
pub fn work_words(texts: &Texts) -> usize {
    let mut sum = counted(&texts.model);
    for witness in &texts.witnesses {
        sum += counted(&witness.sections);
    }
    16 * sum + MORE_WORDS
}

fn counted(sections: &Sections) -> usize {
    sections.variables as usize
        + sections.outputs.len()
        + sections.bads.len()
        + sections.constraints.len()
}

/// The composition, or the first of R9.16 to R9.19: each is looked for in all witnesses before
/// the next one.
pub fn composition(texts: &Texts, rules: &Rules) -> Result<Composition, u64> {
    let numbering = numbering::numbering(texts, rules)?;
    let latches = definitions(texts, &numbering, rules)?;
    let (mut bads, mut constraints) = (Vec::new(), Vec::new());
    for (index, witness) in texts.witnesses.iter().enumerate() {
        let safety = (rules.safety)(&witness.sections);
        if safety.is_empty() {
            return Err(19);
        }
        let literal = |own: &u64| numbering.literal(index, *own);
        bads.extend(safety.iter().map(literal));
        constraints.extend(witness.sections.constraints.iter().map(literal));
    }
    Ok(Composition {
        numbering,
        latches,
        bads: (rules.listed)(bads),
        constraints: (rules.listed)(constraints),
    })
}

/// Next and reset of each composed latch, as its first witness says, where all others agree.
fn definitions(texts: &Texts, numbering: &Numbering, rules: &Rules) -> Result<Vec<[u64; 2]>, u64> {
    let mut definitions: Vec<Option<[u64; 2]>> = vec![None; numbering.latches.len()];
    for (index, witness) in texts.witnesses.iter().enumerate() {
        for latch in &witness.sections.latches {
            let variable = numbering.literal(index, latch.current) / 2;
            let place = variable as usize - numbering.inputs.len() - 1;
            let said = [latch.next, latch.reset].map(|own| numbering.literal(index, own));
            definitions[place] = Some(match definitions[place] {
                Some(first) => (rules.agreed)(first, said)?,
                None => said,
            });
        }
    }
    let all: Option<Vec<[u64; 2]>> = definitions.into_iter().collect();
    Ok(all.expect("a latch is numbered when a witness has it"))
}
