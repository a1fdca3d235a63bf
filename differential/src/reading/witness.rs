//! A plain reading of the requirements (R4, R9.3 to R9.6, R9.8 to R9.11), made without
//! the published Rust. Of several reasons the smallest number wins.

use super::{field, first_field, good_text, line, number};
use crate::sections::{Latch, Name, Sections};
use crate::subject::witness::{Read, Role};
use crate::subject::{Part, Rule};

/// R4.4: the most variables.
pub const MOST_VARIABLES: u64 = 2_000_000;

/// The nine counts of a header, in its order; those that are absent are 0.
#[derive(Clone, Copy, Debug, Eq, PartialEq)]
pub struct Counts {
    pub variables: u64,
    pub inputs: u64,
    pub latches: u64,
    pub outputs: u64,
    pub gates: u64,
    pub bads: u64,
    pub constraints: u64,
    pub justice: u64,
    pub fairness: u64,
}

/// The reader.
pub fn read(text: &[u8], role: Role) -> Read {
    match sections(text, role) {
        Ok(sections) => Read::of(&sections),
        Err(reason) => Read::refused(reason),
    }
}

/// The loader.
pub fn load(text: &[u8], role: Role, words: &mut [u64]) -> u64 {
    match sections(text, role) {
        Ok(sections) => put(&sections, words),
        Err(reason) => reason,
    }
}

/// Puts the sections' words in front where there is room, or answers 20.
pub fn put(sections: &Sections, words: &mut [u64]) -> u64 {
    let needed = sections.words();
    match words.get_mut(..needed.len()) {
        Some(front) => {
            front.copy_from_slice(&needed);
            0
        }
        None => 20,
    }
}

/// What a text says, or the reason for which it is refused.
pub fn sections(text: &[u8], role: Role) -> Result<Sections, u64> {
    let sections = lines_of(text, role)?;
    if in_range(&sections) {
        Ok(sections)
    } else {
        Err(11)
    }
}

/// The same without R9.11: the lines are good, whatever their literals are.
pub fn lines_of(text: &[u8], role: Role) -> Result<Sections, u64> {
    let (counts, mut sections, mut lines) = opened(text)?;
    names(&counts, &mut lines, &mut sections).ok_or(9_u64)?;
    if role == Role::Witness && lines.any(|part| maps(&text[part.start..part.end])) {
        return Err(10);
    }
    Ok(sections)
}

/// The counts, the sections and the lines after them, or the first of R9.3 to R9.8.
fn opened(text: &[u8]) -> Result<(Counts, Sections, Lines<'_>), u64> {
    if !good_text(Rule::Witness, text) {
        return Err(3);
    }
    let counts = counts(text).ok_or(4_u64)?;
    if !within_limits(&counts) {
        return Err(5);
    }
    if counts.justice != 0 || counts.fairness != 0 {
        return Err(6);
    }
    let mut lines = Lines { text, at: 0 };
    lines.next();
    let sections = body(&counts, &mut lines).ok_or(8_u64)?;
    Ok((counts, sections, lines))
}

/// The lines of a text from a place on.
struct Lines<'a> {
    text: &'a [u8],
    at: usize,
}

impl Iterator for Lines<'_> {
    type Item = Part;

    fn next(&mut self) -> Option<Part> {
        let part = line(self.text, self.at)?;
        self.at = part.next;
        Some(part)
    }
}

impl Lines<'_> {
    /// The numbers of the next line, where there is one and all its fields are readable.
    fn numbers(&mut self) -> Option<Vec<u64>> {
        let part = self.next()?;
        numbers(&self.text[part.start..part.end], 0)
    }

    /// The same where there are exactly so many.
    fn exactly<const N: usize>(&mut self) -> Option<[u64; N]> {
        self.numbers()?.try_into().ok()
    }
}

/// The fields of a line from a place on, as numbers.
fn numbers(line: &[u8], mut at: usize) -> Option<Vec<u64>> {
    let mut numbers = Vec::new();
    while let Some(part) = field(line, at) {
        numbers.push(number(Rule::Witness, &line[part.start..part.end])?);
        at = part.next;
    }
    Some(numbers)
}

/// The counts of a text's header. None is R9.4.
pub fn counts(text: &[u8]) -> Option<Counts> {
    let part = line(text, 0)?;
    let header = &text[part.start..part.end];
    let word = field(header, 0)?;
    if header[word.start..word.end] != *b"aag" {
        return None;
    }
    let mut counts = numbers(header, word.next)?;
    if !(5..=9).contains(&counts.len()) {
        return None;
    }
    counts.resize(9, 0);
    Some(Counts {
        variables: counts[0],
        inputs: counts[1],
        latches: counts[2],
        outputs: counts[3],
        gates: counts[4],
        bads: counts[5],
        constraints: counts[6],
        justice: counts[7],
        fairness: counts[8],
    })
}

/// R4.4
pub fn within_limits(counts: &Counts) -> bool {
    let defined = u128::from(counts.inputs) + u128::from(counts.latches) + u128::from(counts.gates);
    u128::from(counts.variables) == defined && counts.variables <= MOST_VARIABLES
}

/// The section lines. None is R9.8. A count may be any number: a section ends where the text
/// does, and nothing is reserved for it.
fn body(counts: &Counts, lines: &mut Lines) -> Option<Sections> {
    let mut sections = Sections {
        variables: counts.variables,
        ..Sections::default()
    };
    for _ in 0..counts.inputs {
        sections.inputs.push(lines.exactly::<1>()?[0]);
    }
    for _ in 0..counts.latches {
        sections.latches.push(latch(lines)?);
    }
    for _ in 0..counts.outputs {
        sections.outputs.push(lines.exactly::<1>()?[0]);
    }
    for _ in 0..counts.bads {
        sections.bads.push(lines.exactly::<1>()?[0]);
    }
    for _ in 0..counts.constraints {
        sections.constraints.push(lines.exactly::<1>()?[0]);
    }
    for _ in 0..counts.gates {
        sections.gates.push(lines.exactly()?);
    }
    Some(sections)
}

/// R4.7: without a reset it is 0.
fn latch(lines: &mut Lines) -> Option<Latch> {
    match lines.numbers()?[..] {
        [current, next] => Some(Latch {
            current,
            next,
            reset: 0,
        }),
        [current, next, reset] => Some(Latch {
            current,
            next,
            reset,
        }),
        _ => None,
    }
}

/// A symbol line taken apart. The name stands at this place of the line and goes to its end.
struct Symbol {
    kind: u8,
    index: u64,
    name: usize,
}

/// R4.10
fn symbol(line: &[u8]) -> Option<Symbol> {
    let space = line.iter().position(|&byte| byte == 32)?;
    let (&kind, index) = line[..space].split_first()?;
    Some(Symbol {
        kind,
        index: number(Rule::Witness, index)?,
        name: space + 1,
    })
}

/// The symbol lines, up to the end or past a line that is exactly `c`. None is R9.9.
fn names(counts: &Counts, lines: &mut Lines, sections: &mut Sections) -> Option<()> {
    sections.input_names = vec![None; sections.inputs.len()];
    sections.latch_names = vec![None; sections.latches.len()];
    while let Some(part) = lines.next() {
        let line = &lines.text[part.start..part.end];
        if line == b"c" {
            break;
        }
        let symbol = symbol(line)?;
        let name = Name {
            offset: part.start + symbol.name,
            length: line.len() - symbol.name,
        };
        match symbol.kind {
            b'i' => give(&mut sections.input_names, symbol.index, name)?,
            b'l' => give(&mut sections.latch_names, symbol.index, name)?,
            b'o' if symbol.index < counts.outputs => (),
            b'b' if symbol.index < counts.bads => (),
            b'c' if symbol.index < counts.constraints => (),
            _ => return None,
        }
    }
    Some(())
}

/// Gives a name to an index that is there and has none.
fn give(names: &mut [Option<Name>], index: u64, name: Name) -> Option<()> {
    let place = names.get_mut(usize::try_from(index).ok()?)?;
    place.replace(name).is_none().then_some(())
}

/// R9.10 of a comment's line.
fn maps(line: &[u8]) -> bool {
    let field = first_field(line);
    field == b"MAPPING" || field == b"INTERVENTION"
}

/// R9.11. None of what is defined or used is out of range or order.
pub fn in_range(sections: &Sections) -> bool {
    let highest = 2 * sections.variables + 1;
    let resets = sections.latches.iter().map(|latch| latch.reset);
    let nexts = sections.latches.iter().map(|latch| latch.next);
    let lists = [&sections.outputs, &sections.bads, &sections.constraints];
    let listed = lists.into_iter().flatten().copied();
    let smaller = |operand: u64, output: u64| operand / 2 < output / 2;
    sections.consecutive()
        && resets.chain(nexts).chain(listed).all(|it| it <= highest)
        && sections
            .gates
            .iter()
            .all(|&[output, left, right]| smaller(left, output) && smaller(right, output))
}

/// Whether the first line that is refused as a symbol line begins with a space: the requirements
/// say that the published reader stops there instead of returning.
pub fn space_in_front(text: &[u8]) -> bool {
    let Ok((counts, mut sections, mut lines)) = opened(text) else {
        return false;
    };
    let start = lines.at;
    if names(&counts, &mut lines, &mut sections).is_some() {
        return false;
    }
    let read = &text[start..lines.at - 1];
    let last = read.iter().rposition(|&byte| byte == 10);
    read.get(last.map_or(0, |place| place + 1)) == Some(&32)
}
