//! A plain reading of the requirements (R5, R6, R9.3, R9.4, R9.5, R9.7, R9.8, R9.11, R9.12),
//! made without the published Rust. Of several reasons the smallest number wins.

use super::{field, good_text, line, number};
use crate::circuit::Circuit;
use crate::subject::Rule;
use crate::subject::model::{Latch, Model, Read, Stepped, WORDS};

/// The five counts of a header, in its order.
#[derive(Clone, Copy, Debug, Eq, PartialEq)]
pub struct Counts {
    pub variables: u64,
    pub inputs: u64,
    pub latches: u64,
    pub outputs: u64,
    pub gates: u64,
}

/// The reader. A refusal leaves the gate words as they are; the work words end as zeros.
pub fn read(text: &[u8], gates: &mut [u64], work: &mut [u64]) -> Read {
    let answer = circuit(text, gates.len(), work.len());
    work.fill(0);
    match answer {
        Ok(circuit) => {
            let words = circuit.words();
            gates[..words.len()].copy_from_slice(words);
            Read {
                reason: 0,
                model: Model::of(&circuit),
            }
        }
        Err(reason) => Read::refused(reason),
    }
}

/// The circuit that a text writes, or the reason, with so many gate and work words lent.
pub fn circuit(text: &[u8], gate_words: usize, work_words: usize) -> Result<Circuit, u64> {
    if !good_text(Rule::Transition, text) {
        return Err(3);
    }
    let counts = counts(text).ok_or(4_u64)?;
    if !within_limits(&counts) {
        return Err(5);
    }
    if (gate_words as u64) < 3 * counts.gates || work_words as u64 <= counts.variables {
        return Err(7);
    }
    let circuit = sections(&counts, lines(text).skip(1)).ok_or(8_u64)?;
    if !well_defined(&circuit) {
        return Err(11);
    }
    Ok(circuit)
}

/// The lines of a text.
pub struct Lines<'a> {
    text: &'a [u8],
    at: usize,
}

pub fn lines(text: &[u8]) -> Lines<'_> {
    Lines { text, at: 0 }
}

/// The counts of a text's header.
pub fn counts(text: &[u8]) -> Option<Counts> {
    lines(text).next().and_then(header)
}

impl<'a> Iterator for Lines<'a> {
    type Item = &'a [u8];

    fn next(&mut self) -> Option<&'a [u8]> {
        let part = line(self.text, self.at)?;
        self.at = part.next;
        Some(&self.text[part.start..part.end])
    }
}

fn fields(line: &[u8]) -> Vec<&[u8]> {
    let mut fields = Vec::new();
    let mut at = 0;
    while let Some(part) = field(line, at) {
        fields.push(&line[part.start..part.end]);
        at = part.next;
    }
    fields
}

fn numbers(fields: &[&[u8]]) -> Option<Vec<u64>> {
    fields
        .iter()
        .map(|field| number(Rule::Transition, field))
        .collect()
}

/// R9.4: the header's word and five readable numbers, no more.
fn header(line: &[u8]) -> Option<Counts> {
    match fields(line).as_slice() {
        [word, counts @ ..] if *word == b"aag" && counts.len() == 5 => {
            let counts = numbers(counts)?;
            Some(Counts {
                variables: counts[0],
                inputs: counts[1],
                latches: counts[2],
                outputs: counts[3],
                gates: counts[4],
            })
        }
        _ => None,
    }
}

/// R5.3
pub fn within_limits(counts: &Counts) -> bool {
    let defined = u128::from(counts.inputs) + u128::from(counts.latches) + u128::from(counts.gates);
    counts.inputs <= 64
        && (1..=8).contains(&counts.latches)
        && counts.outputs <= 128
        && u128::from(counts.variables) == defined
        && (1..=1_000_000).contains(&counts.variables)
}

/// R9.8: the sections' lines; what comes after them is ignored.
pub fn sections<'a>(counts: &Counts, mut lines: impl Iterator<Item = &'a [u8]>) -> Option<Circuit> {
    let mut circuit = Circuit {
        variables: counts.variables as usize,
        ..Circuit::default()
    };
    for _ in 0..counts.inputs {
        circuit.inputs.push(literals::<1>(lines.next()?)?[0]);
    }
    for _ in 0..counts.latches {
        circuit.latches.push(latch(lines.next()?)?);
    }
    for _ in 0..counts.outputs {
        circuit.outputs.push(literals::<1>(lines.next()?)?[0]);
    }
    for _ in 0..counts.gates {
        circuit.gates.push(literals::<3>(lines.next()?)?);
    }
    Some(circuit)
}

/// So many readable numbers and no other field.
fn literals<const N: usize>(line: &[u8]) -> Option<[u64; N]> {
    numbers(&fields(line))?.try_into().ok()
}

/// A latch line: its literal, the next one and perhaps an initializer (R5.6).
fn latch(line: &[u8]) -> Option<Latch> {
    let fields = fields(line);
    let (definition, initializers) = fields.split_at_checked(2)?;
    let definition = numbers(definition)?;
    let latch = Latch {
        current: definition[0],
        next: definition[1],
    };
    match initializers {
        [] | [b"0" | b"1"] => Some(latch),
        [own] if number(Rule::Transition, own) == Some(latch.current) => Some(latch),
        _ => None,
    }
}

/// R9.11 of a circuit whose counts are within the limits.
pub fn well_defined(circuit: &Circuit) -> bool {
    let highest = 2 * circuit.variables as u64 + 1;
    let nexts = circuit.latches.iter().map(|latch| latch.next);
    let mut used = nexts.chain(circuit.outputs.iter().copied());
    each_defined_once(circuit)
        && used.all(|literal| literal <= highest)
        && circuit.gates.iter().all(|&[output, left, right]| {
            left <= highest && right <= highest && left / 2 < output / 2 && right / 2 < output / 2
        })
}

/// R5.4
fn each_defined_once(circuit: &Circuit) -> bool {
    let mut defined = vec![false; circuit.variables + 1];
    let inputs = circuit.inputs.iter().copied();
    let latches = circuit.latches.iter().map(|latch| latch.current);
    let gates = circuit.gates.iter().map(|gate| gate[0]);
    for literal in inputs.chain(latches).chain(gates) {
        if literal == 0 || literal % 2 == 1 || literal / 2 > circuit.variables as u64 {
            return false;
        }
        let place = &mut defined[(literal / 2) as usize];
        if *place {
            return false;
        }
        *place = true;
    }
    true
}

/// The validation of a record that is handed in.
pub fn validate(model: &Model, gates: &[u64], work: &mut [u64]) -> u64 {
    let answer = record_circuit(model, gates, work.len());
    work.fill(0);
    answer.err().unwrap_or(0)
}

/// R9.7, R9.11. Slots past the counts, and words past three a gate, are not read.
pub fn record_circuit(model: &Model, gates: &[u64], work_words: usize) -> Result<Circuit, u64> {
    if work_words <= model.max_variable {
        return Err(7);
    }
    let counts = Counts {
        variables: model.max_variable as u64,
        inputs: model.input_count as u64,
        latches: model.latch_count as u64,
        outputs: model.output_count as u64,
        gates: model.and_count as u64,
    };
    if !within_limits(&counts) {
        return Err(11);
    }
    match model.circuit(gates) {
        Some(circuit) if well_defined(&circuit) => Ok(circuit),
        _ => Err(11),
    }
}

/// The same of a record that is lent as words. One that is cut is 11, after 7 for its word M.
pub fn words_circuit(record: &[u64], gates: &[u64], work_words: usize) -> Result<Circuit, u64> {
    let mut model = Model::in_words(record);
    if record.len() < WORDS {
        model.latch_count = 0;
    }
    record_circuit(&model, gates, work_words)
}

/// The validation of a record that is lent as words.
pub fn validate_words(record: &[u64], gates: &[u64], work: &mut [u64]) -> u64 {
    let answer = words_circuit(record, gates, work.len());
    work.fill(0);
    answer.err().unwrap_or(0)
}

/// The step.
pub fn step(model: &Model, gates: &[u64], work: &mut [u64], state: u64, input: u64) -> Stepped {
    let answer = record_circuit(model, gates, work.len());
    stepped(answer, work, state, input)
}

/// The step of a record that is lent as words.
pub fn step_words(
    record: &[u64],
    gates: &[u64],
    work: &mut [u64],
    state: u64,
    input: u64,
) -> Stepped {
    let answer = words_circuit(record, gates, work.len());
    stepped(answer, work, state, input)
}

fn stepped(circuit: Result<Circuit, u64>, work: &mut [u64], state: u64, input: u64) -> Stepped {
    work.fill(0);
    match circuit {
        Err(reason) => Stepped::refused(reason),
        Ok(circuit) => outcome(&circuit, state, input).unwrap_or(Stepped::refused(12)),
    }
}

/// R6. None for R9.12.
pub fn outcome(circuit: &Circuit, state: u64, input: u64) -> Option<Stepped> {
    let states = bits(state, circuit.latches.len())?;
    let inputs = bits(input, circuit.inputs.len())?;
    let mut values = vec![false; circuit.variables + 1];
    for (latch, bit) in circuit.latches.iter().zip(states) {
        values[(latch.current / 2) as usize] = bit;
    }
    for (literal, bit) in circuit.inputs.iter().zip(inputs) {
        values[(literal / 2) as usize] = bit;
    }
    for &[output, left, right] in &circuit.gates {
        let both = value(&values, left) && value(&values, right);
        values[(output / 2) as usize] = both;
    }
    let nexts = circuit.latches.iter().map(|latch| latch.next);
    let outputs: Vec<bool> = circuit
        .outputs
        .iter()
        .map(|&literal| value(&values, literal))
        .collect();
    let (low, high) = outputs.split_at(outputs.len().min(64));
    Some(Stepped {
        reason: 0,
        target: packed(nexts.map(|literal| value(&values, literal))),
        high: packed(high.iter().copied()),
        low: packed(low.iter().copied()),
    })
}

/// The lowest bits of a word, bit 0 first, where no other is set.
fn bits(mut word: u64, count: usize) -> Option<Vec<bool>> {
    let mut bits = Vec::with_capacity(count);
    for _ in 0..count {
        bits.push(word % 2 == 1);
        word /= 2;
    }
    (word == 0).then_some(bits)
}

fn packed(bits: impl DoubleEndedIterator<Item = bool>) -> u64 {
    bits.rev().fold(0, |word, bit| 2 * word + u64::from(bit))
}

/// Variable 0 is false, so that literal 0 is false and 1 is true.
pub fn value(values: &[bool], literal: u64) -> bool {
    values[(literal / 2) as usize] != (literal % 2 == 1)
}
