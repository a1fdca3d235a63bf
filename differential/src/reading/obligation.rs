//! A plain reading of the requirements (R3, R7, R9.7, R9.11, R9.13, R9.14, R9.20), which
//! calls nothing of the published Rust. Of several reasons the smallest number wins.

use super::model::words_circuit;
use crate::circuit::Circuit;
use crate::subject::obligation::{Asked, Claim, Lent, Made};
use std::collections::BTreeSet;

/// R9.13
pub const MOST_RELEVANT: usize = 64;
pub const MOST_PREDICATE_CLAUSES: usize = 64;
pub const MOST_PREDICATE_LITERALS: u128 = 1_024;
/// R12.9
pub const MOST_OUTCOMES: usize = 65_536;

/// A clause of the model's literals, constants among them.
pub type Clause = Vec<u64>;

/// A call. A refusal leaves the result buffers as they are; the work words end as zeros.
pub fn make(asked: &Asked, lent: &mut Lent) -> Made {
    let clauses = clauses(asked, lent.work.len());
    lent.work.fill(0);
    match clauses {
        Ok(clauses) => {
            let kept: Vec<Vec<u32>> = clauses.iter().filter_map(|each| simplified(each)).collect();
            put(&kept, lent)
        }
        Err(reason) => Made::refused(reason),
    }
}

/// R7: the clauses in their order, before they are simplified; or the reason.
pub fn clauses(asked: &Asked, work_words: usize) -> Result<Vec<Clause>, u64> {
    let circuit = words_circuit(asked.record, asked.gates, work_words)?;
    let predicate = predicate(asked, &circuit).ok_or(13_u64)?;
    if !well_claimed(&asked.claim, &circuit) {
        return Err(14);
    }
    let mut clauses = Vec::new();
    match asked.claim {
        Claim::Relation { source, .. } | Claim::Transducer { source, .. } => {
            let latches = circuit.latches.iter().enumerate();
            clauses.extend(latches.map(|(k, latch)| vec![equal_to(latch.current, bit(source, k))]));
        }
        Claim::Terminal { .. } => {}
    }
    clauses.extend(predicate);
    for &[output, left, right] in &circuit.gates {
        clauses.push(vec![not(output), left]);
        clauses.push(vec![not(output), right]);
        clauses.push(vec![output, not(left), not(right)]);
    }
    clauses.extend(claim_clauses(&asked.claim, &circuit));
    if let Claim::Terminal { bad_output, .. } = asked.claim {
        clauses.push(vec![not(circuit.outputs[bad_output as usize])]);
    }
    Ok(clauses)
}

/// The predicate's clauses over the model's inputs; none for R9.13.
fn predicate(asked: &Asked, circuit: &Circuit) -> Option<Vec<Clause>> {
    let inputs = circuit.inputs.len() as u64;
    let relevant = asked.relevant;
    if relevant.len() > MOST_RELEVANT
        || !rising(relevant)
        || relevant.iter().any(|&input| input >= inputs)
    {
        return None;
    }
    let parts = parts(asked.predicate_pairs, asked.predicate_literals)?;
    let literals: u128 = parts.iter().map(|part| part.len() as u128).sum();
    if parts.len() > MOST_PREDICATE_CLAUSES || literals > MOST_PREDICATE_LITERALS {
        return None;
    }
    let input = |word: u32| {
        let place = *relevant.get((word / 2) as usize)?;
        Some(equal_to(circuit.inputs[place as usize], word % 2 == 1))
    };
    parts
        .iter()
        .map(|part| part.iter().map(|&word| input(word)).collect())
        .collect()
}

/// The parts that pairs of offset and length name. Half a pair at the end is not read. None where
/// they overlap, are out of order or end outside the buffer (R9.2).
pub fn parts<'a>(pairs: &[u64], buffer: &'a [u32]) -> Option<Vec<&'a [u32]>> {
    let mut parts = Vec::new();
    let mut ahead = 0;
    for pair in pairs.chunks_exact(2) {
        let start = u128::from(pair[0]);
        let end = start + u128::from(pair[1]);
        if start < ahead || end > buffer.len() as u128 {
            return None;
        }
        parts.push(&buffer[start as usize..end as usize]);
        ahead = end;
    }
    Some(parts)
}

/// Whole outcomes: target, high, low. One or two words at the end are not read.
pub fn outcomes(words: &[u64]) -> Vec<[u64; 3]> {
    words
        .chunks_exact(3)
        .map(|outcome| [outcome[0], outcome[1], outcome[2]])
        .collect()
}

/// Bit k of an outcome's outputs: the low half has bits 0 to 63, the high half the others.
pub fn output_bit(&[_, high, low]: &[u64; 3], k: usize) -> bool {
    if k < 64 {
        bit(low, k)
    } else {
        bit(high, k - 64)
    }
}

/// False for R9.14.
fn well_claimed(claim: &Claim<&[u64]>, circuit: &Circuit) -> bool {
    let states = 1 << circuit.latches.len();
    let outputs = circuit.outputs.len() as u64;
    let all_states = |list: &[u64]| rising(list) && list.iter().all(|&state| state < states);
    match *claim {
        Claim::Relation { source, targets } => source < states && all_states(targets),
        Claim::Terminal {
            bad_output,
            states: claimed,
        } => bad_output < outputs && all_states(claimed),
        Claim::Transducer {
            source,
            observed,
            outcomes: words,
        } => {
            let outcomes = outcomes(words);
            let beyond = |outcome| (observed.len()..128).any(|k| output_bit(outcome, k));
            source < states
                && rising(observed)
                && observed.iter().all(|&output| output < outputs)
                && outcomes.len() <= MOST_OUTCOMES
                && rising(&outcomes)
                && outcomes.iter().all(|outcome| outcome[0] < states)
                && !outcomes.iter().any(beyond)
        }
    }
}

/// One clause a claim (R7.4).
fn claim_clauses(claim: &Claim<&[u64]>, circuit: &Circuit) -> Vec<Clause> {
    let currents: Clause = circuit.latches.iter().map(|latch| latch.current).collect();
    let nexts: Clause = circuit.latches.iter().map(|latch| latch.next).collect();
    let differs = |literals: &[u64], state: u64| -> Clause {
        let literals = literals.iter().enumerate();
        literals
            .map(|(k, &literal)| equal_to(literal, !bit(state, k)))
            .collect()
    };
    match *claim {
        Claim::Relation { targets, .. } => targets
            .iter()
            .map(|&target| differs(&nexts, target))
            .collect(),
        Claim::Terminal { states, .. } => states
            .iter()
            .map(|&state| differs(&currents, state))
            .collect(),
        Claim::Transducer {
            observed,
            outcomes: words,
            ..
        } => outcomes(words)
            .iter()
            .map(|outcome| {
                let mut clause = differs(&nexts, outcome[0]);
                let observed = observed.iter().enumerate();
                clause.extend(observed.map(|(k, &output)| {
                    equal_to(circuit.outputs[output as usize], !output_bit(outcome, k))
                }));
                clause
            })
            .collect(),
    }
}

/// The literal that is true where the given one has the value.
fn equal_to(literal: u64, value: bool) -> u64 {
    if value { literal } else { not(literal) }
}

/// A literal is odd when it is negated; 0 is false and 1 is true.
fn not(literal: u64) -> u64 {
    if literal.is_multiple_of(2) {
        literal + 1
    } else {
        literal - 1
    }
}

pub fn bit(word: u64, k: usize) -> bool {
    word >> k & 1 == 1
}

/// Strictly.
fn rising<T: PartialOrd>(list: &[T]) -> bool {
    list.windows(2).all(|two| two[0] < two[1])
}

/// The word of a literal that is no constant: 2 x CNF variable, plus 1 when positive.
pub fn word(literal: u64) -> u32 {
    let variable = literal / 2 - 1;
    let positive = literal.is_multiple_of(2);
    (2 * variable + u64::from(positive)) as u32
}

/// R3. None where the clause is dropped.
pub fn simplified(clause: &[u64]) -> Option<Vec<u32>> {
    if clause.contains(&1) {
        return None;
    }
    let literals = clause.iter().filter(|&&literal| literal != 0);
    let words: BTreeSet<u32> = literals.map(|&literal| word(literal)).collect();
    let both_signs = words.iter().any(|word| words.contains(&(word ^ 1)));
    (!both_signs).then(|| words.into_iter().collect())
}

/// Writes the clauses where there is room for all pairs and literals; else R9.20.
pub fn put(clauses: &[Vec<u32>], lent: &mut Lent) -> Made {
    let literals: usize = clauses.iter().map(Vec::len).sum();
    if clauses.len() > lent.pairs.len() / 2 || literals > lent.literals.len() {
        return Made::refused(20);
    }
    let mut at = 0;
    for (place, clause) in clauses.iter().enumerate() {
        lent.pairs[2 * place] = at as u64;
        lent.pairs[2 * place + 1] = clause.len() as u64;
        lent.literals[at..at + clause.len()].copy_from_slice(clause);
        at += clause.len();
    }
    Made {
        reason: 0,
        clauses: clauses.len() as u64,
        literals: literals as u64,
    }
}
