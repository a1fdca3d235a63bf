//! Calls that break no rule, and random damage to them.

use super::check::Call;
use crate::circuit::Circuit;
use crate::compare::lent::Words;
use crate::compare::model::check::Record;
use crate::compare::model::circuits::{Order, arrange};
use crate::compare::model::records::{change, changed, damage as damage_record};
use crate::random::Random;
use crate::reading::model::outcome;
use crate::reading::obligation::output_bit;
use crate::subject::model::WORDS;
use crate::subject::obligation::Claim;

/// Predicate clauses as they are lent.
#[derive(Clone, Debug, Default)]
pub struct Predicate {
    pub pairs: Vec<u64>,
    pub literals: Vec<u32>,
}

impl Predicate {
    /// Clauses one behind the other.
    pub fn of(clauses: &[Vec<u32>]) -> Self {
        let mut predicate = Self::default();
        for clause in clauses {
            predicate.add(clause);
        }
        predicate
    }

    /// Clauses with garbage between them at times, and half a pair behind them at times.
    fn apart(random: &mut Random, clauses: &[Vec<u32>]) -> Self {
        let mut predicate = Self::default();
        for clause in clauses {
            predicate.add_gap(random);
            predicate.add(clause);
        }
        predicate.add_gap(random);
        if random.once_in(6) {
            predicate.pairs.push(random.wide());
        }
        predicate
    }

    fn add(&mut self, clause: &[u32]) {
        self.pairs.push(self.literals.len() as u64);
        self.pairs.push(clause.len() as u64);
        self.literals.extend(clause);
    }

    fn add_gap(&mut self, random: &mut Random) {
        for _ in 0..random.choose(&[0, 0, 0, 1, 3]) {
            self.literals.push(random.wide() as u32);
        }
    }
}

/// With so many literals of room more than its clauses can have, an obligation is not measured.
pub const UNMEASURED: usize = 1_025;

impl Call {
    /// A call with enough room, and a little more: the elements past the result show. Every second one has
    /// so much more that the library writes without measuring first.
    pub fn new(
        random: &mut Random,
        circuit: &Circuit,
        relevant: &[u64],
        predicate: Predicate,
        claim: Claim<Vec<u64>>,
    ) -> Self {
        let (pairs, literals) = most_room(circuit, &predicate, &claim);
        let more = random.below(3) + UNMEASURED * random.below(2);
        let mut record = Record::of(random, circuit);
        record.work = Words::garbage(random, circuit.variables + 1 + more);
        Self {
            record,
            record_words: WORDS,
            relevant: relevant.to_vec(),
            predicate,
            claim,
            pairs: Words::garbage(random, 2 * pairs + more),
            literals: Words::garbage(random, literals + more),
        }
    }

    /// Without relevant inputs or predicate.
    pub fn plain(random: &mut Random, circuit: &Circuit, claim: Claim<Vec<u64>>) -> Self {
        Self::new(random, circuit, &[], Predicate::default(), claim)
    }

    /// Any call that is accepted.
    pub fn any(random: &mut Random, circuit: &Circuit) -> Self {
        let kind = random.below(3);
        Self::any_of(random, circuit, kind)
    }

    /// Any that is accepted, with a claim of one kind.
    pub fn any_of(random: &mut Random, circuit: &Circuit, kind: usize) -> Self {
        let claim = any_claim(random, circuit, kind);
        let relevant = some_of(random, circuit.inputs.len() as u64);
        let clauses = any_predicate(random, relevant.len());
        let predicate = Predicate::apart(random, &clauses);
        Self::new(random, circuit, &relevant, predicate, claim)
    }

    /// Changes one thing that is handed in or lent.
    pub fn damage(&mut self, random: &mut Random, circuit: &Circuit) {
        match random.below(12) {
            0 | 1 => damage_record(random, &mut self.record, circuit),
            2 => damage_list(random, &mut self.relevant),
            3 => damage_list(random, &mut self.predicate.pairs),
            4 | 5 if !self.predicate.literals.is_empty() => {
                let place = random.below(self.predicate.literals.len());
                let literal = &mut self.predicate.literals[place];
                *literal = changed(random, u64::from(*literal)) as u32;
            }
            6 => self.pairs.0.truncate(self.pairs.0.len() / 2),
            7 => self.literals.0.truncate(self.literals.0.len() / 2),
            8 => self.record_words = random.below(WORDS),
            _ => damage_claim(random, &mut self.claim),
        }
    }
}

/// Gives next literals and outputs different variables in any order, as long as there are any.
pub fn set_apart(random: &mut Random, circuit: &mut Circuit) {
    let mut variables: Vec<u64> = (1..=circuit.variables as u64).collect();
    arrange(random, &mut variables, Order::Any);
    let nexts = circuit.latches.iter_mut().map(|latch| &mut latch.next);
    for (literal, variable) in nexts.chain(&mut circuit.outputs).zip(variables) {
        *literal = 2 * variable + random.below(2) as u64;
    }
}

/// So many clauses and literals are enough.
fn most_room(circuit: &Circuit, predicate: &Predicate, claim: &Claim<Vec<u64>>) -> (usize, usize) {
    let latches = circuit.latches.len();
    let (claims, each) = match claim {
        Claim::Relation { targets: list, .. } | Claim::Terminal { states: list, .. } => {
            (list.len(), latches)
        }
        Claim::Transducer {
            observed, outcomes, ..
        } => (outcomes.len() / 3, latches + observed.len()),
    };
    let clauses = latches + predicate.pairs.len() / 2 + 3 * circuit.gates.len() + claims + 1;
    let literals = latches + predicate.literals.len() + 7 * circuit.gates.len() + claims * each + 1;
    (clauses, literals)
}

/// Some of the numbers below a limit, rising: none, few, half, most or all.
pub fn some_of(random: &mut Random, limit: u64) -> Vec<u64> {
    let part = random.choose(&[0, 1, 4, 7, 8]);
    (0..limit).filter(|_| random.below(8) < part).collect()
}

/// Clauses over so many relevant inputs, within all limits.
pub fn any_predicate(random: &mut Random, relevant: usize) -> Vec<Vec<u32>> {
    if relevant == 0 {
        let clauses = random.choose(&[0, 0, 0, 0, 1, 2]);
        return vec![Vec::new(); clauses];
    }
    let (clauses, longest) = match random.below(16) {
        0..=2 => (0, 0),
        3 => (random.below(65), 4),
        4 => (64, 16),
        5 => (1, 1_024),
        _ => (1 + random.below(4), 4),
    };
    (0..clauses)
        .map(|_| any_clause(random, relevant, longest))
        .collect()
}

/// Seldom empty.
fn any_clause(random: &mut Random, relevant: usize, longest: usize) -> Vec<u32> {
    let length = if random.once_in(20) {
        0
    } else {
        1 + random.below(longest)
    };
    (0..length)
        .map(|_| random.below(2 * relevant) as u32)
        .collect()
}

/// A claim of one of the three kinds; without outputs there is no terminal list.
pub fn any_claim(random: &mut Random, circuit: &Circuit, kind: usize) -> Claim<Vec<u64>> {
    let states = 1 << circuit.latches.len();
    let source = random.below(states) as u64;
    match kind {
        0 if !circuit.outputs.is_empty() => Claim::Terminal {
            bad_output: random.below(circuit.outputs.len()) as u64,
            states: some_of(random, states as u64),
        },
        1 => {
            let observed = some_of(random, circuit.outputs.len() as u64);
            let mut outcomes = led_to(random, circuit, source, &observed);
            thin(random, &mut outcomes);
            for _ in 0..random.choose(&[0, 0, 1, 5]) {
                outcomes.push(any_outcome(random, states, observed.len()));
            }
            outcomes.sort_unstable();
            outcomes.dedup();
            let mut outcomes = outcomes.as_flattened().to_vec();
            for _ in 0..random.choose(&[0, 0, 1, 2]) {
                outcomes.push(random.wide());
            }
            Claim::Transducer {
                source,
                observed,
                outcomes,
            }
        }
        _ => {
            let mut targets: Vec<u64> = led_to(random, circuit, source, &[])
                .iter()
                .map(|outcome| outcome[0])
                .collect();
            thin(random, &mut targets);
            if random.once_in(3) {
                targets.extend(some_of(random, states as u64));
            }
            targets.sort_unstable();
            targets.dedup();
            Claim::Relation { source, targets }
        }
    }
}

/// The outcomes, as claims of the observed outputs, that input words lead to: all words of a model
/// with few inputs, some of any other.
fn led_to(random: &mut Random, circuit: &Circuit, source: u64, observed: &[u64]) -> Vec<[u64; 3]> {
    let mut rising = circuit.clone();
    rising.gates.sort_unstable();
    let words: Vec<u64> = match circuit.inputs.len() {
        inputs @ 0..=4 => (0..1 << inputs).collect(),
        _ => (0..16).map(|_| random.bits(circuit.inputs.len())).collect(),
    };
    let claims = words.iter().map(|&word| {
        let stepped = outcome(&rising, source, word).expect("a state and word of the model");
        let whole = [stepped.target, stepped.high, stepped.low];
        let mut claim = [stepped.target, 0, 0];
        for (k, &output) in observed.iter().enumerate() {
            if output_bit(&whole, output as usize) {
                claim[2 - k / 64] |= 1 << (k % 64);
            }
        }
        claim
    });
    claims.collect()
}

/// Keeps all, or all but one value, or few.
fn thin<T: Copy + PartialEq>(random: &mut Random, list: &mut Vec<T>) {
    match random.below(4) {
        0 if !list.is_empty() => {
            let one = random.choose(list);
            list.retain(|other| *other != one);
        }
        1 => list.truncate(random.below(4)),
        _ => {}
    }
}

/// Any outcome of so many observed outputs.
pub fn any_outcome(random: &mut Random, states: usize, observed: usize) -> [u64; 3] {
    let low_bits = observed.min(64);
    [
        random.below(states) as u64,
        random.bits(observed - low_bits),
        random.bits(low_bits),
    ]
}

fn damage_claim(random: &mut Random, claim: &mut Claim<Vec<u64>>) {
    match claim {
        Claim::Relation {
            source: number,
            targets: list,
        }
        | Claim::Terminal {
            bad_output: number,
            states: list,
        } => damage_either(random, number, list),
        Claim::Transducer {
            source,
            observed,
            outcomes,
        } => match random.below(3) {
            0 => damage_list(random, observed),
            _ => damage_either(random, source, outcomes),
        },
    }
}

fn damage_either(random: &mut Random, number: &mut u64, list: &mut Vec<u64>) {
    if random.once_in(3) {
        *number = changed(random, *number);
    } else {
        damage_list(random, list);
    }
}

/// Changes, adds, removes or exchanges words of a list.
fn damage_list(random: &mut Random, list: &mut Vec<u64>) {
    match random.below(5) {
        0 => list.push(random.wide()),
        1 if !list.is_empty() => {
            list.remove(random.below(list.len()));
        }
        2 if list.len() > 1 => {
            let place = random.below(list.len() - 1);
            list.swap(place, place + 1);
        }
        3 if !list.is_empty() => {
            let place = random.below(list.len());
            list.insert(place, list[place]);
        }
        _ => change(random, list),
    }
}
