//! A case: which call is made and with what, in the form in which `replay` reads it.

use crate::subject::model::WORDS;
use crate::subject::obligation::Claim;
use crate::subject::witness::Role;
use crate::subject::{Rule, obligation};

/// The calls, by the numbers that cases begin with.
#[derive(Clone, Copy, Debug, Eq, Ord, PartialEq, PartialOrd)]
pub enum Call {
    Transition = 1,
    Step,
    Relation,
    Transducer,
    Terminal,
    Witness,
    Compose,
    Literal,
}

/// A call that makes clauses, and how many words are lent to it.
#[derive(Clone, Debug)]
pub struct Making {
    pub record: Vec<u64>,
    pub gates: Vec<u64>,
    pub relevant: Vec<u64>,
    pub predicate_pairs: Vec<u64>,
    pub predicate_literals: Vec<u32>,
    pub claim: Claim<Vec<u64>>,
    pub work: usize,
    pub pairs: usize,
    pub literals: usize,
}

#[derive(Clone, Debug)]
pub enum Case {
    Transition {
        text: Vec<u8>,
        gates: usize,
        work: usize,
    },
    Step {
        record: Vec<u64>,
        gates: Vec<u64>,
        work: usize,
        state: u64,
        input: u64,
    },
    Making(Making),
    Witness {
        text: Vec<u8>,
        role: Role,
    },
    Compose {
        model: Vec<u8>,
        witnesses: Vec<u8>,
        pairs: Vec<u64>,
        work: usize,
        room: usize,
    },
    Literal {
        text: Vec<u8>,
        rule: Rule,
        at: usize,
    },
}

impl Making {
    pub fn asked(&self) -> obligation::Asked<'_> {
        obligation::Asked {
            record: &self.record,
            gates: &self.gates,
            relevant: &self.relevant,
            predicate_pairs: &self.predicate_pairs,
            predicate_literals: &self.predicate_literals,
            claim: self.claim.lend(),
        }
    }

    fn numbers(&self) -> Vec<u64> {
        let nothing = Vec::new();
        let (number, first, second) = match &self.claim {
            Claim::Relation { source, targets } => (*source, targets, &nothing),
            Claim::Transducer {
                source,
                observed,
                outcomes,
            } => (*source, observed, outcomes),
            Claim::Terminal { bad_output, states } => (*bad_output, states, &nothing),
        };
        let literals = self.predicate_literals.iter().map(|&word| u64::from(word));
        let mut numbers = sizes(&[self.work, self.pairs, self.literals]);
        numbers.push(number);
        listed(
            &mut numbers,
            &[
                &self.record,
                &self.gates,
                &self.relevant,
                &self.predicate_pairs,
                &literals.collect::<Vec<u64>>(),
                first,
                second,
            ],
        );
        numbers
    }
}

impl Case {
    pub fn call(&self) -> Call {
        match self {
            Self::Transition { .. } => Call::Transition,
            Self::Step { .. } => Call::Step,
            Self::Making(making) => call_of(&making.claim),
            Self::Witness { .. } => Call::Witness,
            Self::Compose { .. } => Call::Compose,
            Self::Literal { .. } => Call::Literal,
        }
    }

    /// A line of numbers, a block of bytes, and byte 10. The line has the call, the length of the
    /// block, and what the call is given beside it.
    pub fn form(&self) -> Vec<u8> {
        let block = self.block();
        let mut numbers = vec![self.call() as u64, block.len() as u64];
        numbers.extend(self.numbers());
        let numbers: Vec<String> = numbers.iter().map(u64::to_string).collect();
        [numbers.join(" ").as_bytes(), b"\n", &block, b"\n"].concat()
    }

    fn numbers(&self) -> Vec<u64> {
        match self {
            Self::Transition { gates, work, .. } => sizes(&[*gates, *work]),
            Self::Step {
                record,
                gates,
                work,
                state,
                input,
            } => {
                let mut numbers = vec![*work as u64, *state, *input];
                listed(&mut numbers, &[record, gates]);
                numbers
            }
            Self::Making(making) => making.numbers(),
            Self::Witness { role, .. } => vec![u64::from(*role == Role::Witness)],
            Self::Compose {
                model,
                pairs,
                work,
                room,
                ..
            } => {
                let mut numbers = sizes(&[*work, *room, model.len()]);
                numbers.extend(pairs);
                numbers
            }
            Self::Literal { rule, at, .. } => vec![u64::from(*rule == Rule::Witness), *at as u64],
        }
    }

    fn block(&self) -> Vec<u8> {
        match self {
            Self::Transition { text, .. }
            | Self::Witness { text, .. }
            | Self::Literal { text, .. } => text.clone(),
            Self::Compose {
                model, witnesses, ..
            } => [&model[..], witnesses].concat(),
            Self::Step { .. } | Self::Making(_) => Vec::new(),
        }
    }
}

pub fn call_of<L>(claim: &Claim<L>) -> Call {
    match claim {
        Claim::Relation { .. } => Call::Relation,
        Claim::Transducer { .. } => Call::Transducer,
        Claim::Terminal { .. } => Call::Terminal,
    }
}

fn sizes(sizes: &[usize]) -> Vec<u64> {
    sizes.iter().map(|&size| size as u64).collect()
}

/// The lengths of lists, and then the lists.
fn listed(numbers: &mut Vec<u64>, lists: &[&Vec<u64>]) {
    numbers.extend(lists.iter().map(|list| list.len() as u64));
    numbers.extend(lists.iter().copied().flatten());
}

/// The words of a record with one digit in each slot past the counts, which are not read: the
/// comparison has any words there, and they would be most of what is stored.
pub fn short_slots(record: &[u64]) -> Vec<u64> {
    let mut words = record.to_vec();
    words.resize(WORDS, 0);
    for (count, start, end) in [(1, 2, 66), (66, 67, 83), (83, 84, 212)] {
        let used = match start {
            67 => words[count].saturating_mul(2),
            _ => words[count],
        };
        let used = used.min((end - start) as u64) as usize;
        for slot in &mut words[start + used..end] {
            *slot %= 10;
        }
    }
    words.truncate(record.len());
    words
}
