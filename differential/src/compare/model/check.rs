//! One case of each function: the answer, and every word that was lent.

use super::Run;
use crate::circuit::Circuit;
use crate::compare::lent::{Words, refusal};
use crate::oracle::model as oracle;
use crate::random::Random;
use crate::reading::model as reading;
use crate::subject::model::{Model, Read, Step, Stepped, Subject, Validate};
use crate::tally::{Answers, shown};

/// The most gate words that are lent on a header's word.
const MOST_GATE_WORDS: u64 = 3_000_010;

/// What is lent to the reader.
#[derive(Clone)]
pub struct Lent {
    pub gates: Words,
    pub work: Words,
}

impl Lent {
    pub fn of(random: &mut Random, gate_words: usize, work_words: usize) -> Self {
        Self {
            gates: Words::garbage(random, gate_words),
            work: Words::garbage(random, work_words),
        }
    }

    /// Enough for the counts that a text's header says, at times a few words more.
    pub fn enough_for(random: &mut Random, text: &[u8]) -> Self {
        let header = reading::counts(text);
        let (gates, variables) = header.map_or((0, 0), |counts| (counts.gates, counts.variables));
        let gate_words = gates.saturating_mul(3).min(MOST_GATE_WORDS) as usize;
        let work_words = variables.min(MOST_GATE_WORDS / 3) as usize + 1;
        let more = random.choose(&[0, 0, 1, 2, 7]);
        Self::of(random, gate_words + more, work_words + more)
    }
}

#[derive(Clone, Debug, Eq, PartialEq)]
struct ReadAnswer {
    read: Read,
    gates: Words,
    work: Words,
}

/// Compares one reading with so much lent. The circuit, where the text is one.
pub fn read(run: &mut Run, text: &[u8], lent: &Lent) -> Option<Circuit> {
    let answer = |read: fn(&[u8], &mut [u64], &mut [u64]) -> Read| {
        let (mut gates, mut work) = (lent.gates.clone(), lent.work.clone());
        let read = read(text, &mut gates.0, &mut work.0);
        ReadAnswer { read, gates, work }
    };
    let ours = answer(run.ours.read);
    let reading = answer(reading::read);
    let reason = reading.read.reason;
    let rust = (reason != 7 && oracle::can_take(text)).then(|| match oracle::read(text) {
        Some(circuit) => ReadAnswer {
            read: Read {
                reason: 0,
                model: Model::of(&circuit),
            },
            gates: lent.gates.with(circuit.words()),
            work: lent.work.zeros(),
        },
        None => ReadAnswer {
            read: Read::refused(refusal(reason)),
            gates: lent.gates.clone(),
            work: lent.work.zeros(),
        },
    });
    let circuit = reading.read.model.circuit(&reading.gates.0);
    let answers = Answers {
        ours,
        rust,
        reading,
    };
    run.tally.check(answers, || {
        let (gates, work) = (lent.gates.0.len(), lent.work.0.len());
        format!("{} gate words {gates}, work words {work}", shown(text))
    });
    circuit.filter(|_| reason == 0)
}

/// A record that is handed in, with gate words and a work slice.
#[derive(Clone)]
pub struct Record {
    pub model: Model,
    pub gates: Vec<u64>,
    pub work: Words,
}

#[derive(Clone, Debug, Eq, PartialEq)]
struct Answered<T> {
    answer: T,
    work: Words,
}

impl Record {
    /// The record of a circuit, with garbage where nothing may be read and a work slice of M + 1.
    pub fn of(random: &mut Random, circuit: &Circuit) -> Self {
        let mut model = Model::of(circuit);
        for slot in &mut model.inputs[circuit.inputs.len()..] {
            *slot = random.wide();
        }
        for slot in &mut model.latches[circuit.latches.len()..] {
            slot.current = random.wide();
            slot.next = random.wide();
        }
        for slot in &mut model.outputs[circuit.outputs.len()..] {
            *slot = random.wide();
        }
        let mut gates = circuit.words().to_vec();
        for _ in 0..random.choose(&[0, 0, 1, 2, 5]) {
            gates.push(random.wide());
        }
        let work = Words::garbage(random, circuit.variables + 1);
        Self { model, gates, work }
    }

    /// The published form, where there is one and the work slice is long enough: the Rust has none.
    fn transition(&self) -> Option<crate::oracle::aiger::AigerTransition> {
        if self.work.0.len() <= self.model.max_variable {
            return None;
        }
        let circuit = self.model.circuit(&self.gates)?;
        Some(oracle::transition(&circuit))
    }

    fn answered<T>(&self, call: impl Fn(&Self, &mut [u64]) -> T) -> Answered<T> {
        let mut work = self.work.clone();
        let answer = call(self, &mut work.0);
        Answered { answer, work }
    }

    pub fn shown(&self) -> String {
        let work = self.work.0.len();
        let gates = Words(self.gates.clone());
        format!("{:?}, gates {gates:?}, work words {work}", self.model)
    }
}

/// Compares one validation.
pub fn validate(run: &mut Run, record: &Record) {
    let answer = |validate: Validate<Model>| {
        record.answered(|record, work| validate(&record.model, &record.gates, work))
    };
    let reading = answer(reading::validate);
    let rust = record.transition().map(|transition| Answered {
        answer: match transition.validate() {
            Ok(()) => 0,
            Err(_) => refusal(reading.answer),
        },
        work: record.work.zeros(),
    });
    let answers = Answers {
        ours: answer(run.ours.validate),
        rust,
        reading,
    };
    run.tally.check(answers, || record.shown());
}

/// Compares steps of one record, from each of the states with each input word.
pub fn steps(run: &mut Run, record: &Record, cases: &[(u64, u64)]) {
    let transition = record.transition();
    let ours: Subject = run.ours;
    for &(state, input) in cases {
        let answer = |step: Step<Model>| {
            record.answered(|record, work| step(&record.model, &record.gates, work, state, input))
        };
        let reading = answer(reading::step);
        let rust = transition.as_ref().map(|transition| Answered {
            answer: oracle::step(transition, state, input)
                .unwrap_or(Stepped::refused(refusal(reading.answer.reason))),
            work: record.work.zeros(),
        });
        let by_records = record.answered(|record, work| {
            (ours.step_records)(record.model.words(), &record.gates, work, state, input)
        });
        for ours in [answer(ours.step), by_records] {
            let answers = Answers {
                ours,
                rust: rust.clone(),
                reading: reading.clone(),
            };
            run.tally.check(answers, || {
                format!("state {state}, input {input}, {}", record.shown())
            });
        }
    }
}

/// Compares the validation of a record that is lent as these words, and steps of it. The Rust has
/// no such form.
pub fn lent_as(run: &mut Run, record: &Record, words: &[u64], cases: &[(u64, u64)]) {
    let ours: Subject = run.ours;
    let validated = |validate: Validate<[u64]>| {
        record.answered(|record, work| validate(words, &record.gates, work))
    };
    let answers = Answers {
        ours: validated(ours.validate_words),
        rust: None,
        reading: validated(reading::validate_words),
    };
    let shown = || format!("record words {}, {}", words.len(), record.shown());
    run.tally.check(answers, shown);
    for &(state, input) in cases {
        let stepped = |step: Step<[u64]>| {
            record.answered(|record, work| step(words, &record.gates, work, state, input))
        };
        for step in [ours.step_words, ours.step_records] {
            let answers = Answers {
                ours: stepped(step),
                rust: None,
                reading: stepped(reading::step_words),
            };
            run.tally.check(answers, || {
                format!("state {state}, input {input}, {}", shown())
            });
        }
    }
}
