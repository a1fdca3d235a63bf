//! The stored sample: cases for the program `replay`, and what it must print. The cases are some of
//! those that the comparison's groups make; the answers are the Rust's, with the reading's numbers
//! for refusals and the reading's answers where the Rust has none.

mod answer;
mod case;
mod recorder;
mod self_test;
mod show;
mod tables;

use crate::compare::{Layer, compose, model, obligation, witness};
use case::{Call, Case};
use std::collections::BTreeMap;
use std::fs;
use std::panic;
use std::path::Path;

/// The seed of all random choices.
const SEED: u64 = 1;
/// How many random inputs a random group makes.
const CASES: usize = 600;
/// The most bytes that the program takes, and that it prints.
const MOST_BYTES: usize = 999_999;

/// Groups that are left out: their texts are too large to be stored, or they are about meaning.
const LEFT_OUT: [&str; 17] = [
    "read: circuits of up to 1,000,001 variables",
    "read: texts around 16,777,216 bytes",
    "steps: models of up to 1,000,000 variables",
    "claims: around 65,536 outcomes",
    "models of 1,000,000 variables",
    "meaning: small models, all claims",
    "meaning: random models of up to 12 variables",
    "meaning: the outcome of a step, and others",
    "meaning: satisfiability of larger models",
    "witness: circuits of up to 2,000,001 variables",
    "witness: up to 1,000,000 names",
    "witness: texts around 16,777,216 bytes",
    "compose: large circuits",
    "compose: around 2,000,000 composed variables",
    "compose: the longest texts and models",
    "compose: meaning of small compositions",
    "compose: meaning of random compositions",
];

/// Every reason that a call can give, 0 for acceptance. 17 needs texts that are too large.
const DUE: [(Call, &[u64]); 8] = [
    (Call::Transition, &[0, 3, 4, 5, 7, 8, 11]),
    (Call::Step, &[0, 7, 11, 12]),
    (Call::Relation, &[0, 7, 11, 13, 14, 20]),
    (Call::Transducer, &[0, 7, 11, 13, 14, 20]),
    (Call::Terminal, &[0, 7, 11, 13, 14, 20]),
    (Call::Witness, &[0, 3, 4, 5, 6, 8, 9, 10, 11]),
    (
        Call::Compose,
        &[0, 1, 2, 3, 4, 5, 6, 8, 9, 10, 11, 15, 16, 18, 19, 20],
    ),
    (Call::Literal, &[0, 8]),
];

/// Cases and answers as they are stored, how many there are for each call and reason, and of how many
/// the Rust was asked.
#[derive(Default)]
struct Sample {
    cases: Vec<u8>,
    answers: Vec<u8>,
    stored: Vec<Case>,
    counts: BTreeMap<(Call, u64), usize>,
    by_rust: usize,
}

/// Makes the sample and writes it to the folder of `replay`, or tries it on wrong variants. False where
/// an answer is in doubt, or a reason is missing.
pub fn run(self_test: bool) -> bool {
    match make() {
        Ok(sample) if self_test => {
            panic::set_hook(Box::new(|_| ()));
            self_test::run(&sample.stored);
            true
        }
        Ok(sample) => sample.store(),
        Err(error) => {
            println!("no sample: {error}");
            false
        }
    }
}

fn make() -> Result<Sample, String> {
    let mut sample = Sample::default();
    let mut cases = tables::cases();
    cases.extend(chosen(&model::LAYER, recorder::MODEL)?);
    cases.extend(chosen(&obligation::LAYER, recorder::OBLIGATION)?);
    cases.extend(chosen(&witness::LAYER, recorder::WITNESS)?);
    cases.extend(chosen(&compose::LAYER, recorder::COMPOSE)?);
    // A wrong variant may stop at a case that is not of its own group, which says nothing.
    panic::set_hook(Box::new(|_| ()));
    let telling = self_test::telling(&cases);
    drop(panic::take_hook());
    cases.extend(telling);
    for case in &cases {
        sample.add(case)?;
    }
    sample.complete()?;
    Ok(sample)
}

/// Some of the cases of a layer's groups, which are met by putting a recording subject in the place
/// of the library. The groups compare it with the Rust as well: there may be no difference.
fn chosen<S: Copy>(layer: &Layer<S>, recording: S) -> Result<Vec<Case>, String> {
    let mut chosen = Vec::new();
    for group in layer.groups {
        if LEFT_OUT.contains(&group.name) {
            continue;
        }
        recorder::start(SEED, group.name);
        let tally = group.tally(SEED, CASES, recording);
        if let Some(difference) = tally.shown.first() {
            return Err(format!("{}: {difference}", group.name));
        }
        chosen.extend(recorder::taken());
    }
    Ok(chosen)
}

impl Sample {
    fn add(&mut self, case: &Case) -> Result<(), String> {
        let form = case.form();
        let answer = answer::answer(case).map_err(|error| format!("{error} of {case:?}"))?;
        self.cases.extend(form);
        self.answers.extend(answer.text);
        self.answers.push(10);
        self.stored.push(case.clone());
        let count = self.counts.entry((case.call(), answer.reason));
        *count.or_default() += 1;
        self.by_rust += usize::from(answer.by_rust);
        Ok(())
    }

    /// Whether every reason is met, and all fits in the program's buffers.
    fn complete(&self) -> Result<(), String> {
        for (call, reasons) in DUE {
            for &reason in reasons {
                if !self.counts.contains_key(&(call, reason)) {
                    return Err(format!("no case of {call:?} with reason {reason}"));
                }
            }
        }
        if self.cases.len().max(self.answers.len()) > MOST_BYTES {
            return Err(format!(
                "{} bytes of cases, {} of answers",
                self.cases.len(),
                self.answers.len()
            ));
        }
        Ok(())
    }

    /// Writes the two files and says what is in them.
    fn store(&self) -> bool {
        let folder = Path::new(env!("CARGO_MANIFEST_DIR")).join("../crates/replay");
        for (name, bytes) in [("stdin", &self.cases), ("stdout", &self.answers)] {
            if let Err(error) = fs::write(folder.join(name), bytes) {
                println!("{name}: {error}");
                return false;
            }
            println!("{name}: {} bytes", bytes.len());
        }
        for (call, _) in DUE {
            let counts = self.counts.iter().filter(|((other, _), _)| *other == call);
            let counts: Vec<String> = counts
                .map(|((_, reason), count)| format!("{reason}: {count}"))
                .collect();
            println!("{call:?} by reason {}", counts.join(", "));
        }
        let cases: usize = self.counts.values().sum();
        println!("{cases} cases, the Rust was asked of {}", self.by_rust);
        true
    }
}
