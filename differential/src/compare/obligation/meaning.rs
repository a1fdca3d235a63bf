//! What the clauses mean, by brute force: over all assignments whether they are satisfied, over all
//! input words whether a claim is reached. Both must give the same assignments.

use super::calls::Predicate;
use super::check::{Answer, Call};
use super::small::{each_relation, each_terminal, each_transducer};
use super::{Group, Run, solvers};
use crate::circuit::Circuit;
use crate::compare::model::circuits::{Order, Plan, Shape, any_plan, make, wide_shape};
use crate::ours;
use crate::random::Random;
use crate::reading::meaning::{Meaning, meaning};
use crate::subject::model::Model;
use crate::subject::obligation::Claim;
use crate::tally::Answers;
use std::collections::BTreeSet;

pub const SMALL: Group = Group {
    name: "meaning: small models, all claims",
    run: small,
};

pub const RANDOM: Group = Group {
    name: "meaning: random models of up to 12 variables",
    run: random,
};

pub const LARGER: Group = Group {
    name: "meaning: satisfiability of larger models",
    run: larger,
};

pub const STEPS: Group = Group {
    name: "meaning: the outcome of a step, and others",
    run: steps,
};

/// What clauses mean to whoever tries all assignments of so many variables.
pub fn returned(clauses: &[&[u32]], variables: usize) -> Meaning {
    let holds = |assignment: u64, word: u32| assignment >> (word / 2) & 1 == u64::from(word % 2);
    let satisfied = |assignment: &u64| {
        clauses
            .iter()
            .all(|clause| clause.iter().any(|&word| holds(*assignment, word)))
    };
    let open: BTreeSet<u64> = (0..1 << variables).filter(satisfied).collect();
    Meaning {
        complete: open.is_empty(),
        open,
    }
}

/// The clauses that are returned, where all their variables are below M.
fn clauses_of(answer: &Answer, variables: usize) -> Option<Vec<&[u32]>> {
    let within = |word: &u32| ((word / 2) as usize) < variables;
    let clauses = answer.clauses()?;
    let all_within = clauses.iter().copied().flatten().all(within);
    all_within.then_some(clauses)
}

/// Holds the clauses of an accepted call to what it must mean.
fn check(run: &mut Run, call: &Call) {
    let answer = call.answered(run.ours.make);
    let variables = call.record.model.max_variable;
    let answers = Answers {
        ours: clauses_of(&answer, variables).map(|clauses| returned(&clauses, variables)),
        rust: None,
        reading: Some(meaning(&call.asked())),
    };
    run.tally.check(answers, || call.shown());
}

fn small(run: &mut Run) {
    each_relation(run, check);
    each_transducer(run, check);
    each_terminal(run, check);
}

fn random(run: &mut Run) {
    for _ in 0..run.cases / 2 {
        let call = any_call(&mut run.random, 4, 12);
        check(run, &call);
    }
}

/// A call of a model with at most so many inputs and variables.
fn any_call(random: &mut Random, inputs: usize, variables: usize) -> Call {
    let latches = 1 + random.below(3);
    let inputs = random.below(inputs + 1);
    let shape = Shape {
        inputs,
        latches,
        outputs: 1 + random.below(4),
        gates: random.below(variables + 1 - latches - inputs),
    };
    let plan = any_plan(random, shape);
    let circuit = make(random, &plan);
    Call::any(random, &circuit)
}

/// Models that are too large for all assignments: a small solver decides, and one of the machine's
/// where there is one, which takes the place of the Rust.
fn larger(run: &mut Run) {
    for _ in 0..run.cases / 20 {
        let call = any_call(&mut run.random, 6, 60);
        let variables = call.record.model.max_variable;
        let answer = call.answered(run.ours.make);
        let clauses = clauses_of(&answer, variables);
        let answers = Answers {
            ours: clauses
                .as_ref()
                .map(|clauses| solvers::satisfiable(clauses, variables)),
            rust: clauses
                .and_then(|clauses| solvers::asked(&clauses, variables))
                .map(Some),
            reading: Some(!meaning(&call.asked()).complete),
        };
        run.tally.check(answers, || call.shown());
    }
}

/// Joins rows and steps, whose halves and bits must be the same: a predicate that fixes every input,
/// and the outcome of the step as the only claim, whole and with one bit changed. Gates are listed with
/// rising outputs, so that the step follows the gate equations.
fn steps(run: &mut Run) {
    for _ in 0..run.cases / 20 {
        let shape = wide_shape(&mut run.random);
        let plan = Plan {
            listing: Order::Rising,
            ..any_plan(&mut run.random, shape)
        };
        let circuit = make(&mut run.random, &plan);
        let source = run.random.below(1 << shape.latches) as u64;
        let word = run.random.bits(shape.inputs);
        let mut work = vec![0; circuit.variables + 1];
        let model = Model::of(&circuit);
        let stepped = (ours::model::SUBJECT.step)(&model, circuit.words(), &mut work, source, word);
        let outcome = [stepped.target, stepped.high, stepped.low];
        check_outcome(run, &circuit, (source, word), outcome, false);
        let mut other = outcome;
        match run.random.below(shape.latches + shape.outputs) {
            bit if bit < shape.latches => other[0] ^= 1 << bit,
            bit => {
                let output = bit - shape.latches;
                other[2 - output / 64] ^= 1 << (output % 64);
            }
        }
        check_outcome(run, &circuit, (source, word), other, true);
    }
}

/// Whether a row with a source, one input word and one claimed outcome of all outputs is satisfiable.
fn check_outcome(
    run: &mut Run,
    circuit: &Circuit,
    (source, word): (u64, u64),
    outcome: [u64; 3],
    satisfiable: bool,
) {
    let relevant: Vec<u64> = (0..circuit.inputs.len() as u64).collect();
    let fixed = relevant
        .iter()
        .map(|input| vec![(2 * input + (word >> input & 1)) as u32]);
    let predicate = Predicate::of(&fixed.collect::<Vec<_>>());
    let claim = Claim::Transducer {
        source,
        observed: (0..circuit.outputs.len() as u64).collect(),
        outcomes: outcome.to_vec(),
    };
    let call = Call::new(&mut run.random, circuit, &relevant, predicate, claim);
    let answer = call.answered(run.ours.make);
    let clauses = clauses_of(&answer, circuit.variables);
    let answers = Answers {
        ours: clauses.map(|clauses| solvers::satisfiable(&clauses, circuit.variables)),
        rust: None,
        reading: Some(satisfiable),
    };
    run.tally.check(answers, || call.shown());
}
