//! Rows, rows with outputs and terminal lists.

use crate::circuits::{damage, model, theirs};
use crate::published::aiger_obligation as original;
use crate::random::Random;
use crate::unsat_proof::CnfClause;
use nitrasovy::aiger_obligation::{
    AigerInputPredicate, AigerOutcome, AigerTransition, relation_row_completeness_cnf,
    terminal_completeness_cnf, transducer_row_completeness_cnf,
};

/// Arguments of all three calls.
struct Case {
    model: AigerTransition,
    relevant: Vec<usize>,
    predicate: AigerInputPredicate,
    source: usize,
    states: Vec<usize>,
    observed: Vec<usize>,
    outcomes: Vec<AigerOutcome>,
    bad: usize,
}

fn case(random: &mut Random) -> Case {
    let model = model(random, 10);
    let relevant = random.some_of(model.inputs.len(), 2);
    let clause = |random: &mut Random| match relevant.len() {
        0 => vec![],
        limit => (0..random.below(4))
            .map(|_| (random.below(limit), random.once_in(2)))
            .collect(),
    };
    let clauses = (0..random.below(4)).map(|_| clause(random)).collect();
    let observed = random.some_of(model.outputs.len(), 2);
    let mut outcomes: Vec<AigerOutcome> = (0..random.below(6))
        .map(|_| AigerOutcome {
            target: random.below(model.state_count()),
            outputs: random.below(1 << observed.len()) as u128,
        })
        .collect();
    outcomes.sort_unstable();
    outcomes.dedup();
    Case {
        source: random.below(model.state_count()),
        states: random.some_of(model.state_count(), 2),
        bad: random.below(model.outputs.len().max(1)),
        predicate: AigerInputPredicate { clauses },
        model,
        relevant,
        observed,
        outcomes,
    }
}

/// Changes one argument so that it may be refused.
fn spoil(random: &mut Random, case: &mut Case) {
    let huge = random.choose(&[2, 5, 9, 1 << 31, 1 << 32, usize::MAX]);
    match random.below(9) {
        0 => damage(random, &mut case.model),
        1 => case.relevant.push(huge),
        2 => case.predicate.clauses.push(vec![(huge, true)]),
        3 => case.source = huge,
        4 => case.states.push(random.below(9)),
        5 => case.observed.push(huge),
        6 => case.bad = huge,
        7 => case.outcomes.push(AigerOutcome {
            target: huge,
            outputs: 0,
        }),
        _ => case.outcomes.push(AigerOutcome {
            target: random.below(8),
            outputs: 1 << random.below(128),
        }),
    }
}

type Clauses = Option<Vec<CnfClause>>;

/// A row, a row with outputs and a list by this crate.
fn ours(case: &Case) -> [Clauses; 3] {
    let (model, relevant, predicate) = (&case.model, &case.relevant, &case.predicate);
    let (source, states, seen, ends) = (case.source, &case.states, &case.observed, &case.outcomes);
    [
        relation_row_completeness_cnf(model, relevant, source, predicate, states).ok(),
        transducer_row_completeness_cnf(model, relevant, source, predicate, seen, ends).ok(),
        terminal_completeness_cnf(model, relevant, predicate, case.bad, states).ok(),
    ]
}

/// The same by the original.
fn expected(case: &Case) -> [Clauses; 3] {
    let (model, relevant) = (&theirs(&case.model), &case.relevant);
    let predicate = &original::AigerInputPredicate {
        clauses: case.predicate.clauses.clone(),
    };
    let outcomes = case.outcomes.iter().map(|outcome| original::AigerOutcome {
        target: outcome.target,
        outputs: outcome.outputs,
    });
    let ends = &outcomes.collect::<Vec<_>>();
    let (source, states, seen) = (case.source, &case.states, &case.observed);
    use original::{
        relation_row_completeness_cnf as row, terminal_completeness_cnf as list,
        transducer_row_completeness_cnf as outputs,
    };
    [
        row(model, relevant, source, predicate, states).ok(),
        outputs(model, relevant, source, predicate, seen, ends).ok(),
        list(model, relevant, predicate, case.bad, states).ok(),
    ]
}

/// Whether all three were accepted.
fn compare(case: &Case) -> bool {
    let ours = ours(case);
    assert_eq!(ours, expected(case), "{:?}", case.model);
    ours.iter().all(Option::is_some)
}

#[test]
fn clauses_are_the_same() {
    let mut random = Random::of("clauses");
    let accepted = (0..4_000).filter(|_| compare(&case(&mut random))).count();
    assert!(accepted > 2_500, "{accepted} of 4000");
}

#[test]
fn spoiled_arguments_are_refused_alike() {
    let mut random = Random::of("spoiled");
    let mut accepted = 0;
    for _ in 0..4_000 {
        let mut case = case(&mut random);
        for _ in 0..=random.below(2) {
            spoil(&mut random, &mut case);
        }
        accepted += usize::from(compare(&case));
    }
    assert!((50..3_000).contains(&accepted), "{accepted} of 4000");
}

/// Predicates at their limits: 64 clauses, 1,024 literals, one more of each.
#[test]
fn long_predicates_are_taken_alike() {
    let mut random = Random::of("predicates");
    for (clauses, length) in [
        (64, 16),
        (65, 0),
        (64, 0),
        (65, 1),
        (1, 1_024),
        (1, 1_025),
        (2, 513),
    ] {
        let mut case = case(&mut random);
        while case.relevant.is_empty() {
            case = self::case(&mut random);
        }
        let limit = case.relevant.len();
        let mut literal = || (random.below(limit), random.once_in(2));
        let mut clause = || (0..length).map(|_| literal()).collect();
        case.predicate.clauses = (0..clauses).map(|_| clause()).collect();
        compare(&case);
    }
}
