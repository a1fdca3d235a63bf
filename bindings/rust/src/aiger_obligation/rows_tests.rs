//! Room that is too small at first, and values at which sums could wrap.

use super::*;
use crate::aiger_obligation::{AigerAnd, AigerLatch, parse_ascii_aiger_transition};

fn lock() -> AigerTransition {
    parse_ascii_aiger_transition(b"aag 3 1 1 1 1\n2\n4 6\n6\n6 4 2\n").expect("model K")
}

fn any_input() -> AigerInputPredicate {
    AigerInputPredicate { clauses: vec![] }
}

/// The row from state 1 to state 1, with this room at first; and how many calls it took.
fn made_with(first: Room) -> (Result<Vec<CnfClause>, AigerObligationError>, usize) {
    let (model, predicate) = (lock(), any_input());
    let calls = std::cell::Cell::new(0);
    let asked = Asked::of(&model, &[], &predicate);
    let answer = asked.make(first, |asked, lent| {
        calls.set(calls.get() + 1);
        let Lent {
            work,
            pairs,
            literals,
        } = lent;
        library::nit_relation_row(
            asked.model.words(),
            asked.gates,
            &[],
            1,
            &[],
            &[],
            &[1],
            work,
            pairs,
            literals,
        )
    });
    (answer, calls.get())
}

#[test]
fn too_little_room_is_made_good() {
    let whole = relation_row_completeness_cnf(&lock(), &[], 1, &any_input(), &[1]);
    assert_eq!(whole.as_ref().map(Vec::len), Ok(5));
    for (first, calls) in [
        ([5, 9], 1),
        ([4, 9], 2),
        ([5, 8], 2),
        ([0, 0], 2),
        ([1 << 20, 1], 2),
    ] {
        assert_eq!(made_with(first), (whole.clone(), calls), "{first:?}");
    }
}

#[test]
fn the_first_room_is_enough() {
    let (model, predicate) = (lock(), any_input());
    let asked = Asked::of(&model, &[], &predicate);
    assert_eq!(made_with(asked.room(1, 0)).1, 1);
}

#[test]
fn room_is_bounded_whatever_is_claimed() {
    let (model, predicate) = (lock(), any_input());
    let asked = Asked::of(&model, &[], &predicate);
    let room = asked.room(usize::MAX, usize::MAX);
    assert_eq!(room, [2 + 3 + 65_536, 2 + 1_024 + 7 + 65_536 * 129]);
}

fn row_number(model: &AigerTransition, relevant: &[usize], source: usize, input: usize) -> u8 {
    let predicate = AigerInputPredicate {
        clauses: vec![vec![(input, false)]],
    };
    let row = relation_row_completeness_cnf(model, relevant, source, &predicate, &[]);
    row.map_or_else(AigerObligationError::number, |_| 0)
}

#[test]
fn huge_values_are_refused() {
    let (lock, mut larger) = (lock(), lock());
    assert_eq!(row_number(&lock, &[0], 1, 0), 0);
    for huge in [1 << 31, 1 << 32, 1 << 63, usize::MAX] {
        assert_eq!(row_number(&lock, &[0], 1, huge), 13);
        assert_eq!(row_number(&lock, &[huge], 1, 0), 13);
        assert_eq!(row_number(&lock, &[0], huge, 0), 14);
        assert_eq!(lock.evaluate(huge, 0).unwrap_err().number(), 12);
        let list = terminal_completeness_cnf(&lock, &[], &any_input(), huge, &[]);
        assert_eq!(list.unwrap_err().number(), 14);
        larger.max_variable = huge;
        assert_eq!(row_number(&larger, &[0], huge, huge), 11);
    }
}

/// Lists that are cut to their place in the record, and M with them, would make a good model.
#[test]
fn lists_beyond_the_record_are_refused() {
    for (inputs, latches, outputs) in [(65, 1, 0), (0, 9, 0), (0, 1, 129), (300, 300, 300)] {
        let (first, all) = (inputs.min(64), inputs.min(64) + latches.min(8));
        let literals = |from: usize, count| (from + 1..=from + count).map(|variable| 2 * variable);
        let mut model = AigerTransition {
            max_variable: all,
            inputs: literals(0, inputs).collect(),
            latches: literals(first, latches)
                .map(|current| AigerLatch { current, next: 0 })
                .collect(),
            outputs: vec![0; outputs],
            ands: vec![],
        };
        model.state_count();
        let number = model.validate().unwrap_err().number();
        assert_eq!(number, 11, "{inputs} {latches} {outputs}");
        model.inputs.truncate(64);
        model.latches.truncate(8);
        model.outputs.truncate(128);
        assert_eq!(model.validate(), Ok(()), "{inputs} {latches} {outputs}");
    }
}

#[test]
fn a_huge_count_of_variables_is_not_taken_for_the_largest() {
    let gate = |variable: usize| AigerAnd {
        output: 2 * variable,
        left: 2,
        right: 3,
    };
    let mut model = AigerTransition {
        max_variable: 1_000_000,
        inputs: vec![],
        latches: vec![AigerLatch {
            current: 2,
            next: 5,
        }],
        outputs: vec![],
        ands: (2..=1_000_000).map(gate).collect(),
    };
    assert_eq!(model.validate(), Ok(()));
    for huge in [1_000_001, 1 << 32, usize::MAX] {
        model.max_variable = huge;
        assert_eq!(model.validate().unwrap_err().number(), 11, "{huge}");
    }
}
