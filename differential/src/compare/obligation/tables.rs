//! The requirements' own rows: the clauses that they print, and what they say of satisfiability.

use super::check::{Call, check};
use super::meaning::returned;
use super::{Group, Run};
use crate::compare::model::{K, Q};
use crate::reading::model as reading;
use crate::subject::obligation::Claim;
use crate::tally::Answers;

pub const TABLES: Group = Group {
    name: "the requirements' tables",
    run: tables,
};

fn tables(run: &mut Run) {
    let terminal = |states: &[u64]| Claim::Terminal {
        bad_output: 0,
        states: states.to_vec(),
    };
    let relation = |source, targets: &[u64]| Claim::Relation {
        source,
        targets: targets.to_vec(),
    };
    let k: [&[u32]; 5] = [&[3], &[3, 4], &[1, 4], &[0, 2, 5], &[4]];
    row(run, K, relation(1, &[1]), |clauses, _| clauses == k);
    row(run, K, terminal(&[0, 1]), |_, satisfiable| !satisfiable);
    row(run, K, terminal(&[0]), |_, satisfiable| satisfiable);
    let constant: [&[u32]; 2] = [&[0], &[]];
    let text = b"aag 1 0 1 0 0\n2 0\n";
    row(run, text, relation(0, &[0]), |clauses, _| {
        clauses == constant
    });
    row(run, Q, relation(1, &[1]), |_, satisfiable| !satisfiable);
}

/// Compares a call, and holds the clauses that ours returns to what the requirements say.
fn row(run: &mut Run, text: &[u8], claim: Claim<Vec<u64>>, said: impl Fn(&[&[u32]], bool) -> bool) {
    let circuit = reading::circuit(text, usize::MAX, usize::MAX).expect("a model");
    let call = Call::plain(&mut run.random, &circuit, claim);
    check(run, &call);
    let answer = call.answered(run.ours.make);
    let holds = answer.clauses().is_some_and(|clauses| {
        let meaning = returned(&clauses, circuit.variables);
        said(&clauses, !meaning.complete)
    });
    let answers = Answers {
        ours: holds,
        rust: None,
        reading: true,
    };
    run.tally.check(answers, || call.shown());
}
