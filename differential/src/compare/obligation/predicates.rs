//! Relevant inputs and predicates: all small ones, and the limits of R9.13.

use super::calls::{Predicate, any_claim};
use super::check::{Call, check};
use super::{Group, Run};
use crate::circuit::Circuit;
use crate::compare::inputs::{all_lists, all_words};
use crate::compare::model::circuits::{Operands, Order, Plan, Shape, make};

pub const SMALL: Group = Group {
    name: "predicates: all small ones",
    run: small,
};

pub const PAIRS: Group = Group {
    name: "predicates: pairs in all places",
    run: pairs,
};

pub const LIMITS: Group = Group {
    name: "predicates: clauses and literals at the limits",
    run: limits,
};

pub const RELEVANT: Group = Group {
    name: "predicates: relevant inputs",
    run: relevant,
};

/// A model with so many inputs, two latches, an output and a gate, in any numbering.
pub fn model(run: &mut Run, inputs: usize) -> Circuit {
    let plan = Plan {
        shape: Shape {
            inputs,
            latches: 2,
            outputs: 1,
            gates: 1,
        },
        numbering: Order::Any,
        listing: Order::Any,
        operands: Operands::Any,
    };
    make(&mut run.random, &plan)
}

/// Compares a call of each kind with these relevant inputs and this predicate.
fn each_kind(run: &mut Run, circuit: &Circuit, relevant: &[u64], predicate: &Predicate) {
    for kind in 0..3 {
        let claim = any_claim(&mut run.random, circuit, kind);
        let call = Call::new(&mut run.random, circuit, relevant, predicate.clone(), claim);
        check(run, &call);
    }
}

/// Up to two clauses of up to two literals, some of them outside, over two inputs.
fn small(run: &mut Run) {
    let mut clauses: Vec<Vec<u32>> = Vec::new();
    all_lists(&[0, 1, 2, 3, 4, 5], 2, |clause| {
        clauses.push(clause.to_vec())
    });
    let circuit = model(run, 2);
    let relevants: [&[u64]; 8] = [&[], &[0], &[1], &[0, 1], &[1, 0], &[0, 0], &[0, 2], &[2]];
    for relevant in relevants {
        each_kind(run, &circuit, relevant, &Predicate::default());
        for first in &clauses {
            each_kind(
                run,
                &circuit,
                relevant,
                &Predicate::of(std::slice::from_ref(first)),
            );
            for second in &clauses {
                let both = [first.clone(), second.clone()];
                each_kind(run, &circuit, relevant, &Predicate::of(&both));
            }
        }
    }
}

/// Offsets and lengths around the buffer's end and around 2^64, half pairs, overlaps and gaps.
fn pairs(run: &mut Run) {
    let circuit = model(run, 2);
    let check_pairs = |run: &mut Run, pairs: &[u64], literals: &[u32]| {
        let predicate = Predicate {
            pairs: pairs.to_vec(),
            literals: literals.to_vec(),
        };
        each_kind(run, &circuit, &[0, 1], &predicate);
    };
    // Every literal of this buffer is inside, or the third alone is not.
    for literals in [&[0, 3, 1], &[1, 2, 4]] {
        for length in 0..=3 {
            let literals = &literals[..length];
            for words in 0..=3 {
                all_words(&[0, 1, 2, 3, 4], words, |pairs| {
                    check_pairs(run, pairs, literals);
                });
            }
            all_words(&[0, 1, 3], 4, |pairs| check_pairs(run, pairs, literals));
        }
    }
    const WILD: [u64; 12] = [
        0,
        1,
        2,
        3,
        4,
        1 << 32,
        (1 << 32) + 1,
        1 << 63,
        (1 << 63) + 1,
        u64::MAX - 2,
        u64::MAX - 1,
        u64::MAX,
    ];
    all_words(&WILD, 2, |pair| {
        check_pairs(run, pair, &[0, 1, 2]);
        check_pairs(run, &[pair, &[3, 0]].concat(), &[0, 1, 2]);
        check_pairs(run, &[&[0, 1], pair].concat(), &[0, 1, 2]);
        check_pairs(run, &[pair, pair].concat(), &[0, 1, 2]);
        check_pairs(run, &[pair, &[1]].concat(), &[0, 1, 2]);
    });
}

/// 64 clauses and 1,024 literals, in one clause and over several, with their neighbours.
fn limits(run: &mut Run) {
    let circuit = model(run, 64);
    let all: Vec<u64> = (0..64).collect();
    for clauses in [1, 2, 63, 64, 65, 66] {
        for literals in [0, 1, 15, 16, 17, 1_023, 1_024, 1_025, 1_026] {
            // All literals in the first clause, in the last one, or spread.
            let spread: Vec<usize> = (0..clauses)
                .map(|clause| literals / clauses + usize::from(clause < literals % clauses))
                .collect();
            let mut first = vec![0; clauses];
            first[0] = literals;
            let last: Vec<usize> = first.iter().rev().copied().collect();
            for lengths in [first, last, spread] {
                check_lengths(run, &circuit, &all, &lengths);
            }
        }
    }
    // 65 and more clauses, and more than 1,024 literals, that name no part of the buffer.
    for pairs in [64, 65, 1_000] {
        for words in [2 * pairs, 2 * pairs + 1, 2 * pairs - 1] {
            let predicate = Predicate {
                pairs: vec![0; words],
                literals: Vec::new(),
            };
            each_kind(run, &circuit, &all, &predicate);
        }
    }
    gaps(run, &circuit, &all);
    sorting(run, &circuit, &all);
}

/// Few literals in a long buffer: what lies between the clauses is neither looked at nor counted.
fn gaps(run: &mut Run, circuit: &Circuit, relevant: &[u64]) {
    for (clauses, length) in [(1, 3), (2, 512), (64, 16), (64, 0)] {
        for gap in [1, 100, 2_000] {
            let mut literals = Vec::new();
            let mut pairs = Vec::new();
            for _ in 0..clauses {
                literals.extend((0..gap).map(|_| run.random.wide() as u32));
                pairs.extend([literals.len() as u64, length as u64]);
                literals.extend((0..length).map(|_| run.random.below(128) as u32 | 1));
            }
            each_kind(run, circuit, relevant, &Predicate { pairs, literals });
        }
    }
}

/// Clauses of these lengths; in one call the literals are any, in one they are all positive, so
/// that the clause is kept whole.
fn check_lengths(run: &mut Run, circuit: &Circuit, relevant: &[u64], lengths: &[usize]) {
    for positive in [false, true] {
        let clauses: Vec<Vec<u32>> = lengths
            .iter()
            .map(|&length| {
                (0..length)
                    .map(|_| run.random.below(128) as u32 | u32::from(positive))
                    .collect()
            })
            .collect();
        each_kind(run, circuit, relevant, &Predicate::of(&clauses));
    }
}

/// Clauses of many literals with repeats, in falling, rising and any order, of one sign a variable;
/// and the same with one variable in both signs.
fn sorting(run: &mut Run, circuit: &Circuit, relevant: &[u64]) {
    for length in [2, 3, 5, 8, 16, 31, 64, 65, 100, 1_000, 1_024] {
        let signs = run.random.word();
        for order in 0..3 {
            let mut clause: Vec<u32> = (0..length)
                .map(|_| {
                    let input = run.random.below(64);
                    2 * input as u32 + (signs >> input & 1) as u32
                })
                .collect();
            match order {
                0 => clause.sort_unstable(),
                1 => clause.sort_unstable_by(|a, b| b.cmp(a)),
                _ => {}
            }
            each_kind(run, circuit, relevant, &Predicate::of(&[clause.clone()]));
            let last = clause.len() - 1;
            clause[last] = clause[0] ^ 1;
            each_kind(run, circuit, relevant, &Predicate::of(&[clause]));
        }
    }
}

/// Lists around 64 inputs, that are not rising, or that name no input; indices around the list's end.
fn relevant(run: &mut Run) {
    for inputs in [0, 1, 2, 63, 64] {
        let circuit = model(run, inputs);
        let count = inputs as u64;
        let mut lists: Vec<Vec<u64>> = (0..=count + 2).map(|end| (0..end).collect()).collect();
        for index in [count, count + 1, 1 << 32, 1 << 63, u64::MAX, u64::MAX - 1] {
            lists.push(vec![index]);
            lists.push((0..count.saturating_sub(1)).chain([index]).collect());
        }
        for place in 1..inputs {
            let mut exchanged: Vec<u64> = (0..count).collect();
            exchanged.swap(place - 1, place);
            lists.push(exchanged);
            let mut repeated: Vec<u64> = (0..count).collect();
            repeated[place] = repeated[place - 1];
            lists.push(repeated);
            lists.push((0..count).filter(|&input| input != place as u64).collect());
        }
        for list in lists {
            let end = 2 * list.len() as u32;
            each_kind(run, &circuit, &list, &Predicate::default());
            for literal in [
                0,
                1,
                end.wrapping_sub(2),
                end.wrapping_sub(1),
                end,
                end + 1,
                !0,
                !1,
            ] {
                let predicate = Predicate::of(&[vec![literal]]);
                each_kind(run, &circuit, &list, &predicate);
            }
        }
    }
}
