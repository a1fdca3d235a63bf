//! Rows and terminal lists. Ours is lent enough room before the first turn; the Rust makes its own
//! memory, and has no limit on room.

use crate::circuits::{KINDS, circuit, shaped};
use crate::measure::{Times, times};
use crate::stepping::k;
use crate::table::{Table, Unit};
use differential::circuit::Circuit;
use differential::compare::model::circuits::{Order, Shape, arrange};
use differential::compare::obligation::calls::{Predicate, UNMEASURED, set_apart};
use differential::compare::obligation::check::Call;
use differential::oracle::obligation::{Published, words};
use differential::ours::obligation::SUBJECT as OURS;
use differential::random::Random;
use differential::reading::obligation::{MOST_OUTCOMES, parts};
use differential::subject::obligation::{Asked, Claim, Lent};
use std::hint::black_box;

/// With 64 inputs and 8 latches.
const MOST_GATES: usize = 1_000_000 - 72;

/// A named call, made when it is measured.
struct Named {
    name: String,
    make: Box<dyn Fn() -> Call>,
}

pub fn measure(table: &Table) {
    table.head("obligations", Unit::Literals);
    for Named { name, make } in rows().chain(lists()) {
        if table.wants(&name) {
            let call = make();
            let (made, times) = accepted(&call);
            table.row(&name, made, &times);
        }
    }
    table.head("obligations that are refused", Unit::Claims);
    for (reason, Named { name, make }) in refusals() {
        if table.wants(&name) {
            table.row(&name, MOST_OUTCOMES, &refused(&make(), reason));
        }
    }
}

fn named(name: impl Into<String>, make: impl Fn() -> Call + 'static) -> Named {
    Named {
        name: name.into(),
        make: Box::new(make),
    }
}

fn rows() -> impl Iterator<Item = Named> {
    let mut rows = vec![named("relation row: K", || plain(&k(), relation(1)))];
    for targets in [1, 256] {
        let name = format!("relation row: 20 gates, targets {targets}");
        rows.push(named(name, move || plain(&small(8), relation(targets))));
    }
    for kind in &KINDS {
        for size in [1_000, 30_000, 1_000_000] {
            for targets in [1, 256] {
                let name = format!("row: {}, {size} v., targets {targets}", kind.name);
                let make = move || plain(&apart(circuit(kind, size)), relation(targets));
                rows.push(named(name, make));
            }
        }
    }
    for targets in [1, 256] {
        let name = format!("relation row: exact room, 20 gates, targets {targets}");
        rows.push(named(name, move || {
            exact(plain(&small(8), relation(targets)))
        }));
        let name = format!("row: exact room, 1000000 v., targets {targets}");
        let make = move || plain(&apart(circuit(&KINDS[3], 1_000_000)), relation(targets));
        rows.push(named(name, move || exact(make())));
    }
    for (clauses, length) in [(64, 16), (1, 1_024)] {
        let name = format!("relation row: 20 gates, predicate {clauses} x {length}");
        rows.push(named(name, move || with_predicate(clauses, length)));
    }
    rows.into_iter()
}

fn lists() -> impl Iterator<Item = Named> {
    let mut lists = Vec::new();
    for (order, word) in [
        (Order::Falling, "falling"),
        (Order::Rising, "rising"),
        (Order::Any, "any order"),
    ] {
        let name = format!("transducer row: {MOST_OUTCOMES} outcomes of 128, {word}");
        lists.push(named(name, move || {
            plain(&wide(1_000, order), transducer(MOST_OUTCOMES, 128))
        }));
    }
    let name = format!("transducer row: {MOST_OUTCOMES} of 128, 1000000 v.");
    lists.push(named(name, || {
        plain(
            &wide(MOST_GATES, Order::Any),
            transducer(MOST_OUTCOMES, 128),
        )
    }));
    for (outcomes, observed) in [(1_000, 128), (1_000, 8), (MOST_OUTCOMES, 8)] {
        let name = format!("transducer row: {outcomes} outcomes of {observed}");
        lists.push(named(name, move || {
            plain(&wide(1_000, Order::Any), transducer(outcomes, observed))
        }));
    }
    let terminal = || Claim::Terminal {
        bad_output: 0,
        states: (0..256).collect(),
    };
    lists.push(named(
        "terminal list: 30 variables, 256 states",
        move || plain(&small(2), terminal()),
    ));
    lists.push(named(
        "terminal list: 1000000 variables, 256 states",
        move || plain(&apart(circuit(&KINDS[3], 1_000_000)), terminal()),
    ));
    lists.into_iter()
}

/// Each with the number of its reason: a fault in the last outcome, and no room.
fn refusals() -> [(u64, Named); 3] {
    let last = named("transducer row: 14 at the last outcome", || {
        let mut claim = transducer(MOST_OUTCOMES, 128);
        if let Claim::Transducer { outcomes, .. } = &mut claim {
            let place = outcomes.len() - 3;
            outcomes[place] = 256;
        }
        plain(&wide(1_000, Order::Any), claim)
    });
    let no_room = |mut call: Call| {
        call.pairs.0.clear();
        call.literals.0.clear();
        call
    };
    [
        (14, last),
        (
            20,
            named("transducer row: 20, no room", move || {
                let claim = transducer(MOST_OUTCOMES, 128);
                no_room(plain(&wide(1_000, Order::Any), claim))
            }),
        ),
        (
            20,
            named("transducer row: 20, no room, 1000000 v.", move || {
                let claim = transducer(MOST_OUTCOMES, 128);
                no_room(plain(&wide(MOST_GATES, Order::Any), claim))
            }),
        ),
    ]
}

fn random() -> Random {
    Random::new(1, "obligations")
}

/// A call without a predicate.
fn plain(circuit: &Circuit, claim: Claim<Vec<u64>>) -> Call {
    made(circuit, &[], Predicate::default(), claim)
}

/// A call with a work slice of exactly M + 1 words, and as much room as any such call can need.
fn made(circuit: &Circuit, relevant: &[u64], predicate: Predicate, claim: Claim<Vec<u64>>) -> Call {
    let mut call = Call::new(&mut random(), circuit, relevant, predicate, claim);
    call.record.work.0.truncate(circuit.variables + 1);
    let most = call.literals.0.len() + UNMEASURED;
    call.literals.0.resize(most, 0);
    call
}

/// The call with exactly the room that its clauses need, so that they are measured first.
fn exact(mut call: Call) -> Call {
    let made = call.answered(OURS.make).made;
    call.pairs.0.truncate(2 * made.clauses as usize);
    call.literals.0.truncate(made.literals as usize);
    call
}

/// 20 gates and 8 latches.
fn small(inputs: usize) -> Circuit {
    let shape = Shape {
        inputs,
        latches: 8,
        outputs: 8,
        gates: 20,
    };
    apart(shaped(&KINDS[3], shape))
}

/// The circuit with different variables for next literals and outputs, so that no claim is dropped.
fn apart(mut circuit: Circuit) -> Circuit {
    set_apart(&mut random(), &mut circuit);
    circuit
}

/// As many inputs, latches and outputs as there may be, and so many gates; next literals and outputs
/// have their variables in this order.
fn wide(gates: usize, order: Order) -> Circuit {
    let shape = Shape {
        inputs: 64,
        latches: 8,
        outputs: 128,
        gates,
    };
    let mut circuit = apart(shaped(&KINDS[3], shape));
    let nexts = circuit.latches.iter_mut().map(|latch| &mut latch.next);
    let places: Vec<&mut u64> = nexts.chain(&mut circuit.outputs).collect();
    let mut literals: Vec<u64> = places.iter().map(|place| **place).collect();
    arrange(&mut random(), &mut literals, order);
    for (place, literal) in places.into_iter().zip(literals) {
        *place = literal;
    }
    circuit
}

fn relation(targets: u64) -> Claim<Vec<u64>> {
    Claim::Relation {
        source: 1,
        targets: match targets {
            1 => vec![1],
            _ => (0..targets).collect(),
        },
    }
}

/// So many outcomes, the same number for each of 256 targets, of the first outputs.
fn transducer(outcomes: usize, observed: usize) -> Claim<Vec<u64>> {
    let random = &mut random();
    let each = outcomes.div_ceil(256) as u64;
    let mut list: Vec<[u64; 3]> = (0..outcomes as u64)
        .map(|place| match observed {
            8 => [place / each, 0, place % each],
            _ => [place / each, random.word(), random.word()],
        })
        .collect();
    list.sort_unstable();
    Claim::Transducer {
        source: 1,
        observed: (0..observed as u64).collect(),
        outcomes: list.into_flattened(),
    }
}

/// A row of 20 gates and 64 inputs with a predicate: each input in one sign, in any order.
fn with_predicate(clauses: usize, length: usize) -> Call {
    let mut random = random();
    let signs = random.word();
    let mut literal = || {
        let input = random.below(64);
        2 * input as u32 + (signs >> input & 1) as u32
    };
    let clauses: Vec<Vec<u32>> = (0..clauses)
        .map(|_| (0..length).map(|_| literal()).collect())
        .collect();
    let relevant: Vec<u64> = (0..64).collect();
    made(&small(64), &relevant, Predicate::of(&clauses), relation(1))
}

/// The number of literals that both make, and the times.
fn accepted(call: &Call) -> (usize, Times) {
    let ours = call.answered(OURS.make);
    assert_eq!(ours.made.reason, 0);
    let rust = published(call).make().expect("an accepted call");
    let clauses = parts(&ours.pairs.0[..2 * rust.len()], &ours.literals.0).expect("clauses");
    assert_eq!(ours.made.clauses as usize, rust.len());
    assert!(clauses == words(&rust), "the clauses differ");
    let returned = 16 * rust.len() + 4 * ours.made.literals as usize;
    (ours.made.literals as usize, both(call, returned))
}

/// The times of a call that ours refuses with this number. Without room the Rust makes its clauses.
fn refused(call: &Call, reason: u64) -> Times {
    assert_eq!(call.answered(OURS.make).made.reason, reason);
    assert_eq!(published(call).make().is_some(), reason == 20);
    both(call, 0)
}

fn published(call: &Call) -> Published {
    Published::of(&call.asked()).expect("a published form")
}

/// The bytes of a call's arguments.
fn given(asked: &Asked) -> usize {
    let claims = match asked.claim {
        Claim::Relation { targets, .. } => size_of_val(targets),
        Claim::Transducer {
            observed, outcomes, ..
        } => size_of_val(observed) + size_of_val(outcomes),
        Claim::Terminal { states, .. } => size_of_val(states),
    };
    let words = [
        asked.record,
        asked.gates,
        asked.relevant,
        asked.predicate_pairs,
    ];
    let words: usize = words.iter().map(|words| size_of_val(*words)).sum();
    words + size_of_val(asked.predicate_literals) + claims
}

/// The times, where so many bytes are returned.
fn both(call: &Call, returned: usize) -> Times {
    let published = published(call);
    let asked = call.asked();
    let mut work = call.record.work.0.clone();
    let (mut pairs, mut literals) = (call.pairs.0.clone(), call.literals.0.clone());
    let mut lent = Lent {
        work: &mut work,
        pairs: &mut pairs,
        literals: &mut literals,
    };
    times(
        given(&asked) + returned,
        || {
            black_box((OURS.make)(black_box(&asked), &mut lent));
        },
        || {
            let _ = black_box(black_box(&published).make());
        },
    )
}
