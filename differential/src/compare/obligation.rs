//! The obligation layer: the three calls that make clauses, and what the clauses mean.

pub mod calls;
pub mod check;
mod faults;
mod limits;
mod lists;
mod meaning;
mod predicates;
mod random;
mod small;
mod solvers;
mod tables;

use crate::compare;
use crate::ours;
use crate::subject::obligation::Subject;

type Run = compare::Run<Subject>;
type Group = compare::Group<Subject>;
type Fault = compare::Fault<Subject>;

pub static LAYER: compare::Layer<Subject> = compare::Layer {
    ours: ours::obligation::SUBJECT,
    cases: 20_000,
    groups: &GROUPS,
    faults: faults::FAULTS,
};

const GROUPS: [Group; 24] = [
    tables::TABLES,
    small::RELATION,
    small::TRANSDUCER,
    small::TERMINAL,
    predicates::SMALL,
    predicates::PAIRS,
    predicates::LIMITS,
    predicates::RELEVANT,
    lists::STATES,
    lists::OBSERVED,
    lists::BITS,
    lists::ORDER,
    lists::MANY,
    limits::ROOM,
    limits::LENT,
    limits::RECORDS,
    limits::FIRST_REASON,
    random::ACCEPTED,
    random::DAMAGED,
    random::LARGE,
    meaning::SMALL,
    meaning::RANDOM,
    meaning::STEPS,
    meaning::LARGER,
];
