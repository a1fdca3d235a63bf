//! The model layer: the transition reader, the validation of records, and the step.

pub mod check;
pub mod circuits;
mod faults;
mod limits;
pub mod pages;
mod readings;
pub mod records;
mod short;
mod steps;

use crate::compare;
use crate::ours;
use crate::subject::model::Subject;

type Run = compare::Run<Subject>;
type Group = compare::Group<Subject>;
type Fault = compare::Fault<Subject>;

pub static LAYER: compare::Layer<Subject> = compare::Layer {
    ours: ours::model::SUBJECT,
    cases: 20_000,
    groups: &GROUPS,
    faults: faults::FAULTS,
};

const GROUPS: [Group; 21] = [
    short::HEADERS,
    short::HEADER_BYTES,
    short::BODIES,
    short::LITERALS,
    short::EACH_BYTE,
    readings::INITIALIZERS,
    readings::LENT,
    readings::RANDOM,
    readings::DAMAGED,
    limits::COUNTS,
    limits::LARGE,
    limits::LONG,
    records::SMALL,
    records::COUNTS,
    records::LENT,
    records::WORDS,
    records::RANDOM,
    steps::SMALL,
    steps::WIDE,
    steps::WILD,
    steps::LARGE,
];

/// Model K of the requirements' tables, and model Q, whose gates are not listed in rising order.
pub const K: &[u8] = b"aag 3 1 1 1 1\n2\n4 6\n6\n6 4 2\n";
pub const Q: &[u8] = b"aag 3 0 1 1 2\n2 6\n6\n6 4 4\n4 2 2\n";
