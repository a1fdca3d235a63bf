//! The compose layer: the composer, and what a composition means.

pub mod cases;
mod check;
pub mod circuits;
pub mod collisions;
mod faults;
mod large;
pub mod leaves;
mod lent;
mod limits;
mod mapping;
mod meaning;
mod orders;
mod pairs;
mod random;
mod small;
mod tables;

use crate::compare;
use crate::ours;
use crate::subject::compose::Subject;

type Run = compare::Run<Subject>;
type Group = compare::Group<Subject>;
type Fault = compare::Fault<Subject>;

pub static LAYER: compare::Layer<Subject> = compare::Layer {
    ours: ours::compose::SUBJECT,
    cases: 20_000,
    groups: &GROUPS,
    faults: faults::FAULTS,
};

const GROUPS: [Group; 23] = [
    tables::TABLES,
    orders::TEXTS,
    orders::LATER,
    pairs::PLACES,
    pairs::COUNTS,
    mapping::NAMES,
    mapping::MIXED,
    mapping::PRIVATE,
    small::SHAPES,
    small::GATES,
    small::TWO_GATES,
    small::LATCHES,
    small::LISTS,
    small::EACH_BYTE,
    lent::AMOUNTS,
    random::WHOLE,
    random::MANY,
    random::DAMAGED,
    meaning::SMALL,
    meaning::RANDOM,
    limits::VARIABLES,
    limits::LONGEST,
    large::LARGE,
];

/// Model and witness of the requirements' composing case; the other witness ends in `3`.
pub const MODEL: &[u8] = b"aag 1 0 1 0 0\n2 2\n";
pub const FIRST: &[u8] = b"aag 1 0 1 1 0\n2 2\n2\n";
pub const SECOND: &[u8] = b"aag 1 0 1 1 0\n2 2\n3\n";
