//! The witness layer: the witness reader, as it reads models and witnesses, and all that it reads.

mod check;
pub mod circuits;
mod faults;
mod large;
mod limits;
mod loads;
mod orders;
pub mod pages;
mod random;
mod short;
mod symbols;

use crate::compare;
use crate::ours;
use crate::subject::witness::Subject;

type Run = compare::Run<Subject>;
type Group = compare::Group<Subject>;
type Fault = compare::Fault<Subject>;

pub static LAYER: compare::Layer<Subject> = compare::Layer {
    ours: ours::witness::SUBJECT,
    cases: 20_000,
    groups: &GROUPS,
    faults: faults::FAULTS,
};

const GROUPS: [Group; 20] = [
    short::HEADERS,
    short::HEADER_BYTES,
    short::BODIES,
    short::TAILS,
    short::LITERALS,
    short::EACH_BYTE,
    symbols::FORMS,
    symbols::TWICE,
    symbols::COMMENTS,
    orders::COMBINED,
    limits::COUNTS,
    limits::HUGE,
    limits::LIVENESS,
    limits::BOUNDS,
    loads::LENT,
    random::WHOLE,
    random::DAMAGED,
    large::VARIABLES,
    large::NAMES,
    large::LONG,
];

/// A witness with one of each kind, a name for its input and its latch, and a comment.
pub const W: &[u8] =
    b"aag 3 1 1 1 1 1 1\n2\n4 6 1\n6\n7\n1\n6 4 2\ni0 = 2\nl0 a b\nc0 x\nc\nMAP 1\n";
