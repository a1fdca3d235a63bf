//! The text layer: numbers, lines, fields, literals, words, text checks and decimal digits.

mod checks;
mod decimal;
mod faults;
mod lines;
mod literals;
mod numbers;
mod words;

use crate::compare;
use crate::ours;
use crate::subject::Subject;

type Run = compare::Run<Subject>;
type Group = compare::Group<Subject>;
type Fault = compare::Fault<Subject>;

pub static LAYER: compare::Layer<Subject> = compare::Layer {
    ours: ours::SUBJECT,
    cases: 100_000,
    groups: &GROUPS,
    faults: &[faults::FAULTS],
};

const GROUPS: [Group; 24] = [
    numbers::SHORT,
    numbers::PAIRS,
    numbers::ABOVE_127,
    numbers::LIMITS,
    numbers::RANDOM,
    literals::SHORT,
    literals::PLACES,
    literals::RANDOM,
    lines::SHORT,
    lines::RANDOM,
    lines::LONG,
    lines::FIELDS_SHORT,
    lines::FIELDS_EACH_BYTE,
    lines::FIELDS_RANDOM,
    lines::FIRST_FIELDS,
    lines::HEADER_WORDS,
    words::SHORT,
    words::NAMED,
    checks::SHORT,
    checks::BLOCKS,
    checks::LONG,
    decimal::WRITTEN,
    decimal::LENGTHS,
    decimal::READ_BACK,
];
