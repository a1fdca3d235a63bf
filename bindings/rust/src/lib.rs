//! Locks of drug entries, ASCII AIGER circuits of at most eight latches, and safety witnesses: read,
//! stepped, turned into clauses for a SAT solver, and composed.
//!
//! The work is done by the proved library `libnitrasovy.a`; this crate lends it memory and turns
//! its answers into lists. Modules, names, types and signatures are those of the Rust that the
//! library ports, so that a program changes one `use`:
//!
//! ```
//! use nitrasovy::aiger_obligation::{
//!     AigerInputPredicate, parse_ascii_aiger_transition, relation_row_completeness_cnf,
//! };
//!
//! let lock = parse_ascii_aiger_transition(b"aag 3 1 1 1 1\n2\n4 6\n6\n6 4 2\n")?;
//! assert_eq!(lock.evaluate(1, 1)?, (1, 1));
//!
//! let any_input = AigerInputPredicate { clauses: vec![] };
//! let clauses = relation_row_completeness_cnf(&lock, &[], 1, &any_input, &[1])?;
//! assert_eq!(clauses.len(), 5);
//! assert_eq!(lock.evaluate(2, 1).unwrap_err().number(), 12);
//! # Ok::<(), nitrasovy::aiger_obligation::AigerObligationError>(())
//! ```
//!
//! What differs from the original:
//! - An error has a number and a sentence for it, see [`Refusal`]; the public field of an error is
//!   a `Refusal`, not a `String`.
//! - More than 65,536 claimed outcomes are refused (14).
//! - `AigerTransition::state_count` never stops the program, see there.
//! - Texts at which the original stops the program, or for which it reserves memory without a
//!   limit, are refused.
//! - [`composed_witness`] has calls that are private in the original.
//!
//! No call panics, whatever it is given. Memory beside arguments and results: reading and stepping
//! take some 8 bytes a variable; an obligation some 90 bytes a gate; composing 128 bytes for each
//! variable, output, bad and constraint of all texts, and a copy of the witnesses. Where the machine
//! has not enough, composing is refused (15 or 20); the other calls end as every list of Rust does
//! that finds no memory.

#![deny(unsafe_code)]

#[cfg(not(target_pointer_width = "64"))]
compile_error!("the library's words are 64 bits wide, and so must usize be");

pub mod aiger_obligation;
pub mod composed_witness;
mod header;
mod library;
#[cfg(test)]
mod library_tests;
mod refusal;
mod room;
pub mod unsat_proof;

pub use refusal::Refusal;

/// A word of the library: the original's lists are of `usize`.
type Word = usize;

/// The example of the README is run with the others.
#[cfg(doctest)]
#[doc = include_str!("../README.md")]
struct Readme;
