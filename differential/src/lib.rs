//! The proved library, the published Rust that it ports, and a plain reading of the requirements,
//! side by side. Where the published files are absent, there is nothing here.

#![cfg(published)]

// Two files of the Rust crate: the declarations of the library's calls, and the clause that the
// published files import. The crate itself would always link the library, and the stand-in does
// without.
#[macro_use]
#[allow(dead_code)]
#[path = "../../bindings/rust/src/library.rs"]
mod library;
#[allow(dead_code)]
#[path = "../../bindings/rust/src/unsat_proof.rs"]
mod unsat_proof;

pub mod arguments;
pub mod circuit;
pub mod compare;
pub mod oracle;
pub mod ours;
pub mod random;
pub mod reading;
pub mod sample;
pub mod sections;
pub mod subject;
mod tally;

/// A word of the library, as its header has it.
type Word = u64;
