//! The crate beside the published Rust that the library ports, on the original's own calls: the same
//! acceptance and the same values. The published files are found by `build.rs`.
//!
//! NITRASOVY_SEED gives other random cases; a difference shows the seed.

#[cfg(published)]
mod circuits;
#[cfg(published)]
mod compositions;
#[cfg(published)]
mod models;
#[cfg(published)]
mod obligations;
#[cfg(published)]
mod random;
#[cfg(published)]
mod texts;

/// The published files, which know the clause by this crate's type.
#[cfg(published)]
mod published {
    include!(concat!(env!("OUT_DIR"), "/published.rs"));
}

#[cfg(published)]
mod unsat_proof {
    pub use nitrasovy::unsat_proof::CnfClause;
}

/// Written past the test harness, which keeps the output of tests that pass to itself.
#[cfg(not(published))]
#[test]
fn nothing_was_compared_the_published_files_are_absent() {
    use std::io::Write;
    let message = "the published Rust files are absent: NOTHING WAS COMPARED with the original; name \
                   their folder in NITRASOVY_RUST_SOURCE\n";
    let _ = std::io::stderr().write_all(message.as_bytes());
}
