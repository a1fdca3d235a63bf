//! Measures the proved library beside the published Rust, in one process and in alternating turns.

// The page and its summary are tested without the published files too, where nothing measures.
#![cfg_attr(not(published), allow(dead_code))]

#[cfg(published)]
mod circuits;
#[cfg(published)]
mod compose_texts;
#[cfg(published)]
mod composing;
#[cfg(all(published, feature = "crate"))]
mod crate_calls;
#[cfg(any(published, test))]
mod document;
#[cfg(published)]
mod literals;
#[cfg(any(published, test))]
mod measure;
#[cfg(published)]
mod obligations;
#[cfg(published)]
mod reading;
#[cfg(published)]
mod stepping;
#[cfg(any(published, test))]
mod summary;
#[cfg(any(published, test))]
mod table;
#[cfg(published)]
mod texts;
#[cfg(published)]
mod witness_texts;
#[cfg(published)]
mod witnesses;

/// Every row, in the order of the page.
#[cfg(published)]
fn measure_all(table: &table::Table) {
    reading::measure(table);
    literals::measure(table);
    stepping::measure(table);
    obligations::measure(table);
    witnesses::measure(table);
    composing::measure(table);
    #[cfg(feature = "crate")]
    crate_calls::measure(table);
}

#[cfg(published)]
fn main() {
    let table = table::Table::new(std::env::args().skip(1).collect());
    // Without the crate's rows, as with words, only some rows are measured, and nothing is written.
    let written = table.whole() && cfg!(feature = "crate");
    if written {
        // Said before the minutes of measuring, and not after them.
        ended_by(summary::present(&table::Table::names(measure_all)));
    }
    println!("ours is {}", differential::ours::NAME);
    measure_all(&table);
    if written {
        let path = ended_by(document::write(&table.kept()));
        println!("\nwritten to {}", path.display());
    }
}

/// What was done; where it was not, this says why and ends the program.
#[cfg(published)]
fn ended_by<T, E: std::fmt::Display>(done: Result<T, E>) -> T {
    done.unwrap_or_else(|error| {
        eprintln!("docs/BENCHMARKS.md was not written: {error}");
        std::process::exit(1)
    })
}

#[cfg(not(published))]
fn main() {
    println!("the published Rust files are absent: nothing was measured");
}
