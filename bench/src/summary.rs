//! What stands first in `docs/BENCHMARKS.md`: ten telling rows, and what is to be said of all rows.

use crate::table::Row;
use std::fmt::Write;

/// What a user does, and the row that measures it: each call once, small and large, among them inputs on which ours
/// gains little. The last was the slowest of all rows beside the Rust when these were chosen.
const TELLING: [(&str, &str); 10] = [
    (
        "read a lock of 1,000,000 variables",
        "read: rising, short operands, 1000000 variables",
    ),
    (
        "take one literal, with a plus sign and blanks around it",
        "take_literal: plus and blanks, 1",
    ),
    ("one step of a lock with one gate", "step: K"),
    (
        "one step of a lock with 1,000,000 variables, gates as records",
        "step by records: rising, short operands, 1000000 variables",
    ),
    (
        "a relation row of a lock with one gate, one target",
        "relation row: K",
    ),
    (
        "a transducer row of 65,536 outcomes over 128 outputs in order",
        "transducer row: 65536 outcomes of 128, rising",
    ),
    (
        "a terminal list of 1,000,000 variables and 256 states",
        "terminal list: 1000000 variables, 256 states",
    ),
    (
        "read a witness of 900,000 variables, with its sections and names",
        "witness load: short operands, 900000 variables",
    ),
    (
        "compose two witnesses of 1,000,000 gates each, nearly all shared",
        "compose: 2 x 1000000, few pairs",
    ),
    (
        "a relation row of a lock with one gate, through the Rust crate",
        "crate row: K",
    ),
];

/// That there is a row of each name that the summary has.
pub fn present(names: &[String]) -> Result<(), String> {
    let absent = |name| !names.iter().any(|one| one == name);
    match TELLING.iter().find(|(_, name)| absent(name)) {
        Some((_, name)) => Err(missing(name)),
        None => Ok(()),
    }
}

/// The table of the telling rows.
pub fn table(rows: &[Row]) -> Result<String, String> {
    let mut table = String::from(
        "| what is done | size | ours | Rust | ours / Rust | row |\n|---|--:|--:|--:|--:|---|\n",
    );
    for (done, name) in TELLING {
        let row = rows.iter().find(|row| row.name == name);
        let row = row.ok_or_else(|| missing(name))?;
        let (one, all) = row.unit.words();
        let unit = if row.size == 1 { one } else { all };
        let (size, ours, rust, ratio) = (row.size, &row.ours, &row.rust, &row.ratio);
        let line = writeln!(
            table,
            "| {done} | {size} {unit} | {ours} | {rust} | {ratio} | `{name}` |"
        );
        line.expect("a string takes every line");
    }
    Ok(table)
}

/// How many rows there are, in how many of them ours is faster, and which is the slowest.
pub fn totals(rows: &[Row]) -> String {
    let slowest = rows
        .iter()
        .max_by(|one, other| one.ratio().total_cmp(&other.ratio()));
    let slowest = slowest.map_or_else(String::new, |row| {
        format!("; the slowest is `{}` at {}", row.name, row.ratio)
    });
    let faster = rows.iter().filter(|row| row.faster()).count();
    let (all, slower) = (rows.len(), rows.len() - faster);
    format!("{all} rows, ours faster in {faster}, not in {slower}{slowest}")
}

/// The rows in which ours is not faster, a line for each.
pub fn slower(rows: &[Row]) -> String {
    let slower = rows.iter().filter(|row| !row.faster());
    let lines: String = slower
        .map(|row| {
            format!(
                "- `{}`: {} beside {}, {}\n",
                row.name, row.ours, row.rust, row.ratio
            )
        })
        .collect();
    match lines.as_str() {
        "" => lines,
        _ => format!("\nNot faster, with ours / Rust:\n\n{lines}"),
    }
}

fn missing(name: &str) -> String {
    format!(
        "the summary names the row '{name}', which there is none of: change TELLING in bench/src/summary.rs"
    )
}
