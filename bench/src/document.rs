//! `docs/BENCHMARKS.md`: the tables of a whole run, with a summary, the date and the kind of machine.

use crate::summary;
use crate::table::Kept;
use std::fs;
use std::io;
use std::path::PathBuf;
use std::process::Command;
use std::thread::available_parallelism;
use std::time::{SystemTime, UNIX_EPOCH};

const INTRODUCTION: &str = "\
Made by `bench/run`, which measures every row anew and writes this page. `bench/README.md` says what each row is.

- `ours`, `Rust`: the time of one call of the proved library and of the published Rust on the same input, in one process and in alternating
  turns; the best turn counts.
- `copy`: a plain copy, in the same turns, of as many bytes as the call is given and returns: what memory allows.
- `ours / Rust` below 1: ours is faster. `ours / copy`: how many such copies a call takes. The last column shows how cost grows with size.

First ten of the rows in plain words: calls of every kind, small and large, and inputs on which ours gains little or is slower. Then all rows.
";

/// Writes the page, and says where.
pub fn write(kept: &Kept) -> io::Result<PathBuf> {
    let cores = available_parallelism().map_or(1, usize::from);
    let measured = format!("{}, {}, {}, {cores} cores", date(), kit(), processor());
    let page = page(&measured, kept).map_err(io::Error::other)?;
    let path = path();
    fs::write(&path, page)?;
    Ok(path)
}

/// The page of the rows that were measured then and there.
fn page(measured: &str, Kept { tables, rows }: &Kept) -> Result<String, String> {
    let (summary, totals, slower) = (
        summary::table(rows)?,
        summary::totals(rows),
        summary::slower(rows),
    );
    Ok(format!(
        "# Benchmarks\n\n{INTRODUCTION}\n{summary}\n{measured}; {totals}.\n{slower}{tables}"
    ))
}

fn path() -> PathBuf {
    concat!(env!("CARGO_MANIFEST_DIR"), "/../docs/BENCHMARKS.md").into()
}

/// The kit that the library was proved and compiled with.
fn kit() -> String {
    let told = Command::new("rt").arg("version").output();
    let told = told.map_or(String::new(), |it| {
        String::from_utf8_lossy(&it.stdout).into_owned()
    });
    told.split_whitespace()
        .next()
        .unwrap_or("an unknown kit")
        .into()
}

/// The kind of processor, where the system tells it.
fn processor() -> String {
    let told = fs::read_to_string("/proc/cpuinfo").unwrap_or_default();
    let line = told.lines().find(|line| line.starts_with("model name"));
    let name = line.and_then(|line| line.split_once(':'));
    name.map_or("an unknown processor", |(_, name)| name.trim())
        .into()
}

/// Today's date, by the days since 1970: eras of 400 years that begin on the first of March.
fn date() -> String {
    let seconds = SystemTime::now().duration_since(UNIX_EPOCH);
    let days = seconds.map_or(0, |passed| passed.as_secs() / 86_400) + 719_468;
    let (era, day) = (days / 146_097, days % 146_097);
    let year = (day - day / 1_460 + day / 36_524 - day / 146_096) / 365;
    let day = day - (365 * year + year / 4 - year / 100);
    let month = (5 * day + 2) / 153;
    let day = day - (153 * month + 2) / 5 + 1;
    let (month, next) = if month < 10 {
        (month + 3, 0)
    } else {
        (month - 9, 1)
    };
    format!("{}-{month:02}-{day:02}", era * 400 + year + next)
}

#[cfg(test)]
#[path = "document_tests.rs"]
mod tests;
