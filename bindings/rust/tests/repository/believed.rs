//! What must be believed stands apart.

use super::{finds, passes, root};
use std::fs;
use std::path::Path;
use std::process::Command;

#[test]
fn what_a_reader_must_believe_stands_apart() {
    passes("believed");
}

#[test]
fn an_import_from_an_inner_is_found() {
    finds(
        "believed",
        "inner-import",
        "crates/model/specs/Circuit.antt",
        "use Rattle.model.specs.Inner.Marking.{marked}",
        "crates/model/specs/Circuit.antt",
    );
}

#[test]
fn an_export_that_names_an_inner_definition_is_found() {
    finds(
        "believed",
        "inner-promise",
        "crates/nitrasovy_c/src/lib.rt",
        "ghost use Rattle.nitrasovy.specs.Inner.FlatEnums.{flat_sizes};\n\
         pub extern \"C\" fn nit_wrong() -> u64\n    ensures { result ≡ flat_sizes }\n{",
        "flat_sizes",
    );
}

#[test]
fn a_definition_that_no_promise_needs_is_found() {
    finds(
        "believed",
        "unneeded",
        "crates/model/specs/Alone.antt",
        "-- A definition that nothing cites.",
        "model Alone",
    );
}

/// How many files one of them rests on, and how many lines they have.
fn beneath(root: &Path, of: &str, file: &str) -> (usize, usize) {
    let output = Command::new(root.join("checks/believed"))
        .args([root.as_os_str(), of.as_ref(), file.as_ref()])
        .output()
        .unwrap();
    let listed = String::from_utf8(output.stdout).unwrap();
    let (first, last) = (listed.lines().next(), listed.lines().last());
    let name = format!("crates/{of}/specs/{file}.antt");
    assert!(first.unwrap_or_default().ends_with(&name), "{listed}");
    let total = last.and_then(|line| line.trim().split(' ').next()?.parse().ok());
    (listed.lines().count() - 1, total.unwrap())
}

/// The numbers of `docs/PROVED.md`: what demand 3 rests on, and what its promises add to that.
#[test]
fn what_demand_3_rests_on_is_counted() {
    let Some(root) = root() else { return };
    let page = fs::read_to_string(root.join("docs/PROVED.md")).unwrap();
    let record = fs::read_to_string(root.join("crates/model/specs/RecordWords.antt")).unwrap();
    let rows = beneath(&root, "obligation_spec", "Meaning");
    let promised_rows = beneath(&root, "nitrasovy", "FlatObligations");
    let compositions = beneath(&root, "compose_spec", "Meaning");
    let promised_compositions = beneath(&root, "nitrasovy", "FlatCompositions");
    // The exports' own contracts name the record's words.
    let further = |(files, lines): (usize, usize), by: (usize, usize), more: (usize, usize)| {
        (files - by.0 + more.0, lines - by.1 + more.1)
    };
    for (files, lines) in [
        rows,
        further(promised_rows, rows, (1, record.lines().count())),
        compositions,
        further(promised_compositions, compositions, (0, 0)),
    ] {
        let lines = match lines {
            0..1000 => lines.to_string(),
            _ => format!("{},{:03}", lines / 1000, lines % 1000),
        };
        assert!(
            page.contains(&format!("| {files}, {lines} |")),
            "{files}, {lines}"
        );
    }
}
