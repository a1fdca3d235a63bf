//! The page in `docs/` is what its own rows give, and a row that the summary wants cannot go unnoticed.

use super::{page, path};
use crate::summary;
use crate::table::{Kept, Row, Unit};
use std::fs;

/// The rows of a page's tables, and when and where they were measured.
fn read(page: &str) -> (String, Kept) {
    let start = page.find("\n## ").expect("a table");
    let (front, tables) = page.split_at(start);
    let line = front.lines().find(|line| line.contains(" cores; "));
    let (measured, _) = line.and_then(|line| line.split_once(';')).expect("a date");
    let mut unit = Unit::Bytes;
    let mut rows = Vec::new();
    for line in tables.lines().filter(|line| line.starts_with("| ")) {
        let cells: Vec<&str> = line.trim_matches('|').split('|').map(str::trim).collect();
        let [name, size, ours, rust, _, ratio, _, _] = cells[..] else {
            panic!("a row of eight cells: {line}");
        };
        if name == "row" {
            unit = Unit::ALL
                .into_iter()
                .find(|unit| unit.words().1 == size)
                .expect("a unit");
            continue;
        }
        rows.push(Row {
            name: name.into(),
            size: size.parse().expect("a size"),
            unit,
            ours: ours.into(),
            rust: rust.into(),
            ratio: ratio.into(),
        });
    }
    let tables = tables.into();
    (measured.into(), Kept { tables, rows })
}

fn committed() -> String {
    fs::read_to_string(path()).expect("the page")
}

#[test]
fn the_page_is_what_its_rows_give() {
    let committed = committed();
    let (measured, kept) = read(&committed);
    let made = page(&measured, &kept).expect("all rows of the summary");
    // Line by line, since a failure would show both pages else.
    let mut lines = made.lines().zip(committed.lines());
    assert_eq!(lines.find(|(made, committed)| made != committed), None);
    assert_eq!(made.len(), committed.len());
}

#[test]
fn a_row_of_the_summary_that_is_gone_is_named() {
    let (measured, mut kept) = read(&committed());
    kept.rows.retain(|row| row.name != "step: K");
    let names: Vec<String> = kept.rows.iter().map(|row| row.name.clone()).collect();
    let refused = page(&measured, &kept).expect_err("a row is gone");
    assert!(refused.contains("'step: K'"), "{refused}");
    assert_eq!(summary::present(&names), Err(refused));
}

/// The rows of the crate are there where the program is built with it.
#[cfg(published)]
#[test]
fn the_rows_of_the_summary_are_measured() {
    let mut names = crate::table::Table::names(crate::measure_all);
    if cfg!(not(feature = "crate")) {
        let (_, kept) = read(&committed());
        let of_crate = kept.rows.into_iter().map(|row| row.name);
        names.extend(of_crate.filter(|name| name.starts_with("crate ")));
    }
    assert_eq!(summary::present(&names), Ok(()));
}

#[test]
fn totals_name_the_slowest_row() {
    let row = |name: &str, ratio: &str| Row {
        name: name.into(),
        size: 1,
        unit: Unit::Lines,
        ours: "1.0 ns".into(),
        rust: "1.0 ns".into(),
        ratio: ratio.into(),
    };
    let rows = [row("a", "0.99"), row("b", "1.50"), row("c", "1.00")];
    assert_eq!(
        summary::totals(&rows),
        "3 rows, ours faster in 1, not in 2; the slowest is `b` at 1.50"
    );
    assert!(
        summary::slower(&rows)
            .ends_with("- `b`: 1.0 ns beside 1.0 ns, 1.50\n- `c`: 1.0 ns beside 1.0 ns, 1.00\n")
    );
    assert_eq!(summary::slower(&rows[..1]), "");
}
