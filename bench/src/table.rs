//! The rows: printed as they are measured, and kept for the document.

use crate::measure::Times;
use std::cell::{Cell, RefCell};

/// What the columns show of a row's size.
#[derive(Clone, Copy)]
pub enum Unit {
    Bytes,
    Gates,
    Literals,
    Claims,
    Lines,
}

impl Unit {
    #[cfg(test)]
    pub const ALL: [Unit; 5] = [
        Unit::Bytes,
        Unit::Gates,
        Unit::Literals,
        Unit::Claims,
        Unit::Lines,
    ];

    /// One of them, and all of them.
    pub fn words(self) -> (&'static str, &'static str) {
        match self {
            Unit::Bytes => ("byte", "bytes"),
            Unit::Gates => ("gate", "gates"),
            Unit::Literals => ("literal", "literals"),
            Unit::Claims => ("claim", "claims"),
            Unit::Lines => ("line", "lines"),
        }
    }
}

/// A row as the page shows it, so that what is said of all rows can be checked on the page itself.
pub struct Row {
    pub name: String,
    pub size: usize,
    pub unit: Unit,
    pub ours: String,
    pub rust: String,
    /// Ours by the Rust's, with two decimals.
    pub ratio: String,
}

impl Row {
    pub fn ratio(&self) -> f64 {
        self.ratio.parse().expect("a ratio is a number")
    }

    pub fn faster(&self) -> bool {
        self.ratio() < 1.0
    }
}

/// The lines of the document's tables, and their rows.
#[derive(Default)]
pub struct Kept {
    pub tables: String,
    pub rows: Vec<Row>,
}

pub struct Table {
    /// Words that a row's name must contain, all of them.
    words: Vec<String>,
    /// The names of all rows that there are, where rows are only listed and none is measured.
    listed: Option<RefCell<Vec<String>>>,
    /// The unit of the rows under the last head.
    unit: Cell<Unit>,
    /// The head of the next row, where that is the first under it.
    head: RefCell<Option<[String; 2]>>,
    kept: RefCell<Kept>,
}

impl Table {
    pub fn new(words: Vec<String>) -> Self {
        Self {
            words,
            listed: None,
            unit: Cell::new(Unit::Bytes),
            head: RefCell::default(),
            kept: RefCell::default(),
        }
    }

    /// The names of all rows that `measure` has, without measuring any.
    pub fn names(measure: impl Fn(&Table)) -> Vec<String> {
        let table = Self {
            listed: Some(RefCell::default()),
            ..Self::new(Vec::new())
        };
        measure(&table);
        table.listed.map_or_else(Vec::new, RefCell::into_inner)
    }

    /// Whether every row is asked for.
    pub fn whole(&self) -> bool {
        self.words.is_empty()
    }

    /// Whether a row is asked for.
    pub fn wants(&self, name: &str) -> bool {
        if let Some(listed) = &self.listed {
            listed.borrow_mut().push(name.into());
            return false;
        }
        self.words.iter().all(|word| name.contains(word.as_str()))
    }

    pub fn head(&self, title: &str, unit: Unit) {
        let (one, all) = unit.words();
        let each = format!("ns/{one}");
        let printed = format!(
            "\n{title:<52} {all:>10} {:>10} {:>10} {:>10} {:>9} {:>9} {each:>10}",
            "ours", "Rust", "copy", "ours/Rust", "ours/copy"
        );
        let kept = format!(
            "\n## {}\n\n| row | {all} | ours | Rust | copy | ours / Rust | ours / copy | ours, {each} |\n\
             |---|--:|--:|--:|--:|--:|--:|--:|\n",
            capital(title)
        );
        self.head.replace(Some([printed, kept]));
        self.unit.set(unit);
    }

    pub fn row(&self, name: &str, size: usize, times: &Times) {
        let Times { ours, rust, copy } = *times;
        let (ratio, copies) = (format!("{:.2}", ours / rust), ours / copy);
        let each = ours / size.max(1) as f64;
        let [ours, rust, copy] = [ours, rust, copy].map(shown);
        let mut kept = self.kept.borrow_mut();
        if let Some([printed, head]) = self.head.take() {
            println!("{printed}");
            kept.tables += &head;
        }
        println!(
            "{name:<52} {size:>10} {ours:>10} {rust:>10} {copy:>10} {ratio:>9} {copies:>9.1} {each:>10.2}"
        );
        kept.tables += &format!(
            "| {name} | {size} | {ours} | {rust} | {copy} | {ratio} | {copies:.1} | {each:.2} |\n"
        );
        kept.rows.push(Row {
            name: name.into(),
            size,
            unit: self.unit.get(),
            ours,
            rust,
            ratio,
        });
    }

    /// The tables and their rows.
    pub fn kept(self) -> Kept {
        self.kept.into_inner()
    }
}

/// A title with a capital letter.
fn capital(title: &str) -> String {
    let mut letters = title.chars();
    letters.next().map_or_else(String::new, |first| {
        first.to_uppercase().chain(letters).collect()
    })
}

/// A time in nanoseconds, micro- or milliseconds.
fn shown(nanoseconds: f64) -> String {
    match nanoseconds {
        time if time < 10.0 => format!("{time:.1} ns"),
        time if time < 1e4 => format!("{time:.0} ns"),
        time if time < 1e7 => format!("{:.1} us", time / 1e3),
        time => format!("{:.1} ms", time / 1e6),
    }
}
