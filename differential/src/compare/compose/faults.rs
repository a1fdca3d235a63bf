//! Deliberately wrong variants, each with one likely fault. The self-test has to find all of them.

/// A fault of the composer: it composes by rules one of which is another.
macro_rules! by_rules {
    ($change:expr) => {
        |subject| subject.compose = |asked, lent| by($change, asked, lent)
    };
}

mod gates;
mod latches;
mod lists;
mod mapping;
mod names;
mod orders;
mod pairs;
mod printing;
mod room;
mod work;

use super::Fault;
use crate::ours::compose::SUBJECT as OURS;
use crate::reading::compose::{self as reading, Composition, Due, RULES, Rules, Texts};
use crate::subject::compose::{Asked, Composed, Lent};

pub const FAULTS: &[&[Fault]] = &[
    mapping::FAULTS,
    names::FAULTS,
    gates::FAULTS,
    latches::FAULTS,
    lists::FAULTS,
    printing::FAULTS,
    pairs::FAULTS,
    orders::FAULTS,
    work::FAULTS,
    room::FAULTS,
];

/// Composes by rules one of which `change` makes another.
fn by(change: fn(&mut Rules), asked: &Asked, lent: &mut Lent) -> Composed {
    let mut rules = RULES;
    change(&mut rules);
    reading::composed_by(&rules, asked, lent)
}

/// Composes, and prints what `change` makes of the composition.
fn rebuilt(
    asked: &Asked,
    lent: &mut Lent,
    change: impl FnOnce(&mut Composition, &Texts),
) -> Composed {
    let made = reading::texts(asked).and_then(|texts| {
        let mut composition = reading::composition(&texts, &RULES)?;
        let work = reading::work_words(&texts);
        change(&mut composition, &texts);
        let text = Ok(composition.text(&texts));
        Ok(Due { work, text })
    });
    match made {
        Ok(due) => answered(Ok(due), lent),
        Err(_) => (OURS.compose)(asked, lent),
    }
}

/// Composes, and hands out what `change` makes of the text.
fn rewritten(asked: &Asked, lent: &mut Lent, change: impl FnOnce(&str) -> String) -> Composed {
    let due = reading::due(asked, &RULES).map(|due| {
        let text = due.text.map(|text| {
            let text = String::from_utf8(text).expect("ASCII");
            change(&text).into_bytes()
        });
        Due { text, ..due }
    });
    answered(due, lent)
}

/// The text with each symbol line's name as `change` makes it.
fn renamed(text: &str, change: impl Fn(&str) -> String) -> String {
    let symbol = |line: &&str| line.starts_with(['i', 'l']);
    let lines = text.split_inclusive('\n').map(|line| {
        let name = Some(line)
            .filter(symbol)
            .and_then(|line| line.split_once(' '));
        match name {
            Some((index, name)) => format!("{index} {}\n", change(name.trim_end_matches('\n'))),
            None => line.to_string(),
        }
    });
    lines.collect()
}

fn answered(due: Result<Due, u64>, lent: &mut Lent) -> Composed {
    lent.work.fill(0);
    reading::answer(&due, lent.work.len(), lent.out)
}

/// Refuses with this number where `wrong` holds, and leaves the room as it is.
fn refused_if(wrong: bool, reason: u64, asked: &Asked, lent: &mut Lent) -> Composed {
    if wrong {
        lent.work.fill(0);
        return Composed::refused(reason);
    }
    (OURS.compose)(asked, lent)
}

/// Composes other witnesses, put together in a buffer of their own.
fn with_witnesses(witnesses: &[&[u8]], asked: &Asked, lent: &mut Lent) -> Composed {
    let case = super::cases::Case::of(asked.model, witnesses);
    (OURS.compose)(&case.asked(), lent)
}

/// The reason of a call with enough work words and no room: 20 where it would be accepted.
fn reason_due(asked: &Asked) -> u64 {
    match reading::due(asked, &RULES) {
        Err(reason) => reason,
        Ok(due) => due.text.err().unwrap_or(20),
    }
}
