//! Deliberately wrong variants, each with one likely fault. The self-test has to find all of them.

/// A fault of the reader: it refuses with a number where something holds of the right answer.
macro_rules! refusing {
    ($reason:expr, |$text:ident, $role:ident, $read:ident| $wrong:expr) => {
        |subject| subject.read = |$text, $role| refused_if($reason, $text, $role, |$read| $wrong)
    };
}

mod headers;
mod literals;
mod loads;
mod symbols;
mod texts;

use super::Fault;
use crate::ours::witness::SUBJECT as OURS;
use crate::reading::witness as reading;
use crate::sections::Sections;
use crate::subject::witness::{Read, Role};

pub const FAULTS: &[&[Fault]] = &[
    texts::FAULTS,
    headers::FAULTS,
    literals::FAULTS,
    symbols::FAULTS,
    loads::FAULTS,
];

/// Refuses a text with this number where `wrong` holds of the right answer.
fn refused_if(reason: u64, text: &[u8], role: Role, wrong: impl Fn(&Read) -> bool) -> Read {
    let read = (OURS.read)(text, role);
    if wrong(&read) {
        return Read::refused(reason);
    }
    read
}

/// Reads again, where the text is refused with this number, what `change` makes of it.
fn retried(reason: u64, text: &[u8], role: Role, change: impl Fn(&str) -> Option<String>) -> Read {
    let read = (OURS.read)(text, role);
    if read.reason != reason {
        return read;
    }
    match std::str::from_utf8(text).ok().and_then(change) {
        Some(changed) => (OURS.read)(changed.as_bytes(), role),
        None => read,
    }
}

/// Accepts what is in range and order once it is mended.
fn lenient(mend: fn(&mut Sections), text: &[u8], role: Role) -> Read {
    let read = (OURS.read)(text, role);
    if read.reason != 11 {
        return read;
    }
    let Ok(sections) = reading::lines_of(text, role) else {
        return read;
    };
    let mut mended = sections.clone();
    mend(&mut mended);
    if reading::in_range(&mended) {
        Read::of(&sections)
    } else {
        read
    }
}

/// Whether the header's counts, once changed, are within the limits and those of no liveness.
fn changed_counts(text: &[u8], change: fn(&mut reading::Counts)) -> bool {
    reading::counts(text).is_some_and(|mut counts| {
        change(&mut counts);
        reading::within_limits(&counts) && counts.justice == 0 && counts.fairness == 0
    })
}

/// The text with another line in the place of the first one after the header for which `change` has
/// one.
fn with_line(text: &str, change: impl Fn(&str) -> Option<String>) -> Option<String> {
    let mut lines: Vec<String> = text.lines().map(str::to_string).collect();
    let (place, line) = lines
        .iter()
        .enumerate()
        .skip(1)
        .find_map(|(place, line)| change(line).map(|line| (place, line)))?;
    lines[place] = line;
    Some(lines.join("\n") + "\n")
}
