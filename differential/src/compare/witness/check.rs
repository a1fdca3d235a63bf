//! One case: what the reader and the loader answer, and every word that was lent.

use super::Run;
use crate::compare::lent::{Words, refusal};
use crate::oracle::witness as oracle;
use crate::reading::witness as reading;
use crate::sections::Sections;
use crate::subject::witness::{ROLES, Read, Role};
use crate::tally::{Answers, shown};

#[derive(Debug, Eq, PartialEq)]
struct Answer {
    read: Read,
    loaded: u64,
    words: Words,
}

impl Answer {
    /// What is due of sections, or of a refusal, with these words lent.
    fn due(sections: Result<&Sections, u64>, lent: &Words) -> Self {
        let mut words = lent.clone();
        match sections {
            Ok(sections) => Self {
                read: Read::of(sections),
                loaded: reading::put(sections, &mut words.0),
                words,
            },
            Err(reason) => Self {
                read: Read::refused(reason),
                loaded: reason,
                words,
            },
        }
    }
}

/// Compares a text as a model and as a witness, with enough words lent for what its header says,
/// at times a few more, seldom one less.
pub fn text(run: &mut Run, text: &[u8]) {
    let needed = reading::counts(text).map_or(0, |counts| {
        let names = u128::from(counts.inputs) + 2 * u128::from(counts.latches);
        let listed = [counts.outputs, counts.bads, counts.constraints].map(u128::from);
        2 * (names + u128::from(counts.gates)) + listed.iter().sum::<u128>()
    });
    // A text has no more words than bytes.
    let enough = needed.min(text.len() as u128) as usize;
    for role in ROLES {
        let count = match run.random.below(16) {
            0 => enough.saturating_sub(1),
            more @ 1..=4 => enough + more,
            _ => enough,
        };
        let words = Words::garbage(&mut run.random, count);
        lent(run, text, role, &words);
    }
}

/// Compares a text in one role with these words lent.
pub fn lent(run: &mut Run, text: &[u8], role: Role, lent: &Words) {
    let sections = reading::sections(text, role);
    let answers = Answers {
        ours: ours(run, text, role, lent),
        rust: rust(text, role, lent, &sections),
        reading: Answer::due(sections.as_ref().map_err(|&reason| reason), lent),
    };
    run.tally.check(answers, || {
        format!("{role:?} {}, words {}", shown(text), lent.0.len())
    });
}

fn ours(run: &Run, text: &[u8], role: Role, lent: &Words) -> Answer {
    let mut words = lent.clone();
    Answer {
        read: (run.ours.read)(text, role),
        loaded: (run.ours.load)(text, role, &mut words.0),
        words,
    }
}

/// The Rust's answer. Ours does not hand out what a line defines; where the Rust's definitions are
/// not consecutive, it counts as one that refuses.
fn rust(text: &[u8], role: Role, lent: &Words, reading: &Result<Sections, u64>) -> Option<Answer> {
    if !oracle::can_take(text) {
        return None;
    }
    let expected = reading.as_ref().ok();
    let reason = reading.as_ref().err().copied().unwrap_or(0);
    let sections = oracle::read(text, role, expected);
    Some(match sections {
        Some(sections) if reason != 0 || sections.consecutive() => Answer::due(Ok(&sections), lent),
        _ => Answer::due(Err(refusal(reason)), lent),
    })
}
