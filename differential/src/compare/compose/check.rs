//! One case: the answer, every byte of the room and every work word that was lent.

use super::Run;
use super::cases::Case;
use crate::compare::lent::{Words, refusal};
use crate::oracle::compose as oracle;
use crate::random::Random;
use crate::reading::compose::{self as reading, Due, MORE_WORDS, RULES};
use crate::subject::compose::{Composed, Lent};
use crate::tally::Answers;
use std::fmt;

/// How many bytes of a room are shown.
const SHOWN: usize = 400;

#[derive(Eq, PartialEq)]
struct Answer {
    composed: Composed,
    out: Vec<u8>,
    /// The first work word that is not 0 afterwards.
    left: Option<usize>,
}

impl Answer {
    /// The answer of a call that writes in this room and leaves no work word.
    fn of(mut out: Vec<u8>, compose: impl FnOnce(&mut [u8]) -> Composed) -> Self {
        Self {
            composed: compose(&mut out),
            out,
            left: None,
        }
    }

    /// The text that is returned, where the call is accepted.
    fn text(&self) -> Option<&[u8]> {
        match self.composed.reason {
            0 => self.out.get(..self.composed.bytes),
            _ => None,
        }
    }
}

impl fmt::Debug for Answer {
    fn fmt(&self, out: &mut fmt::Formatter<'_>) -> fmt::Result {
        let Composed { reason, bytes } = self.composed;
        let start = self.out[..self.out.len().min(SHOWN)].escape_ascii();
        let length = self.out.len();
        write!(
            out,
            "reason {reason}, {bytes} bytes, room of {length} \"{start}\""
        )?;
        match self.left {
            Some(place) => write!(out, ", work word {place} is not 0"),
            None => Ok(()),
        }
    }
}

/// How much is lent, in words and in bytes.
#[derive(Clone, Copy, Debug)]
pub struct Amount {
    pub work: usize,
    pub room: usize,
}

/// A case, what is due of it by the reading, and what the Rust makes of it, each found once for all
/// amounts that are lent.
pub struct Judged<'a> {
    case: &'a Case,
    pub due: Result<Due, u64>,
    /// None where the Rust is not asked; the text where it accepts.
    rust: Option<Option<Vec<u8>>>,
}

impl<'a> Judged<'a> {
    pub fn of(case: &'a Case) -> Self {
        let due = reading::due(&case.asked(), &RULES);
        let rust = oracle::form(&case.asked()).and_then(|texts| {
            // Texts that the reading accepts have nothing at which the Rust stops.
            let taken = due.is_ok() || oracle::can_compose(&case.model, &texts);
            taken.then(|| oracle::compose(&case.model, &texts))
        });
        Self { case, due, rust }
    }

    /// How many words and bytes a call needs, so far as it is accepted.
    pub fn needed(&self) -> Amount {
        match &self.due {
            Ok(due) => Amount {
                work: due.work,
                room: due.text.as_ref().map_or(0, Vec::len),
            },
            Err(_) => Amount { work: 0, room: 0 },
        }
    }

    /// Compares with so much lent, and returns the text that ours makes.
    pub fn lent(&self, run: &mut Run, amount: Amount) -> Option<Vec<u8>> {
        let room = Words::garbage(&mut run.random, amount.room).0;
        let mut work = Words::garbage(&mut run.random, amount.work).0;
        let ours = Answer::of(room.clone(), |out| {
            let work = &mut work[..];
            (run.ours.compose)(&self.case.asked(), &mut Lent { work, out })
        });
        let ours = Answer {
            left: work.iter().position(|&word| word != 0),
            ..ours
        };
        let made = ours.text().map(<[u8]>::to_vec);
        let answers = Answers {
            ours,
            rust: self.rust(amount.work, &room),
            reading: Answer::of(room, |out| reading::answer(&self.due, amount.work, out)),
        };
        run.tally
            .check(answers, || format!("{}, {amount:?}", self.case.shown()));
        made
    }

    /// The Rust's answer. It has no work words, so that it says nothing where they are too few; and
    /// no limit on room: where its text does not fit, 20 is due.
    fn rust(&self, work: usize, room: &[u8]) -> Option<Answer> {
        let text = self.rust.as_ref()?;
        let reason = match &self.due {
            Ok(due) if work < due.work => return None,
            Ok(due) => due.text.as_ref().err().copied().unwrap_or(0),
            Err(reason) => *reason,
        };
        Some(Answer::of(room.to_vec(), |out| match text {
            Some(text) => reading::put(text, out),
            None => Composed::refused(refusal(reason)),
        }))
    }

    /// The amounts that are tried with every case: exactly what is needed, one less of either, more
    /// of both, no room, and nothing at all.
    fn amounts(&self, random: &mut Random) -> Vec<Amount> {
        let Amount { work, room } = self.needed();
        let some = random.below(60);
        let more = 1 + random.below(20);
        let pairs = match &self.due {
            Err(_) => vec![(0, 0), (MORE_WORDS + more, some)],
            Ok(Due { text: Err(_), .. }) => vec![(work, some), (work - 1, some), (work + more, 0)],
            Ok(_) => vec![
                (work, room),
                (work - 1, room),
                (work, room - 1),
                (work + more, room + more),
                (work, 0),
                (0, 0),
            ],
        };
        let amounts = pairs.into_iter();
        amounts.map(|(work, room)| Amount { work, room }).collect()
    }
}

/// Compares a case with each amount lent. Says whether it is accepted where enough is.
pub fn check(run: &mut Run, case: &Case) -> bool {
    let judged = Judged::of(case);
    for amount in judged.amounts(&mut run.random) {
        judged.lent(run, amount);
    }
    matches!(judged.due, Ok(Due { text: Ok(_), .. }))
}

/// Compares witnesses that stand one after the other, or apart.
pub fn texts(run: &mut Run, model: impl AsRef<[u8]>, witnesses: &[impl AsRef<[u8]>]) -> bool {
    let case = if run.random.once_in(4) {
        Case::apart(&mut run.random, model, witnesses)
    } else {
        Case::of(model, witnesses)
    };
    check(run, &case)
}
