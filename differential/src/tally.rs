//! Counts cases and differences, and keeps the first differences to be shown.

use std::fmt::Debug;

/// How many differences of a group are shown.
const SHOWN: usize = 5;
/// How many bytes of a text are shown.
const SHOWN_BYTES: usize = 80;

#[derive(Default)]
pub struct Tally {
    pub cases: u64,
    pub differences: u64,
    pub shown: Vec<String>,
}

/// The answers to one case. The Rust has none where a text is not a `str`, or a place not in it.
pub struct Answers<T> {
    pub ours: T,
    pub rust: Option<T>,
    pub reading: T,
}

impl<T: PartialEq> Answers<T> {
    fn agree(&self) -> bool {
        self.ours == self.reading && self.rust.as_ref().is_none_or(|rust| *rust == self.ours)
    }
}

impl Tally {
    /// Counts one case and says whether all answers are the same.
    pub fn check<T: PartialEq + Debug>(
        &mut self,
        answers: Answers<T>,
        input: impl FnOnce() -> String,
    ) -> bool {
        self.cases += 1;
        let agree = answers.agree();
        if !agree {
            self.differences += 1;
            if self.shown.len() < SHOWN {
                self.shown.push(describe(&input(), &answers));
            }
        }
        agree
    }
}

fn describe<T: Debug>(input: &str, answers: &Answers<T>) -> String {
    let rust = match &answers.rust {
        Some(rust) => format!("{rust:?}"),
        None => "not asked".to_string(),
    };
    format!(
        "{input}: ours {:?}, Rust {rust}, reading {:?}",
        answers.ours, answers.reading
    )
}

/// A text as it is shown: printable bytes as they are, others by their number.
pub fn shown(text: &[u8]) -> String {
    if text.len() <= SHOWN_BYTES {
        return format!("\"{}\"", text.escape_ascii());
    }
    let start = text[..SHOWN_BYTES].escape_ascii();
    format!("\"{start}\".. of {} bytes", text.len())
}
