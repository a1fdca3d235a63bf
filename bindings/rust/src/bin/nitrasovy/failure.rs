//! Why the command ends without an answer, and the status that says so.

use nitrasovy::Refusal;
use std::io::Write;
use std::process::ExitCode;

const REFUSED: u8 = 1;
const TROUBLE: u8 = 2;

#[derive(Debug)]
pub enum Failure {
    /// The library refused what it was given.
    Refused(Refusal),
    /// The same, of one of several texts.
    RefusedIn(Refusal, String),
    /// The command line is wrong, an input cannot be read or an output cannot be written.
    Trouble(String),
    /// Whoever read the output has gone, as `head` does: nothing to say to anyone.
    OutputClosed,
}

impl Failure {
    /// A wrong command line of a subcommand, or of none.
    pub fn usage(subcommand: &str, what: String) -> Self {
        let space = if subcommand.is_empty() { "" } else { " " };
        Self::Trouble(format!(
            "{what}\nnitrasovy{space}{subcommand} --help says how it is used"
        ))
    }

    /// Says it on standard error. Where that cannot be written, the status has to do.
    pub fn report(&self) -> ExitCode {
        let mut screen = std::io::stderr();
        let status = match self {
            Self::Refused(refusal) => {
                let _ = writeln!(screen, "{refusal}");
                REFUSED
            }
            Self::RefusedIn(refusal, text) => {
                let _ = writeln!(screen, "{refusal} (in {text})");
                REFUSED
            }
            Self::Trouble(what) => {
                let _ = writeln!(screen, "nitrasovy: {what}");
                TROUBLE
            }
            Self::OutputClosed => TROUBLE,
        };
        ExitCode::from(status)
    }
}

impl<E: Into<Refusal>> From<E> for Failure {
    fn from(error: E) -> Self {
        Self::Refused(error.into())
    }
}
