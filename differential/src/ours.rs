//! The proved library, behind safe functions. Its calls take any bytes, places and numbers.

pub mod compose;
pub mod model;
pub mod obligation;
pub mod witness;

use crate::subject::Subject;

#[cfg(not(feature = "stand-in"))]
use library as chosen;
#[cfg(feature = "stand-in")]
use stand_in as chosen;

/// Said at the start of a run.
pub const NAME: &str = chosen::NAME;

/// The functions that are compared.
pub const SUBJECT: Subject = chosen::SUBJECT;

#[cfg(feature = "stand-in")]
mod stand_in {
    use crate::reading;
    use crate::subject::Subject;

    pub const NAME: &str = "the stand-in (the reading itself, not the library)";

    pub const SUBJECT: Subject = Subject {
        number: reading::number,
        take_literal: reading::take_literal,
        line: reading::line,
        field: reading::field,
        first_field: reading::first_field,
        header_word: reading::header_word,
        same: reading::same,
        begins_with: reading::begins_with,
        good_text: reading::good_text,
        write_decimal: reading::write_decimal,
        decimal_length: reading::decimal_length,
    };
}

#[cfg(not(feature = "stand-in"))]
mod library {
    use crate::library::{Cursor, nit_take_literal};
    use crate::subject::{Part, Rule, Subject, Taken, Written};

    pub const NAME: &str = "the library";

    #[repr(C)]
    pub struct ProbeNumber {
        readable: bool,
        value: u64,
    }

    #[repr(C)]
    pub struct ProbeLiteral {
        readable: bool,
        value: u64,
        at: usize,
    }

    #[repr(C)]
    pub struct ProbePart {
        found: bool,
        start: usize,
        end: usize,
        next: usize,
    }

    #[repr(C)]
    pub struct ProbeWritten {
        fits: bool,
        next: usize,
    }

    calls! {
        fn probe_parse(witness: bool, f: &[u8],) -> ProbeNumber;
        fn probe_take_literal(witness: bool, text: &[u8], at: usize,) -> ProbeLiteral;
        fn probe_line(text: &[u8], at: usize,) -> ProbePart;
        fn probe_field(line: &[u8], at: usize,) -> ProbePart;
        fn probe_first_field(line: &[u8], out: &mut [u8],) -> ProbeWritten;
        fn probe_header_word(line: &[u8],) -> bool;
        fn probe_same(a: &[u8], b: &[u8],) -> bool;
        fn probe_begins_with(s: &[u8], word: &[u8],) -> bool;
        fn probe_good_text(witness: bool, text: &[u8],) -> bool;
        fn probe_write_decimal(out: &mut [u8], at: usize, n: u64,) -> ProbeWritten;
        fn probe_decimal_length(n: u64,) -> usize;
    }

    pub const SUBJECT: Subject = Subject {
        number,
        take_literal,
        line,
        field,
        first_field,
        header_word: probe_header_word,
        same: probe_same,
        begins_with: probe_begins_with,
        good_text,
        write_decimal,
        decimal_length: probe_decimal_length,
    };

    fn witness(rule: Rule) -> bool {
        rule == Rule::Witness
    }

    fn number(rule: Rule, f: &[u8]) -> Option<u64> {
        let answer = probe_parse(witness(rule), f);
        answer.readable.then_some(answer.value)
    }

    fn take_literal(rule: Rule, text: &[u8], at: usize) -> Taken {
        match rule {
            Rule::Witness => take_lent(text, at),
            Rule::Transition => take_by_value(text, at),
        }
    }

    /// The call, over a cursor that is lent. It reads by the witness rule.
    fn take_lent(text: &[u8], at: usize) -> Taken {
        let mut cursor = Cursor { at };
        let answer = nit_take_literal(text, &mut cursor);
        assert!(matches!(answer.reason, 0 | 8), "a reason of take_literal");
        Taken {
            value: (answer.reason == 0).then_some(answer.value),
            at: cursor.at,
        }
    }

    fn take_by_value(text: &[u8], at: usize) -> Taken {
        let answer = probe_take_literal(false, text, at);
        Taken {
            value: answer.readable.then_some(answer.value),
            at: answer.at,
        }
    }

    fn line(text: &[u8], at: usize) -> Option<Part> {
        part(probe_line(text, at))
    }

    fn field(line: &[u8], at: usize) -> Option<Part> {
        part(probe_field(line, at))
    }

    fn part(answer: ProbePart) -> Option<Part> {
        answer.found.then_some(Part {
            start: answer.start,
            end: answer.end,
            next: answer.next,
        })
    }

    fn first_field(line: &[u8]) -> Vec<u8> {
        let mut out = vec![0; line.len()];
        let answer = probe_first_field(line, &mut out);
        assert!(answer.fits, "a field is no longer than its line");
        out.truncate(answer.next);
        out
    }

    fn good_text(rule: Rule, text: &[u8]) -> bool {
        probe_good_text(witness(rule), text)
    }

    fn write_decimal(out: &mut [u8], at: usize, n: u64) -> Written {
        let answer = probe_write_decimal(out, at, n);
        Written {
            fits: answer.fits,
            next: answer.next,
        }
    }
}
