//! Numbers, lists, conditions and outcomes as they are written on the command line.

use nitrasovy::aiger_obligation::AigerOutcome;
use std::ffi::OsStr;

/// What is wrong with a word, or its value.
type Read<T> = Result<T, String>;

/// A word of a command line that is text.
pub fn text(word: &OsStr) -> Read<&str> {
    let lossy = || format!("'{}' is not text", crate::input::shown(word));
    word.to_str().ok_or_else(lossy)
}

/// A decimal number of at most 64 bits.
pub fn number(what: &str, text: &str) -> Read<usize> {
    if text.is_empty() || !text.bytes().all(|byte| byte.is_ascii_digit()) {
        return Err(format!("{what} is a decimal number, not '{}'", plain(text)));
    }
    let large = |_| format!("{what} is too large a number: '{text}'");
    text.parse().map_err(large)
}

/// A decimal number, or a hexadecimal one after `0x`, of at most 128 bits.
pub fn bits(what: &str, text: &str) -> Read<u128> {
    let (digits, radix) = match text.strip_prefix("0x") {
        Some(digits) => (digits, 16),
        None => (text, 10),
    };
    if digits.is_empty() || !digits.chars().all(|digit| digit.is_digit(radix)) {
        let wrong = plain(text);
        return Err(format!("{what} is a decimal number or 0x.., not '{wrong}'"));
    }
    let large = |_| format!("{what} is too large a number: '{text}'");
    u128::from_str_radix(digits, radix).map_err(large)
}

/// Numbers with commas between them, or `none`.
pub fn list(what: &str, text: &str) -> Read<Vec<usize>> {
    match text {
        "none" => Ok(Vec::new()),
        _ => text.split(',').map(|part| number(what, part)).collect(),
    }
}

/// `0=1 or 2=0`: inputs, each with true for 1. `never` has none of them.
pub fn condition(text: &str) -> Read<Vec<(usize, bool)>> {
    if text == "never" {
        return Ok(Vec::new());
    }
    let part = |part: &str| {
        let wrong = || {
            let part = plain(part);
            format!("a condition is INPUT=0 or INPUT=1, with ' or ' between several, not '{part}'")
        };
        let (input, value) = part.trim().split_once('=').ok_or_else(wrong)?;
        let value = match value {
            "0" => false,
            "1" => true,
            _ => return Err(wrong()),
        };
        Ok((number("the input of a condition", input)?, value))
    };
    text.split(" or ").map(part).collect()
}

/// `TARGET:OUTPUTS`.
pub fn outcome(text: &str) -> Read<AigerOutcome> {
    let wrong = || {
        let text = plain(text);
        format!("with --outputs a claim is TARGET:OUTPUTS, such as 1:0x3, not '{text}'")
    };
    let (target, outputs) = text.split_once(':').ok_or_else(wrong)?;
    Ok(AigerOutcome {
        target: number("a target", target)?,
        outputs: bits("the outputs of a target", outputs)?,
    })
}

fn plain(text: &str) -> String {
    crate::input::shown(OsStr::new(text))
}

#[cfg(test)]
mod tests {
    use super::*;

    #[test]
    fn numbers() {
        assert_eq!(number("n", "0012"), Ok(12));
        assert_eq!(number("n", "18446744073709551615"), Ok(usize::MAX));
        for wrong in [
            "",
            "+1",
            "-1",
            "0x1",
            "1 ",
            "18446744073709551616",
            "\u{661}",
        ] {
            assert!(number("n", wrong).is_err(), "{wrong:?}");
        }
    }

    #[test]
    fn bits_of_outputs() {
        assert_eq!(bits("n", "10"), Ok(10));
        assert_eq!(bits("n", "0xfF"), Ok(255));
        assert_eq!(bits("n", &u128::MAX.to_string()), Ok(u128::MAX));
        for wrong in [
            "",
            "0x",
            "x1",
            "+1",
            "0x+1",
            "ff",
            "0x100000000000000000000000000000000",
        ] {
            assert!(bits("n", wrong).is_err(), "{wrong:?}");
        }
    }

    #[test]
    fn lists_and_conditions() {
        assert_eq!(list("n", "none"), Ok(vec![]));
        assert_eq!(list("n", "2,0,1"), Ok(vec![2, 0, 1]));
        assert!(list("n", "").is_err() && list("n", "1,,2").is_err());
        assert_eq!(condition("0=1 or 2=0"), Ok(vec![(0, true), (2, false)]));
        assert_eq!(condition("never"), Ok(vec![]));
        for wrong in ["", " ", "0", "0=2", "0=1 or", "0=1 and 2=0", "=1"] {
            assert!(condition(wrong).is_err(), "{wrong:?}");
        }
        assert_eq!(
            outcome("1:3").map(|claim| (claim.target, claim.outputs)),
            Ok((1, 3))
        );
        assert!(outcome("1").is_err() && outcome(":1").is_err() && outcome("1:").is_err());
    }
}
