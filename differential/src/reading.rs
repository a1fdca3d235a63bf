//! A plain reading of the requirements (R1, R2, R9.3), made without the published
//! Rust and without the functions of std that it uses. Written to be read, not to be fast.

pub mod compose;
pub mod meaning;
pub mod model;
pub mod obligation;
pub mod witness;

use crate::subject::{Part, Rule, Taken, Written};

/// R9.3: the most bytes that a text may have.
pub const LONGEST_TEXT: usize = 16_777_216;

/// R1. A plus sign in front is passed, a value from 2^64 on refused, and for the witness reader a
/// zero in front of more digits.
pub fn number(rule: Rule, f: &[u8]) -> Option<u64> {
    if rule == Rule::Witness && f.len() > 1 && f[0] == b'0' {
        return None;
    }
    let digits = match f {
        [b'+', rest @ ..] => rest,
        _ => f,
    };
    if digits.is_empty() || digits.iter().any(|&byte| !(48..=57).contains(&byte)) {
        return None;
    }
    let zeros = digits.iter().take_while(|&&byte| byte == 48).count();
    value(&digits[zeros..])
}

/// The value of digits that begin with no `0`, where it is below 2^64. More than 20 digits make
/// a greater value, and 20 fit in 128 bits.
fn value(digits: &[u8]) -> Option<u64> {
    if digits.len() > 20 {
        return None;
    }
    let mut sum: u128 = 0;
    let mut weight: u128 = 1;
    for &byte in digits.iter().rev() {
        sum += weight * u128::from(byte - 48);
        weight *= 10;
    }
    u64::try_from(sum).ok()
}

/// R2.1. A line and the place behind it: past its byte 10, or the end of the text where that byte
/// is missing.
pub fn line(text: &[u8], at: usize) -> Option<Part> {
    if at >= text.len() {
        return None;
    }
    let mut end = at;
    while end < text.len() && text[end] != 10 {
        end += 1;
    }
    let next = if end < text.len() { end + 1 } else { end };
    Some(Part {
        start: at,
        end,
        next,
    })
}

/// R2.2. A byte between fields.
fn separates(byte: u8) -> bool {
    matches!(byte, 9 | 10 | 11 | 12 | 13 | 32)
}

/// The first field at or behind a place; reading goes on at its end.
pub fn field(line: &[u8], at: usize) -> Option<Part> {
    let mut start = at;
    while start < line.len() && separates(line[start]) {
        start += 1;
    }
    if start >= line.len() {
        return None;
    }
    let mut end = start;
    while end < line.len() && !separates(line[end]) {
        end += 1;
    }
    Some(Part {
        start,
        end,
        next: end,
    })
}

pub fn first_field(line: &[u8]) -> Vec<u8> {
    field(line, 0).map_or(Vec::new(), |part| line[part.start..part.end].to_vec())
}

/// R4.3: a line whose first field is the header's word.
pub fn header_word(line: &[u8]) -> bool {
    let field = first_field(line);
    field.len() == 3 && field[0] == 97 && field[1] == 97 && field[2] == 103
}

/// R2.3, R2.4. The place moves by one line, taken or refused, and stays where there is none.
pub fn take_literal(rule: Rule, text: &[u8], at: usize) -> Taken {
    match line(text, at) {
        None => Taken { value: None, at },
        Some(part) => Taken {
            value: only_number(rule, &text[part.start..part.end]),
            at: part.next,
        },
    }
}

/// The number of a line that has exactly one field, and that a readable one.
fn only_number(rule: Rule, line: &[u8]) -> Option<u64> {
    let first = field(line, 0)?;
    match field(line, first.next) {
        Some(_) => None,
        None => number(rule, &line[first.start..first.end]),
    }
}

pub fn same(a: &[u8], b: &[u8]) -> bool {
    a.len() == b.len() && (0..a.len()).all(|i| a[i] == b[i])
}

pub fn begins_with(s: &[u8], word: &[u8]) -> bool {
    s.len() >= word.len() && (0..word.len()).all(|i| s[i] == word[i])
}

/// R9.3. True where it does not apply.
pub fn good_text(rule: Rule, text: &[u8]) -> bool {
    if text.len() > LONGEST_TEXT || text.iter().any(|&byte| byte > 127) {
        return false;
    }
    match rule {
        Rule::Transition => true,
        Rule::Witness => !text.is_empty() && !text.contains(&13) && text[text.len() - 1] == 10,
    }
}

/// The digits of a number in base ten.
fn digits(n: u64) -> Vec<u8> {
    let mut reversed = vec![b'0' + (n % 10) as u8];
    let mut rest = n / 10;
    while rest > 0 {
        reversed.push(b'0' + (rest % 10) as u8);
        rest /= 10;
    }
    reversed.reverse();
    reversed
}

/// Writes the digits at a place where they fit; else the bytes stay as they are.
pub fn write_decimal(out: &mut [u8], at: usize, n: u64) -> Written {
    let digits = digits(n);
    if at > out.len() || digits.len() > out.len() - at {
        return Written {
            fits: false,
            next: 0,
        };
    }
    for (i, &digit) in digits.iter().enumerate() {
        out[at + i] = digit;
    }
    Written {
        fits: true,
        next: at + digits.len(),
    }
}

pub fn decimal_length(n: u64) -> usize {
    digits(n).len()
}
