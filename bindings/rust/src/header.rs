//! What the first line of a text says of the memory that it needs.
//!
//! Only an estimate: the library reads the text itself. Where this is wrong, the library asks for
//! more and is called a second time.

/// Up to nine numbers of the first line, M I L O A B C J F; 0 where there is none.
pub fn counts(text: &[u8]) -> [usize; 9] {
    let line = text.split(|&byte| byte == b'\n').next().unwrap_or_default();
    let fields = line
        .split(|byte| matches!(byte, 9..=13 | 32))
        .filter(|field| !field.is_empty());
    let mut counts = [0; 9];
    for (count, field) in counts.iter_mut().zip(fields.skip(1)) {
        let number = str::from_utf8(field)
            .ok()
            .and_then(|text| text.parse().ok());
        *count = number.unwrap_or(0);
    }
    counts
}

#[cfg(test)]
mod tests {
    use super::counts;

    #[test]
    fn numbers_of_the_first_line() {
        let text = b" aag\t3 +1 01\x0b1 1\r 7\n2\n";
        assert_eq!(counts(text), [3, 1, 1, 1, 1, 7, 0, 0, 0]);
    }

    #[test]
    fn no_text_stops_it() {
        for text in [
            &b""[..],
            b"\n",
            b"aag",
            b"aag x 5",
            b"\xff \xff 5",
            b"aag 1 2 3 4 5 6 7 8 9 10",
        ] {
            counts(text);
        }
        assert_eq!(counts(b"aag x 99999999999999999999 5")[..3], [0, 0, 5]);
    }
}
