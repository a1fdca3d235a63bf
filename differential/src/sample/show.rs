//! What `replay` prints of words: the first ones, and whether all others are as they were or 0.

/// What a lent word, literal and byte hold before the call.
pub const WORD: u64 = 6_148_914_691_236_517_205;
pub const LITERAL: u32 = 2_863_311_530;
pub const BYTE: u8 = 170;

/// A line being made, each part with a space in front.
pub struct Line(String);

impl Line {
    pub fn of(name: &str, numbers: &[u64]) -> Self {
        Self(name.to_string()).numbers(numbers)
    }

    pub fn numbers<T: ToString>(mut self, numbers: &[T]) -> Self {
        for number in numbers {
            self.0.push(' ');
            self.0.push_str(&number.to_string());
        }
        self
    }

    fn either(mut self, first: bool, one: &str, other: &str) -> Self {
        self.0.push_str(if first { one } else { other });
        self
    }

    /// So many elements, and whether each other one is still the same.
    pub fn kept<T: PartialEq + ToString>(self, list: &[T], count: usize, before: T) -> Self {
        match list.split_at_checked(count) {
            Some((first, others)) => {
                let same = others.iter().all(|other| *other == before);
                self.numbers(first).either(same, " kept", " changed")
            }
            None => self.too_many(),
        }
    }

    /// So many words, and whether each other one is 0.
    pub fn zero(self, list: &[u64], count: usize) -> Self {
        match list.split_at_checked(count) {
            Some((first, others)) => {
                let zeros = others.iter().all(|&word| word == 0);
                self.numbers(first).either(zeros, " zero", " left")
            }
            None => self.too_many(),
        }
    }

    /// Whether each byte past so many is still the same; then these bytes on lines of their own.
    pub fn kept_bytes(self, list: &[u8], count: usize) -> Vec<u8> {
        match list.split_at_checked(count) {
            Some((first, others)) => {
                let same = others.iter().all(|&byte| byte == BYTE);
                let line = self.either(same, " kept\n", " changed\n");
                [line.0.as_bytes(), first].concat()
            }
            None => self.too_many().bytes(),
        }
    }

    /// A wrong answer: more than there is.
    fn too_many(self) -> Self {
        self.either(true, " more than were lent", "")
    }

    pub fn bytes(self) -> Vec<u8> {
        self.0.into_bytes()
    }
}
