//! Words that are lent to calls, and the numbers under which refusals are compared.

use crate::random::Random;
use std::fmt;

/// Stands for the Rust's refusal of what the reading accepts: it has no numbers of its own.
const REFUSED_BY_RUST: u64 = 99;

/// The number under which the Rust's refusal is compared: the reading's, where it refuses too.
pub fn refusal(reading: u64) -> u64 {
    if reading == 0 {
        REFUSED_BY_RUST
    } else {
        reading
    }
}

/// Words that are lent to a call, with what they hold before it.
#[derive(Clone, Eq, PartialEq)]
pub struct Words<T = u64>(pub Vec<T>);

/// A word of any width.
pub trait Word: Copy + Default + fmt::Debug {
    fn cut(word: u64) -> Self;
}

impl Word for u64 {
    fn cut(word: u64) -> Self {
        word
    }
}

impl Word for u32 {
    fn cut(word: u64) -> Self {
        word as u32
    }
}

impl Word for u8 {
    fn cut(word: u64) -> Self {
        word as u8
    }
}

impl<T: Word> Words<T> {
    pub fn garbage(random: &mut Random, length: usize) -> Self {
        Self((0..length).map(|_| T::cut(random.wide())).collect())
    }

    pub fn zeros(&self) -> Self {
        Self(vec![T::default(); self.0.len()])
    }

    /// These words with others put over the first ones.
    pub fn with(&self, front: &[T]) -> Self {
        let mut words = self.clone();
        for (word, &other) in words.0.iter_mut().zip(front) {
            *word = other;
        }
        words
    }
}

/// The first words, and how many there are.
impl<T: Word> fmt::Debug for Words<T> {
    fn fmt(&self, out: &mut fmt::Formatter<'_>) -> fmt::Result {
        let shown = &self.0[..self.0.len().min(16)];
        write!(out, "{} words {shown:?}", self.0.len())
    }
}
