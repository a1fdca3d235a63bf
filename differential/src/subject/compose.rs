//! What is compared in the compose layer: the composer.

/// What it answers: reason 0 and the length of the text in front of `out`, or the reason and 0.
pub use crate::library::Composed;

/// What a call is given: the model's text, a buffer with the witnesses' texts, and where each of
/// them stands in it, as pairs of offset and length.
#[derive(Clone, Copy)]
pub struct Asked<'a> {
    pub model: &'a [u8],
    pub witnesses: &'a [u8],
    pub pairs: &'a [u64],
}

/// What is lent to it.
pub struct Lent<'a> {
    pub work: &'a mut [u64],
    pub out: &'a mut [u8],
}

impl Composed {
    pub fn refused(reason: u64) -> Self {
        Self { reason, bytes: 0 }
    }
}

/// The function of the compose layer. `out` stays as it is on a refusal, and past the text; the
/// work words are 0 after every call.
#[derive(Clone, Copy)]
pub struct Subject {
    pub compose: fn(&Asked, &mut Lent) -> Composed,
}
