//! The texts of a call.

use crate::random::Random;
use crate::subject::compose::Asked;

/// A model's text, a buffer of witnesses' texts, and their pairs of offset and length.
#[derive(Clone)]
pub struct Case {
    pub model: Vec<u8>,
    pub witnesses: Vec<u8>,
    pub pairs: Vec<u64>,
}

impl Case {
    /// Witnesses one after the other.
    pub fn of(model: impl AsRef<[u8]>, witnesses: &[impl AsRef<[u8]>]) -> Self {
        let mut case = Self {
            model: model.as_ref().to_vec(),
            witnesses: Vec::new(),
            pairs: Vec::new(),
        };
        for text in witnesses {
            case.add(text.as_ref());
        }
        case
    }

    /// The same with bytes of any kind in front of some witnesses and behind the last, and at times
    /// a word too many in the pairs.
    pub fn apart(
        random: &mut Random,
        model: impl AsRef<[u8]>,
        witnesses: &[impl AsRef<[u8]>],
    ) -> Self {
        let mut case = Self::of(model, &[] as &[&[u8]]);
        for text in witnesses {
            case.add_gap(random);
            case.add(text.as_ref());
        }
        case.add_gap(random);
        if random.once_in(8) {
            case.pairs.push(random.wide());
        }
        case
    }

    fn add(&mut self, text: &[u8]) {
        let offset = self.witnesses.len() as u64;
        self.pairs.extend([offset, text.len() as u64]);
        self.witnesses.extend(text);
    }

    fn add_gap(&mut self, random: &mut Random) {
        if random.once_in(3) {
            for _ in 0..random.below(9) {
                self.witnesses.push(random.below(256) as u8);
            }
        }
    }

    pub fn asked(&self) -> Asked<'_> {
        Asked {
            model: &self.model,
            witnesses: &self.witnesses,
            pairs: &self.pairs,
        }
    }

    /// With more bytes than texts of other layers: a difference is often in a late witness.
    pub fn shown(&self) -> String {
        let pairs = &self.pairs[..self.pairs.len().min(16)];
        format!(
            "model {}, witnesses {}, {} pair words {pairs:?}",
            shown(&self.model),
            shown(&self.witnesses),
            self.pairs.len()
        )
    }
}

fn shown(text: &[u8]) -> String {
    const SHOWN: usize = 500;
    let start = text[..text.len().min(SHOWN)].escape_ascii();
    format!("\"{start}\" of {} bytes", text.len())
}
