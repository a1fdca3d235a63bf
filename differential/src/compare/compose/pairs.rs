//! Pairs of offset and length.

use super::cases::Case;
use super::check::{check, texts};
use super::{FIRST, Group, MODEL, Run, SECOND};
use crate::compare::inputs::all_words;

pub const PLACES: Group = Group {
    name: "compose: pairs at all telling places",
    run: places,
};

pub const COUNTS: Group = Group {
    name: "compose: no pair to 130 pairs",
    run: counts,
};

/// Three texts one after the other, and each word of two pairs at each end of them and one beside,
/// and where a sum passes 2^64.
fn places(run: &mut Run) {
    let buffer = [FIRST, SECOND, FIRST].concat();
    let length = FIRST.len() as u64;
    assert_eq!(length, SECOND.len() as u64);
    let ends = [0, length, 2 * length, 3 * length];
    let mut words = vec![1 << 63, u64::MAX - length, u64::MAX - 1, u64::MAX];
    for end in ends {
        words.extend([end, end + 1]);
        words.extend(end.checked_sub(1));
    }
    words.push(u64::MAX - length + 1);
    all_words(&words, 4, |pairs| {
        // Where the first pair is out of the buffer, few others are enough.
        let far = pairs[0]
            .checked_add(pairs[1])
            .is_none_or(|end| end > 3 * length + 1);
        if far && pairs[2] != length {
            return;
        }
        let case = Case {
            model: MODEL.to_vec(),
            witnesses: buffer.clone(),
            pairs: pairs.to_vec(),
        };
        check(run, &case);
    });
    three_pairs(run, &buffer, length);
    short_buffers(run);
}

/// A third pair behind two good ones, and a third and a half.
fn three_pairs(run: &mut Run, buffer: &[u8], length: u64) {
    for offset in 2 * length - 2..3 * length + 2 {
        for size in (0..3).chain(length - 2..length + 2) {
            for size in [size, u64::MAX - offset + size, u64::MAX - size] {
                for more in 0..3 {
                    let mut pairs = vec![0, length, length, length, offset, size];
                    pairs.extend(&[2 * length, u64::MAX][..more]);
                    let case = Case {
                        model: MODEL.to_vec(),
                        witnesses: buffer.to_vec(),
                        pairs,
                    };
                    check(run, &case);
                }
            }
        }
    }
}

/// Buffers without a byte and with one.
fn short_buffers(run: &mut Run) {
    for buffer in [&b""[..], b"\n", b"x"] {
        all_words(&[0, 1, 2, u64::MAX, 1 << 63], 4, |pairs| {
            let case = Case {
                model: MODEL.to_vec(),
                witnesses: buffer.to_vec(),
                pairs: pairs.to_vec(),
            };
            check(run, &case);
        });
    }
}

/// So many witnesses, each with a gap and without, and pair words of both parities; the last one
/// with a text of its own, so that it shows whether it is read.
fn counts(run: &mut Run) {
    for count in (0..6).chain(60..69).chain([127, 128, 129, 130]) {
        let mut witnesses = vec![FIRST; count];
        if let Some(last) = witnesses.last_mut() {
            *last = SECOND;
        }
        for model in [MODEL, b"aag 1 0 1 0 0\n2\n"] {
            for _ in 0..4 {
                texts(run, model, &witnesses);
            }
            let mut case = Case::of(model, &witnesses);
            // A word more, and a word less: half a pair does not count.
            case.pairs.push(0);
            check(run, &case);
            case.pairs.pop();
            case.pairs.pop();
            check(run, &case);
            // The last text is empty, which is 3, or a copy of the first, which is 2.
            if let [.., first, last] = &mut Case::of(model, &witnesses).pairs[..] {
                let (first, last) = (*first, *last);
                for pair in [
                    [first, 0],
                    [first + last, 0],
                    [0, last],
                    [first + last + 1, 0],
                ] {
                    let mut case = Case::of(model, &witnesses);
                    let place = case.pairs.len() - 2;
                    case.pairs[place..].copy_from_slice(&pair);
                    check(run, &case);
                }
            }
        }
    }
}
