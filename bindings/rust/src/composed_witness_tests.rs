//! Room that is too small at first.

use super::*;

const MODEL: &[u8] = b"aag 1 0 1 0 0\n2 2\n";
const WITNESSES: [&[u8]; 2] = [b"aag 1 0 1 1 0\n2 2\n2\n", b"aag 1 0 1 1 0\n2 2\n3\n"];
const COMPOSED: &[u8] = b"aag 1 0 1 0 0 2 0 0 0\n2 2 0\n2\n3\nl0 = 2\nc\n\
    GCC FM 2026 composed-witness baseline v1\n";

fn needs() -> Needs {
    Needs::of(MODEL, WITNESSES.into_iter())
}

fn composed_with(first: Room) -> Result<Vec<u8>, Refusal> {
    let buffer = WITNESSES.concat();
    let length = WITNESSES[0].len();
    compose_with(
        first,
        needs(),
        MODEL,
        &buffer,
        &[[0, length], [length, length]],
    )
}

#[test]
fn the_requirements_case() {
    let composed = compose_safety_witnesses_v1(MODEL, &WITNESSES);
    assert_eq!(composed.as_deref(), Ok(COMPOSED));
}

#[test]
fn the_first_room_is_enough() {
    assert_eq!(needs().first()[0], 16 * 5 + 1_024);
    assert!(needs().first()[1] >= COMPOSED.len());
}

#[test]
fn too_little_room_is_made_good() {
    let enough = needs().room;
    for first in [
        [0, 0],
        [0, enough[1]],
        [enough[0] - 1, 1],
        [enough[0], 0],
        [enough[0], 70],
        enough,
    ] {
        assert_eq!(composed_with(first).as_deref(), Ok(COMPOSED), "{first:?}");
    }
}

#[test]
fn growing_goes_past_a_wrong_estimate_and_ends() {
    let refusal = |number| Refusal::of(number).expect("a refusal");
    let low = Needs { room: [1, 1] };
    assert_eq!(low.more(refusal(15), [1, 9]), Some([256, 9]));
    assert_eq!(low.more(refusal(15), [300, 0]), Some([600, 1]));
    assert_eq!(low.more(refusal(20), [300, 1]), Some([300, 256]));
    assert_eq!(low.more(refusal(16), [300, 1]), None);
    assert_eq!(low.more(refusal(15), [usize::MAX / 2, 0]), None);
    assert_eq!(low.more(refusal(20), [0, usize::MAX / 2]), None);
}

#[test]
fn a_great_need_is_believed_after_reading() {
    // 16 MB of comments could be as many outputs; the header says so, the lines do not.
    let mut text = b"aag 1 0 1 9999999 0\n2 2\nc\n".to_vec();
    text.resize(MAX_COMPOSED_AIGER_BYTES, b'\n');
    let needs = Needs::of(MODEL, [&text[..], &text].into_iter());
    assert!(needs.room[0] > MANY_WORDS);
    assert_eq!(needs.first(), [0, 0]);
    let refused = compose_safety_witnesses_v1(MODEL, &[&text, &text]).unwrap_err();
    assert_eq!(refused.number(), 8);
}

#[test]
fn numbers_of_calls_that_lend_no_text() {
    let number = |count| {
        let texts = vec![WITNESSES[0]; count];
        let answer = compose_safety_witnesses_v1(MODEL, &texts);
        answer.err().map(ComposedWitnessError::number)
    };
    assert_eq!(
        [0, 1, 2, 64, 65, 1_000].map(number),
        [Some(1), Some(1), None, None, Some(1), Some(1)]
    );
    let parts = |parts: &[[usize; 2]]| {
        let answer = compose_safety_witnesses_in(MODEL, &WITNESSES.concat(), parts);
        answer.err().map(ComposedWitnessError::number)
    };
    assert_eq!(parts(&[[0, 20], [20, 20]]), None);
    assert_eq!(parts(&[[0, 20], [19, 20]]), Some(2));
    assert_eq!(parts(&[[0, 20], [usize::MAX, 20]]), Some(2));
    assert_eq!(parts(&[[0, 20], [20, usize::MAX]]), Some(2));
}
