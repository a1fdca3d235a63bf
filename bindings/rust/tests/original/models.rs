//! Records handed in, and steps.

use crate::circuits::{damage, model, theirs};
use crate::random::Random;
use nitrasovy::aiger_obligation::{AigerAnd, AigerLatch, AigerTransition};

#[test]
fn records_are_validated_alike() {
    let mut random = Random::of("records");
    let mut accepted = 0;
    for _ in 0..6_000 {
        let mut model = model(&mut random, 8);
        for _ in 0..random.below(3) {
            damage(&mut random, &mut model);
        }
        let ours = model.validate();
        assert_eq!(ours.is_ok(), theirs(&model).validate().is_ok(), "{model:?}");
        accepted += usize::from(ours.is_ok());
    }
    assert!((1_500..4_500).contains(&accepted), "{accepted} of 6000");
}

#[test]
fn steps_are_the_same() {
    let mut random = Random::of("steps");
    for _ in 0..2_000 {
        let model = model(&mut random, 12);
        let original = theirs(&model);
        assert_eq!(model.state_count(), original.state_count());
        for _ in 0..8 {
            let state = random.below(model.state_count() + 1);
            let input = random.below((1 << model.inputs.len()) + 1) as u64;
            compare(&model, state, input);
        }
        compare(&model, usize::MAX, 0);
        compare(&model, 0, u64::MAX);
    }
}

fn compare(model: &AigerTransition, state: usize, input: u64) {
    let original = theirs(model).evaluate(state, input);
    let ours = model.evaluate(state, input);
    assert_eq!(ours.ok(), original.ok(), "{state} {input} {model:?}");
}

/// All bits of inputs, latches and outputs at once and one by one.
#[test]
fn wide_models_step_alike() {
    let mut random = Random::of("wide");
    let latches = (65..=72).map(|variable| AigerLatch {
        current: 2 * variable,
        next: random.below(290),
    });
    let latches = latches.collect();
    let gates = (73..=144).map(|variable| AigerAnd {
        output: 2 * variable,
        left: random.below(2 * variable),
        right: random.below(2 * variable),
    });
    let ands = gates.collect();
    let model = AigerTransition {
        max_variable: 144,
        inputs: (1..=64).map(|variable| 2 * variable).collect(),
        latches,
        outputs: (0..128).map(|_| random.below(290)).collect(),
        ands,
    };
    for bit in 0..64 {
        compare(&model, 1 << (bit % 8), 1 << bit);
        compare(&model, random.below(256), random.word());
    }
    compare(&model, 255, u64::MAX);
    compare(&model, 256, 0);
}
