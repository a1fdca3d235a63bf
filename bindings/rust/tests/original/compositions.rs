//! The witness reader, `take_literal` and the composer.

use crate::circuits::spaced;
use crate::published::composed_witness::access::{self, Circuit, read_aag};
use crate::published::composed_witness::compose_safety_witnesses_v1 as original;
use crate::random::Random;
use crate::texts::damage;
use nitrasovy::composed_witness::{
    Cursor, WitnessCounts, compose_safety_witnesses_v1, read_model, read_witness, take_literal,
};
use std::panic::catch_unwind;

/// A model's circuit: inputs, next and reset of latches, operands of gates.
struct Model {
    inputs: usize,
    latches: Vec<[usize; 2]>,
    gates: Vec<[usize; 2]>,
}

fn model(random: &mut Random) -> Model {
    let (inputs, latches, gates) = (random.below(4), random.below(4), random.below(5));
    let leaves = inputs + latches;
    let any = 2 * (leaves + gates) + 2;
    Model {
        inputs,
        latches: (0..latches)
            .map(|_| [random.below(any), random.below(2)])
            .collect(),
        gates: (leaves + 1..=leaves + gates)
            .map(|variable| [random.below(2 * variable), random.below(2 * variable)])
            .collect(),
    }
}

/// The text of a circuit that has the model's in it, with inputs, latches and gates of its own
/// behind the model's, and with so many outputs, bads and constraints at random.
fn text(
    random: &mut Random,
    model: &Model,
    own: [usize; 3],
    lists: [usize; 3],
    named: bool,
) -> String {
    let (inputs, latches) = (model.inputs + own[0], model.latches.len() + own[1]);
    let (leaves, gates) = (inputs + latches, model.gates.len() + own[2]);
    let place = |literal: usize| match literal / 2 {
        0 => literal,
        variable if variable <= model.inputs => literal,
        variable if variable <= model.inputs + model.latches.len() => literal + 2 * own[0],
        _ => literal + 2 * (own[0] + own[1]),
    };
    let any = 2 * (leaves + gates) + 2;
    let mut text = format!("aag {} {inputs} {latches} {}", leaves + gates, lists[0]);
    text.push_str(&format!(" {gates} {} {}\n", lists[1], lists[2]));
    let mut line = |numbers: &[usize]| text.push_str(&format!("{}\n", spaced(numbers)));
    (1..=inputs).for_each(|variable| line(&[2 * variable]));
    for at in 0..latches {
        let [next, reset] = match model.latches.get(at) {
            Some(latch) => latch.map(place),
            None => [random.below(any), random.below(any)],
        };
        line(&[2 * (inputs + at + 1), next, reset]);
    }
    (0..lists.iter().sum()).for_each(|_| line(&[random.below(any)]));
    for at in 0..gates {
        let output = 2 * (leaves + at + 1);
        let operands = model.gates.get(at).map(|gate| gate.map(place));
        let own = [random.below(output), random.below(output)];
        let [left, right] = operands.unwrap_or(own);
        line(&[output, left, right]);
    }
    if named {
        text.push_str(&names(random, model, [inputs, latches]));
    }
    text
}

/// Symbol lines that map the model's inputs and latches, and name some of the others.
fn names(random: &mut Random, model: &Model, [inputs, latches]: [usize; 2]) -> String {
    let mut names = String::new();
    let kinds = [
        ('i', inputs, model.inputs, 0),
        ('l', latches, model.latches.len(), model.inputs),
    ];
    for (kind, count, shared, before) in kinds {
        for at in 0..count {
            if at < shared {
                names.push_str(&format!("{kind}{at} = {}\n", 2 * (before + at + 1)));
            } else if random.once_in(2) {
                names.push_str(&format!(
                    "{kind}{at} {}\n",
                    random.choose(&["own", "", "a b"])
                ));
            }
        }
    }
    names + random.choose(&["", "c\nany comment\n", "c\n"])
}

/// The texts of a model and of so many witnesses of it.
fn texts(random: &mut Random, count: usize) -> (String, Vec<String>) {
    let model = model(random);
    let witness = |random: &mut Random| {
        let own = [0; 3].map(|_: usize| random.below(3));
        let lists = [1 + random.below(2), random.below(3), random.below(3)];
        let named = random.once_in(2);
        text(random, &model, own, lists, named)
    };
    let witnesses = (0..count).map(|_| witness(random)).collect();
    (text(random, &model, [0; 3], [0; 3], false), witnesses)
}

/// Composes with both; whether it was accepted. The original stops at some texts that are refused.
fn compare(model: &[u8], witnesses: &[&[u8]]) -> bool {
    let ours = compose_safety_witnesses_v1(model, witnesses).ok();
    let expected = catch_unwind(|| original(model, witnesses).ok());
    assert_eq!(
        ours,
        expected.ok().flatten(),
        "{:?}",
        String::from_utf8_lossy(model)
    );
    for text in witnesses {
        for (witness, read) in [(true, read_witness(text)), (false, read_model(text))] {
            let expected = catch_unwind(|| read_aag(text, witness).map(counts));
            assert_eq!(read.ok(), expected.ok().flatten());
        }
    }
    ours.is_some()
}

fn counts(read: Circuit) -> WitnessCounts {
    WitnessCounts {
        max_variable: read.max_variable,
        inputs: read.inputs.len(),
        latches: read.latches.len(),
        outputs: read.outputs.len(),
        gates: read.gates.len(),
        bads: read.bads.len(),
        constraints: read.constraints.len(),
    }
}

#[test]
fn compositions_are_the_same() {
    let mut random = Random::of("compositions");
    let mut accepted = 0;
    for turn in 0..1_500 {
        let count = if turn % 100 == 0 {
            60 + random.below(7)
        } else {
            random.below(5)
        };
        let (model, witnesses) = texts(&mut random, count);
        let witnesses: Vec<&[u8]> = witnesses.iter().map(|text| text.as_bytes()).collect();
        accepted += usize::from(compare(model.as_bytes(), &witnesses));
    }
    assert!((600..1_400).contains(&accepted), "{accepted} of 1500");
}

#[test]
fn damaged_compositions_are_refused_alike() {
    let mut random = Random::of("damaged compositions");
    let mut accepted = 0;
    for _ in 0..4_000 {
        let (model, witnesses) = texts(&mut random, 2);
        let mut all: Vec<Vec<u8>> = [model]
            .into_iter()
            .chain(witnesses)
            .map(String::into_bytes)
            .collect();
        let place = random.below(3);
        all[place] = damage(&mut random, &String::from_utf8_lossy(&all[place]));
        accepted += usize::from(compare(&all[0], &[&all[1], &all[2]]));
    }
    assert!((200..3_000).contains(&accepted), "{accepted} of 4000");
}

/// 16 MB of names, which are the longest part of a composition, and 300,000 inputs.
#[test]
fn large_compositions_are_the_same() {
    let inputs = 300_000;
    let mut witness = format!("aag {inputs} {inputs} 0 1 0\n");
    (1..=inputs).for_each(|variable| witness.push_str(&format!("{}\n", 2 * variable)));
    witness.push_str("7\n");
    (0..inputs).for_each(|at| witness.push_str(&format!("i{at} a name of some length {at}\n")));
    let model = b"aag 0 0 0 0 0\n";
    assert!(compare(model, &[witness.as_bytes(), witness.as_bytes()]));
    witness.push_str("c\n");
    let mut long = witness.into_bytes();
    long.resize(16_777_217, b'\n');
    assert!(!compare(model, &[&long, &long]));
    long.pop();
    assert!(compare(model, &[&long, &long]));
}

#[test]
fn literals_are_taken_alike() {
    let mut random = Random::of("literals");
    let parts = [
        "0",
        "07",
        "+7",
        "12",
        " ",
        "\t",
        "\n",
        "\n",
        "x",
        "18446744073709551616",
        "\r",
    ];
    for _ in 0..4_000 {
        let text: String = (0..random.below(12))
            .map(|_| random.choose(&parts))
            .collect();
        let mut lines = text.lines();
        let mut cursor = Cursor { at: 0 };
        while cursor.at < text.len() {
            let before = cursor.at;
            let ours = take_literal(text.as_bytes(), &mut cursor);
            assert_eq!(ours.ok(), access::take_literal(&mut lines), "{text:?}");
            assert!(cursor.at > before, "{text:?}");
        }
        assert_eq!(lines.next(), None, "{text:?}");
        let ours = take_literal(text.as_bytes(), &mut cursor);
        assert_eq!(
            (ours.map_err(|error| error.number()), cursor.at),
            (Err(8), text.len())
        );
    }
}
