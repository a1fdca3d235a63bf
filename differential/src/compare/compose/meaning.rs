//! What compositions mean, by brute force over all values of their inputs and latches (R11).

use super::cases::Case;
use super::circuits::{Plan, model, witness};
use super::small::MODEL;
use super::{Group, Run};
use crate::compare::inputs::filled;
use crate::compare::lent::Words;
use crate::compare::witness::pages::Page;
use crate::oracle::compose as oracle;
use crate::reading::compose::{RULES, Texts, composition, texts};
use crate::reading::witness::sections;
use crate::sections::Sections;
use crate::subject::compose::Lent;
use crate::subject::witness::Role;
use crate::tally::Answers;

pub const SMALL: Group = Group {
    name: "compose: meaning of small compositions",
    run: small,
};

pub const RANDOM: Group = Group {
    name: "compose: meaning of random compositions",
    run: random,
};

/// The most inputs and latches over which all values are tried.
const MOST_LEAVES: usize = 10;

/// Work words and bytes that are enough for each case here.
const ENOUGH: usize = 4_096;

/// For each values of inputs and latches: whether some safety literal is true, whether all
/// constraints hold, and the values of each witness's variables and of its latches' next and reset.
/// None is a value that there is not.
type Meaning = Vec<Option<bool>>;

/// The value of a literal, where its variable has one.
fn value(values: &[bool], literal: u64) -> Option<bool> {
    let variable = values.get((literal / 2) as usize)?;
    Some(*variable != (literal % 2 == 1))
}

/// The values of a circuit's variables, with those of its inputs and latches given.
fn values(circuit: &Sections, leaves: impl Iterator<Item = bool>) -> Option<Vec<bool>> {
    let mut values = vec![false];
    values.extend(leaves);
    for &[_, left, right] in &circuit.gates {
        values.push(value(&values, left)? && value(&values, right)?);
    }
    Some(values)
}

/// What the witnesses say, each with its own equations, with the composed leaves at these bits.
fn of_witnesses(texts: &Texts, variables: &[Vec<u64>], bits: u64, meaning: &mut Meaning) {
    let (mut bad, mut hold) = (false, true);
    let mut others = Vec::new();
    for (witness, variables) in texts.witnesses.iter().zip(variables) {
        let circuit = &witness.sections;
        let count = circuit.inputs.len() + circuit.latches.len();
        let leaves = variables[1..=count].iter();
        let leaves = leaves.map(|variable| bits >> (variable - 1) & 1 == 1);
        let values = values(circuit, leaves).expect("a gate's operands are below it");
        let at = |literal: &u64| value(&values, *literal).expect("in range");
        let safety = if circuit.bads.is_empty() {
            &circuit.outputs
        } else {
            &circuit.bads
        };
        bad |= safety.iter().any(at);
        hold &= circuit.constraints.iter().all(at);
        others.extend(values[1..].iter().copied().map(Some));
        for latch in &circuit.latches {
            others.extend([at(&latch.next), at(&latch.reset)].map(Some));
        }
    }
    meaning.extend([Some(bad), Some(hold)]);
    meaning.extend(others);
}

/// What the composed circuit says of the same.
fn of_composed(
    composed: &Sections,
    texts: &Texts,
    variables: &[Vec<u64>],
    bits: u64,
    meaning: &mut Meaning,
) {
    let leaves = composed.inputs.len() + composed.latches.len();
    let leaves = (0..leaves).map(|place| bits >> place & 1 == 1);
    let Some(values) = values(composed, leaves) else {
        return meaning.push(None);
    };
    let at = |literal: &u64| value(&values, *literal);
    meaning.push(Some(composed.bads.iter().any(|bad| at(bad) == Some(true))));
    let holds = |literal| at(literal) == Some(true);
    meaning.push(Some(composed.constraints.iter().all(holds)));
    for (witness, variables) in texts.witnesses.iter().zip(variables) {
        meaning.extend(variables[1..].iter().map(|variable| at(&(2 * variable))));
        for latch in &witness.sections.latches {
            let current = 2 * variables[(latch.current / 2) as usize];
            let mut latches = composed.latches.iter();
            let latch = latches.find(|latch| latch.current == current);
            let literal = |pick: fn(&crate::sections::Latch) -> u64| at(&pick(latch?));
            meaning.extend([literal(|latch| latch.next), literal(|latch| latch.reset)]);
        }
    }
}

/// Compares what our text means, not its bytes. Says whether the case is accepted and small enough.
fn meant(run: &mut Run, case: &Case) -> bool {
    let Ok(texts) = texts(&case.asked()) else {
        return false;
    };
    let Ok(composition) = composition(&texts, &RULES) else {
        return false;
    };
    let numbering = &composition.numbering;
    let leaves = numbering.inputs.len() + numbering.latches.len();
    if leaves > MOST_LEAVES {
        return false;
    }
    let says = |text: Option<Vec<u8>>| -> Option<Meaning> {
        let composed = sections(&text?, Role::Model).ok()?;
        let mut meaning = Vec::new();
        for bits in 0..1 << leaves {
            of_composed(&composed, &texts, &numbering.variables, bits, &mut meaning);
        }
        Some(meaning)
    };
    let mut due = Vec::new();
    for bits in 0..1 << leaves {
        of_witnesses(&texts, &numbering.variables, bits, &mut due);
    }
    let parts: Vec<&[u8]> = texts.witnesses.iter().map(|witness| witness.text).collect();
    let answers = Answers {
        ours: says(composed(run, case)),
        rust: Some(says(oracle::compose(&case.model, &parts))),
        reading: Some(due),
    };
    run.tally.check(answers, || case.shown());
    true
}

/// The text that ours makes, with more lent than a small case needs.
fn composed(run: &mut Run, case: &Case) -> Option<Vec<u8>> {
    let mut work = Words::garbage(&mut run.random, ENOUGH).0;
    let mut out = vec![0; ENOUGH];
    let mut lent = Lent {
        work: &mut work,
        out: &mut out,
    };
    let composed = (run.ours.compose)(&case.asked(), &mut lent);
    out.truncate(composed.bytes);
    (composed.reason == 0).then_some(out)
}

/// All operands of a gate in one witness and most literals elsewhere, beside two others.
fn small(run: &mut Run) {
    let form = "aag 3 1 1 0 1 1 1\n2\n4 # 1\n#\n#\n6 # #\n";
    let others = [
        "aag 3 1 1 1 1 0 1\n2\n4 # 1\n7\n2\n6 5 2\ni0 = 2\nl0 = 4\n",
        "aag 3 2 1 0 0 2 2\n2\n4\n6 4\n4\n3\n6\n1\ni0 = 2\n",
        "aag 3 1 1 0 1 1\n2\n4 # 1\n7\n6 2 4\n",
    ];
    for number in 0..8_u64.pow(5) {
        let text = filled(form, number, 8);
        if text.contains("\n6 6") || text.contains("\n6 7") || number % 3 != 0 {
            continue;
        }
        // The other's next literal is this one's, which may be a gate that they share or not.
        let next = (number % 8).to_string();
        let other = others[(number / 3 % 3) as usize].replace('#', &next);
        meant(run, &Case::of(MODEL, &[&text, &other]));
    }
}

fn random(run: &mut Run) {
    let mut tried = 0;
    for _ in 0..run.cases {
        let most = run.random.choose(&[1, 2, 3]);
        let model = model(&mut run.random, most);
        let count = 2 + run.random.below(3);
        let witnesses: Vec<Vec<u8>> = (0..count)
            .map(|_| {
                let plan = Plan {
                    named: run.random.once_in(2),
                    partial: run.random.once_in(3),
                    own: run.random.choose(&[0, 1, 1, 2]),
                };
                witness(&mut run.random, &model, plan).plain()
            })
            .collect();
        let case = Case::of(Page::of(&model).plain(), &witnesses);
        tried += usize::from(meant(run, &case));
    }
    assert!(
        2 * tried >= run.cases,
        "most of the circuits are refused or too large"
    );
}
