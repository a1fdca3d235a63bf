//! Random models and witnesses: whole, many at once, and damaged.

use super::check::texts;
use super::circuits::{any_plan, model, witness};
use super::{Group, Run};
use crate::compare::model::pages::damage_bytes;
use crate::compare::witness::pages::Page;
use crate::random::Random;

pub const WHOLE: Group = Group {
    name: "compose: random circuits",
    run: whole,
};

pub const MANY: Group = Group {
    name: "compose: up to 64 random witnesses",
    run: many,
};

pub const DAMAGED: Group = Group {
    name: "compose: damaged circuits",
    run: damaged,
};

/// A model and so many witnesses of it.
fn pages(random: &mut Random, most: usize, count: usize) -> (Page, Vec<Page>) {
    let model = model(random, most);
    let witnesses = (0..count).map(|_| {
        let plan = any_plan(random);
        witness(random, &model, plan)
    });
    let witnesses = witnesses.collect();
    (Page::of(&model), witnesses)
}

/// A page's text, written plainly or not.
fn written(random: &mut Random, page: &Page) -> Vec<u8> {
    match random.once_in(4) {
        true => page.dressed(random),
        false => page.plain(),
    }
}

fn compared(run: &mut Run, model: &Page, witnesses: &[Page]) -> bool {
    let model = written(&mut run.random, model);
    let witnesses: Vec<Vec<u8>> = witnesses
        .iter()
        .map(|page| written(&mut run.random, page))
        .collect();
    texts(run, model, &witnesses)
}

fn whole(run: &mut Run) {
    let mut accepted = 0;
    for _ in 0..run.cases {
        let most = run.random.choose(&[1, 2, 3, 6, 20]);
        let count = 2 + run.random.below(3);
        let (model, witnesses) = pages(&mut run.random, most, count);
        accepted += usize::from(compared(run, &model, &witnesses));
    }
    // Else the group would be about refusals.
    assert!(
        2 * accepted >= run.cases,
        "most of the circuits are refused"
    );
}

fn many(run: &mut Run) {
    for turn in 0..run.cases / 100 {
        let count = match turn % 4 {
            0 => 64,
            1 => 63 + run.random.below(3),
            _ => 2 + run.random.below(63),
        };
        let (model, witnesses) = pages(&mut run.random, 12, count);
        compared(run, &model, &witnesses);
    }
}

/// One or two texts are changed, in fields, lines, numbers, names or bytes.
fn damaged(run: &mut Run) {
    for _ in 0..run.cases {
        let count = 2 + run.random.below(2);
        let (mut model, mut witnesses) = pages(&mut run.random, 3, count);
        for _ in 0..=run.random.below(2) {
            let place = run.random.below(witnesses.len() + 1);
            let page = witnesses.get_mut(place).unwrap_or(&mut model);
            match run.random.below(3) {
                0 => rename(&mut run.random, page),
                _ => page.damage(&mut run.random),
            }
        }
        if run.random.once_in(3) {
            let mut model = model.plain();
            let mut texts: Vec<Vec<u8>> = witnesses.iter().map(Page::plain).collect();
            let place = run.random.below(texts.len() + 1);
            damage_bytes(&mut run.random, texts.get_mut(place).unwrap_or(&mut model));
            super::check::texts(run, model, &texts);
        } else {
            compared(run, &model, &witnesses);
        }
    }
}

/// Gives one symbol line another name, most of which map.
fn rename(random: &mut Random, page: &mut Page) {
    const OTHERS: [&str; 10] = [
        "= 2", "= 4", "= 6", "= 8", "= 3", "= 0", "= ", "= x", "x", "",
    ];
    if page.tail.is_empty() {
        return;
    }
    let place = random.below(page.tail.len());
    let line = &mut page.tail[place];
    if let Some((start, _)) = line.split_once(' ') {
        *line = format!("{start} {}", random.choose(&OTHERS));
    }
}
