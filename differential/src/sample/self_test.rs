//! Which of the comparison's deliberately wrong variants the stored cases show, and cases for the others.

use super::answer::{by_compose, by_model, by_obligation, by_witness};
use super::case::Case;
use super::{CASES, LEFT_OUT, SEED, recorder};
use crate::compare::{Fault, Layer, compose, model, obligation, witness};
use std::panic::{self, AssertUnwindSafe};

/// What a subject answers to a case.
type Answers<S> = fn(&S, &Case) -> Vec<Vec<u8>>;

/// For each wrong variant that none of the cases shows, the smallest case of its group that does.
pub fn telling(cases: &[Case]) -> Vec<Case> {
    let mut more = more_of(&model::LAYER, recorder::MODEL, by_model, cases);
    more.extend(more_of(
        &obligation::LAYER,
        recorder::OBLIGATION,
        by_obligation,
        cases,
    ));
    more.extend(more_of(
        &witness::LAYER,
        recorder::WITNESS,
        by_witness,
        cases,
    ));
    more.extend(more_of(
        &compose::LAYER,
        recorder::COMPOSE,
        by_compose,
        cases,
    ));
    more
}

fn more_of<S: Copy + 'static>(
    layer: &Layer<S>,
    recording: S,
    answers: Answers<S>,
    cases: &[Case],
) -> Vec<Case> {
    let mut more = Vec::new();
    for fault in layer.faults.iter().copied().flatten() {
        let (ours, wrong) = (layer.ours, spoiled(layer, fault));
        let shows = move |case: &Case| differs(answers, &ours, &wrong, case);
        let shown = cases.iter().chain(&more).any(shows);
        let group = layer.groups.iter().find(|group| group.name == fault.group);
        let group = group.filter(|group| !shown && !LEFT_OUT.contains(&group.name));
        if let Some(group) = group {
            recorder::look_for(Box::new(shows));
            group.tally(SEED, CASES, recording);
            more.extend(recorder::taken());
        }
    }
    more
}

fn spoiled<S: Copy>(layer: &Layer<S>, fault: &Fault<S>) -> S {
    let mut subject = layer.ours;
    (fault.spoil)(&mut subject);
    subject
}

/// Whether a wrong variant answers in another way. It may stop at a case that its group does not have.
fn differs<S>(answers: Answers<S>, ours: &S, wrong: &S, case: &Case) -> bool {
    let wrong = panic::catch_unwind(AssertUnwindSafe(|| answers(wrong, case)));
    wrong.is_ok_and(|wrong| wrong != answers(ours, case))
}

/// Says which wrong variants no case shows. Some of them are none of a call that is replayed.
pub fn run(cases: &[Case]) {
    let mut counts = [0; 2];
    tried(&model::LAYER, cases, by_model, &mut counts);
    tried(&obligation::LAYER, cases, by_obligation, &mut counts);
    tried(&witness::LAYER, cases, by_witness, &mut counts);
    tried(&compose::LAYER, cases, by_compose, &mut counts);
    println!("{} of {} wrong variants are shown", counts[1], counts[0]);
}

/// Counts the wrong variants of a layer, and those that some case shows.
fn tried<S: Copy>(layer: &Layer<S>, cases: &[Case], answers: Answers<S>, counts: &mut [usize; 2]) {
    for fault in layer.faults.iter().copied().flatten() {
        let wrong = spoiled(layer, fault);
        let mut all = cases.iter();
        let shown = all.any(|case| differs(answers, &layer.ours, &wrong, case));
        counts[0] += 1;
        counts[1] += usize::from(shown);
        if !shown {
            println!("not shown: '{}' of '{}'", fault.name, fault.group);
        }
    }
}
