//! Subjects that answer as the reading does, and keep some of the calls that are made of them: a few
//! for each group, call, reason and size, at random.

use super::case::{Call, Case, Making, call_of, short_slots};
use crate::random::Random;
use crate::reading;
use crate::subject::compose::{self, Composed};
use crate::subject::model::{self, Model, Read, Stepped};
use crate::subject::obligation::{self, Claim, Made};
use crate::subject::witness::{self, Role};
use std::cell::RefCell;
use std::collections::BTreeMap;

/// The most numbers and bytes of a small, a middle and a large call.
const SIZES: [usize; 3] = [400, 4_000, 24_000];
/// How many calls of each size are kept for a group and call that are accepted, and how many for each
/// reason.
const ACCEPTED_KEPT: [usize; 3] = [8, 2, 1];
const REFUSED_KEPT: [usize; 3] = [4, 1, 0];
/// The most words of each slice that the program has to lend, and the most bytes and work words for
/// the composer.
const MOST_WORDS: usize = 4_096;
const MOST_FOR_COMPOSER: usize = 65_536;

thread_local! {
    /// The calls of the group that is being run: a subject has functions alone.
    static RECORDER: RefCell<Option<Recorder>> = const { RefCell::new(None) };
}

/// Says whether a case is looked for.
type Test = Box<dyn Fn(&Case) -> bool>;

enum Recorder {
    /// Keeps some calls of each kind.
    Some {
        random: Random,
        kept: BTreeMap<(Call, u64, usize), Kept>,
    },
    /// Keeps the smallest call that is looked for.
    Smallest {
        wanted: Test,
        found: Option<(usize, Case)>,
    },
}

#[derive(Default)]
struct Kept {
    met: usize,
    cases: Vec<Case>,
}

/// Begins with a group of which some calls are kept.
pub fn start(seed: u64, group: &str) {
    let random = Random::new(seed, &format!("sample of {group}"));
    let kept = BTreeMap::new();
    RECORDER.set(Some(Recorder::Some { random, kept }));
}

/// Begins with a group in which a call is looked for.
pub fn look_for(wanted: Test) {
    let found = None;
    RECORDER.set(Some(Recorder::Smallest { wanted, found }));
}

/// The cases that were kept since then.
pub fn taken() -> Vec<Case> {
    match RECORDER.take().expect("a group was begun") {
        Recorder::Some { kept, .. } => kept.into_values().flat_map(|kept| kept.cases).collect(),
        Recorder::Smallest { found, .. } => found.into_iter().map(|(_, case)| case).collect(),
    }
}

/// Offers a call that was met.
fn offer(call: Call, reason: u64, size: usize, case: impl FnOnce() -> Case) {
    let Some(class) = SIZES.iter().position(|&most| size <= most) else {
        return;
    };
    RECORDER.with_borrow_mut(
        |recorder| match recorder.as_mut().expect("a group was begun") {
            Recorder::Some { random, kept } => {
                let kept = kept.entry((call, reason, class)).or_default();
                kept.offer(random, most_kept(reason, class), case);
            }
            Recorder::Smallest { wanted, found } => {
                if found.as_ref().is_none_or(|(least, _)| size < *least) {
                    let case = case();
                    if wanted(&case) {
                        *found = Some((size, case));
                    }
                }
            }
        },
    );
}

fn most_kept(reason: u64, class: usize) -> usize {
    match reason {
        0 => ACCEPTED_KEPT[class],
        _ => REFUSED_KEPT[class],
    }
}

impl Kept {
    /// Of all calls that are offered each is kept with the same chance.
    fn offer(&mut self, random: &mut Random, most: usize, case: impl FnOnce() -> Case) {
        self.met += 1;
        if self.cases.len() < most {
            self.cases.push(case());
        } else {
            let place = random.below(self.met);
            if place < most {
                self.cases[place] = case();
            }
        }
    }
}

pub const MODEL: model::Subject = model::Subject {
    read,
    validate: reading::model::validate,
    step,
    validate_words: reading::model::validate_words,
    step_words,
    // The same calls again, with the gates as records.
    step_records: reading::model::step_words,
};

fn read(text: &[u8], gates: &mut [u64], work: &mut [u64]) -> Read {
    let read = reading::model::read(text, gates, work);
    let lent = [gates.len(), work.len()];
    if lent.iter().all(|&words| words <= MOST_WORDS) {
        offer(Call::Transition, read.reason, text.len(), || {
            Case::Transition {
                text: text.to_vec(),
                gates: lent[0],
                work: lent[1],
            }
        });
    }
    read
}

fn step(model: &Model, gates: &[u64], work: &mut [u64], state: u64, input: u64) -> Stepped {
    step_words(model.words(), gates, work, state, input)
}

fn step_words(record: &[u64], gates: &[u64], work: &mut [u64], state: u64, input: u64) -> Stepped {
    let stepped = reading::model::step_words(record, gates, work, state, input);
    let size = record.len() + gates.len();
    if work.len().max(size) <= MOST_WORDS {
        offer(Call::Step, stepped.reason, size, || Case::Step {
            record: short_slots(record),
            gates: gates.to_vec(),
            work: work.len(),
            state,
            input,
        });
    }
    stepped
}

pub const OBLIGATION: obligation::Subject = obligation::Subject { make };

fn make(asked: &obligation::Asked, lent: &mut obligation::Lent) -> Made {
    let made = reading::obligation::make(asked, lent);
    let room = [lent.work.len(), lent.pairs.len(), lent.literals.len()];
    let size = size(asked);
    if room.iter().all(|&words| words.max(size) <= MOST_WORDS) {
        offer(call_of(&asked.claim), made.reason, size, || {
            Case::Making(Making {
                record: short_slots(asked.record),
                gates: asked.gates.to_vec(),
                relevant: asked.relevant.to_vec(),
                predicate_pairs: asked.predicate_pairs.to_vec(),
                predicate_literals: asked.predicate_literals.to_vec(),
                claim: owned(&asked.claim),
                work: room[0],
                pairs: room[1],
                literals: room[2],
            })
        });
    }
    made
}

/// How many numbers a call is given.
fn size(asked: &obligation::Asked) -> usize {
    let lists = [
        asked.record,
        asked.gates,
        asked.relevant,
        asked.predicate_pairs,
    ];
    let listed: usize = lists.iter().map(|list| list.len()).sum();
    let claimed = match asked.claim {
        Claim::Relation { targets: list, .. } | Claim::Terminal { states: list, .. } => list.len(),
        Claim::Transducer {
            observed, outcomes, ..
        } => observed.len() + outcomes.len(),
    };
    listed + asked.predicate_literals.len() + claimed
}

fn owned(claim: &Claim<&[u64]>) -> Claim<Vec<u64>> {
    match *claim {
        Claim::Relation { source, targets } => Claim::Relation {
            source,
            targets: targets.to_vec(),
        },
        Claim::Transducer {
            source,
            observed,
            outcomes,
        } => Claim::Transducer {
            source,
            observed: observed.to_vec(),
            outcomes: outcomes.to_vec(),
        },
        Claim::Terminal { bad_output, states } => Claim::Terminal {
            bad_output,
            states: states.to_vec(),
        },
    }
}

pub const WITNESS: witness::Subject = witness::Subject {
    read: read_witness,
    load: reading::witness::load,
};

fn read_witness(text: &[u8], role: Role) -> witness::Read {
    let read = reading::witness::read(text, role);
    offer(Call::Witness, read.reason, text.len(), || Case::Witness {
        text: text.to_vec(),
        role,
    });
    read
}

pub const COMPOSE: compose::Subject = compose::Subject {
    compose: compose_texts,
};

fn compose_texts(asked: &compose::Asked, lent: &mut compose::Lent) -> Composed {
    let composed = reading::compose::compose(asked, lent);
    let [work, room] = [lent.work.len(), lent.out.len()];
    if work.max(room) <= MOST_FOR_COMPOSER {
        let size = asked.model.len() + asked.witnesses.len() + asked.pairs.len();
        offer(Call::Compose, composed.reason, size, || Case::Compose {
            model: asked.model.to_vec(),
            witnesses: asked.witnesses.to_vec(),
            pairs: asked.pairs.to_vec(),
            work,
            room,
        });
    }
    composed
}
