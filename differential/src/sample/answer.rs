//! What is due of a case: the Rust's answer where it can be asked, and the reading's. Where both
//! answer, they must be the same.

use super::case::{Call, Case, Making, call_of};
use super::show::{BYTE, LITERAL, Line, WORD};
use crate::compare::lent::refusal;
use crate::oracle;
use crate::reading;
use crate::subject::compose::{self, Asked, Composed};
use crate::subject::model::{self, Model, Read, Stepped, WORDS};
use crate::subject::obligation::{self, Lent, Made};
use crate::subject::witness::{self, Role};
use crate::subject::{Rule, Taken};

pub struct Answer {
    pub reason: u64,
    /// Without the last byte 10.
    pub text: Vec<u8>,
    /// Whether the Rust was asked.
    pub by_rust: bool,
}

/// The answer, or what stands against it.
pub fn answer(case: &Case) -> Result<Answer, String> {
    match case {
        Case::Transition { text, gates, work } => transition(text, *gates, *work),
        Case::Step {
            record,
            gates,
            work,
            state,
            input,
        } => step(record, gates, *work, (*state, *input)),
        Case::Making(making) => made(making),
        Case::Witness { text, role } => read_witness(text, *role),
        Case::Compose {
            model,
            witnesses,
            pairs,
            work,
            room,
        } => {
            let asked = Asked {
                model,
                witnesses,
                pairs,
            };
            composed(&asked, *work, *room)
        }
        Case::Literal { text, rule, at } => literal(*rule, text, *at),
    }
}

/// The reading's text, which must be the Rust's where there is one.
fn agreed(reason: u64, reading: Vec<u8>, rust: Option<Vec<u8>>) -> Result<Answer, String> {
    let by_rust = rust.is_some();
    let text = rust.unwrap_or_else(|| reading.clone());
    if text != reading {
        return Err(format!(
            "the Rust answers \"{}\" and the reading \"{}\"",
            text.escape_ascii(),
            reading.escape_ascii()
        ));
    }
    Ok(Answer {
        reason,
        text,
        by_rust,
    })
}

/// Words with others put over the first ones.
fn over(mut words: Vec<u64>, front: &[u64]) -> Vec<u64> {
    words[..front.len()].copy_from_slice(front);
    words
}

fn transition_line(read: &Read, gates: &[u64], work: &[u64]) -> Vec<u8> {
    let model = &read.model;
    let counts = [
        model.max_variable,
        model.input_count,
        model.latch_count,
        model.output_count,
        model.and_count,
    ];
    let latches: Vec<u64> = model
        .latches
        .iter()
        .flat_map(|latch| [latch.current, latch.next])
        .collect();
    Line::of("transition", &[read.reason])
        .numbers(&counts)
        .zero(&model.inputs, model.input_count)
        .zero(&latches, 2 * model.latch_count)
        .zero(&model.outputs, model.output_count)
        .kept(gates, 3 * model.and_count, WORD)
        .zero(work, 0)
        .bytes()
}

/// The Rust is not asked where too few words are lent (7), or where it would stop.
fn transition(text: &[u8], gate_words: usize, work_words: usize) -> Result<Answer, String> {
    let lent = vec![WORD; gate_words];
    let (mut gates, mut work) = (lent.clone(), vec![WORD; work_words]);
    let read = reading::model::read(text, &mut gates, &mut work);
    let asked = read.reason != 7 && oracle::model::can_take(text);
    let zeros = vec![0; work_words];
    let rust = asked.then(|| match oracle::model::read(text) {
        Some(circuit) => {
            let model = Model::of(&circuit);
            let gates = over(lent, circuit.words());
            transition_line(&Read { reason: 0, model }, &gates, &zeros)
        }
        None => transition_line(&Read::refused(refusal(read.reason)), &lent, &zeros),
    });
    agreed(read.reason, transition_line(&read, &gates, &work), rust)
}

fn step_line(stepped: &Stepped, work: &[u64]) -> Vec<u8> {
    let Stepped {
        reason,
        target,
        high,
        low,
    } = *stepped;
    Line::of("step", &[reason, target, high, low])
        .zero(work, 0)
        .bytes()
}

/// The Rust is not asked of a record that is not whole or has more than there is room for, nor
/// where too few work words are lent.
fn step(
    record: &[u64],
    gates: &[u64],
    work_words: usize,
    (state, input): (u64, u64),
) -> Result<Answer, String> {
    let mut work = vec![WORD; work_words];
    let stepped = reading::model::step_words(record, gates, &mut work, state, input);
    let model = Model::in_words(record);
    let asked = record.len() >= WORDS && work_words > model.max_variable;
    let circuit = model.circuit(gates).filter(|_| asked);
    let rust = circuit.map(|circuit| {
        let transition = oracle::model::transition(&circuit);
        let rust = oracle::model::step(&transition, state, input);
        let rust = rust.unwrap_or(Stepped::refused(refusal(stepped.reason)));
        step_line(&rust, &vec![0; work_words])
    });
    agreed(stepped.reason, step_line(&stepped, &work), rust)
}

/// The line of a call that answers in these buffers.
fn made_line(making: &Making, make: impl FnOnce(&mut Lent) -> Made) -> (u64, Vec<u8>) {
    let mut work = vec![WORD; making.work];
    let mut pairs = vec![WORD; making.pairs];
    let mut literals = vec![LITERAL; making.literals];
    let made = make(&mut Lent {
        work: &mut work,
        pairs: &mut pairs,
        literals: &mut literals,
    });
    let name = match call_of(&making.claim) {
        Call::Relation => "relation",
        Call::Transducer => "transducer",
        _ => "terminal",
    };
    let line = Line::of(name, &[made.reason, made.clauses, made.literals])
        .kept(&pairs, 2 * made.clauses as usize, WORD)
        .kept(&literals, made.literals as usize, LITERAL)
        .zero(&work, 0)
        .bytes();
    (made.reason, line)
}

/// The Rust is not asked where the call has no form there, or too few work words are lent. It has
/// no limit on room: where its clauses do not fit, 20 is due.
fn made(making: &Making) -> Result<Answer, String> {
    let asked = making.asked();
    let (reason, due) = made_line(making, |lent| reading::obligation::make(&asked, lent));
    let enough = making.work > Model::in_words(&making.record).max_variable;
    let published = oracle::obligation::Published::of(&asked).filter(|_| enough);
    let rust = published.map(|published| {
        let clauses = published.make();
        let made = |lent: &mut Lent| {
            lent.work.fill(0);
            match clauses {
                Some(clauses) => {
                    reading::obligation::put(&oracle::obligation::words(&clauses), lent)
                }
                None => Made::refused(refusal(reason)),
            }
        };
        made_line(making, made).1
    });
    agreed(reason, due, rust)
}

fn witness_line(read: &witness::Read) -> Vec<u8> {
    let numbers = [
        read.reason,
        read.max_variable,
        read.inputs,
        read.latches,
        read.outputs,
        read.gates,
        read.bads,
        read.constraints,
    ];
    Line::of("witness", &numbers).bytes()
}

fn read_witness(text: &[u8], role: Role) -> Result<Answer, String> {
    let sections = reading::witness::sections(text, role);
    let read = reading::witness::read(text, role);
    let rust = oracle::witness::can_take(text).then(|| {
        let rust = oracle::witness::read(text, role, sections.as_ref().ok());
        let rust = rust.map_or(witness::Read::refused(refusal(read.reason)), |sections| {
            witness::Read::of(&sections)
        });
        witness_line(&rust)
    });
    agreed(read.reason, witness_line(&read), rust)
}

/// The line of a composer that answers in this room, with so many work words.
fn compose_line(
    work_words: usize,
    room: usize,
    compose: impl FnOnce(compose::Lent) -> Composed,
) -> (u64, Vec<u8>) {
    let (mut work, mut out) = (vec![WORD; work_words], vec![BYTE; room]);
    let Composed { reason, bytes } = compose(compose::Lent {
        work: &mut work,
        out: &mut out,
    });
    let line = Line::of("compose", &[reason, bytes as u64])
        .zero(&work, 0)
        .kept_bytes(&out, bytes);
    (reason, line)
}

/// The Rust is not asked where the pairs have no form there (2), or too few work words are lent
/// (15). It has no limit on room: where its text does not fit, 20 is due.
fn composed(asked: &Asked, work_words: usize, room: usize) -> Result<Answer, String> {
    let due = reading::compose::due(asked, &reading::compose::RULES);
    let (reason, line) = compose_line(work_words, room, |lent| {
        lent.work.fill(0);
        reading::compose::answer(&due, work_words, lent.out)
    });
    let texts = oracle::compose::form(asked).filter(|texts| {
        reason != 15 && (due.is_ok() || oracle::compose::can_compose(asked.model, texts))
    });
    let rust = texts.map(|texts| {
        let text = oracle::compose::compose(asked.model, &texts);
        let answered = |lent: compose::Lent| {
            lent.work.fill(0);
            match text {
                Some(text) => reading::compose::put(&text, lent.out),
                None => Composed::refused(refusal(reason)),
            }
        };
        compose_line(work_words, room, answered).1
    });
    agreed(reason, line, rust)
}

fn literal_line(taken: Taken) -> (u64, Vec<u8>) {
    let (reason, value) = taken.value.map_or((8, 0), |value| (0, value));
    let line = Line::of("literal", &[reason, value, taken.at as u64]);
    (reason, line.bytes())
}

/// The Rust is not asked of bytes above 127, nor at a place that is not the start of a line.
fn literal(rule: Rule, text: &[u8], at: usize) -> Result<Answer, String> {
    let (reason, line) = literal_line(reading::take_literal(rule, text, at));
    let starts = at == 0 || text.get(at - 1) == Some(&10);
    let readable = text.is_ascii() && at <= text.len() && starts;
    let rest = readable.then(|| std::str::from_utf8(&text[at..]).expect("ASCII"));
    let rust = rest.map(|rest| {
        let mut lines = rest.lines();
        let value = oracle::take_literal(rule, &mut lines);
        let at = at + oracle::place(rest, &lines);
        literal_line(Taken { value, at }).1
    });
    agreed(reason, line, rust)
}

/// What a subject answers to a case of its layer.
pub fn by_model(subject: &model::Subject, case: &Case) -> Vec<Vec<u8>> {
    match case {
        Case::Transition { text, gates, work } => {
            let (mut gates, mut work) = (vec![WORD; *gates], vec![WORD; *work]);
            let read = (subject.read)(text, &mut gates, &mut work);
            vec![transition_line(&read, &gates, &work)]
        }
        Case::Step {
            record,
            gates,
            work,
            state,
            input,
        } => {
            let stepped = |step: &dyn Fn(&mut [u64]) -> Stepped| {
                let mut work = vec![WORD; *work];
                let stepped = step(&mut work);
                step_line(&stepped, &work)
            };
            let words =
                &|work: &mut [u64]| (subject.step_words)(record, gates, work, *state, *input);
            let mut lines = vec![stepped(words)];
            if record.len() == WORDS {
                let model = Model::in_words(record);
                let whole = &|work: &mut [u64]| (subject.step)(&model, gates, work, *state, *input);
                lines.push(stepped(whole));
            }
            lines
        }
        _ => Vec::new(),
    }
}

pub fn by_obligation(subject: &obligation::Subject, case: &Case) -> Vec<Vec<u8>> {
    let Case::Making(making) = case else {
        return Vec::new();
    };
    let made = made_line(making, |lent| (subject.make)(&making.asked(), lent));
    vec![made.1]
}

pub fn by_witness(subject: &witness::Subject, case: &Case) -> Vec<Vec<u8>> {
    let Case::Witness { text, role } = case else {
        return Vec::new();
    };
    vec![witness_line(&(subject.read)(text, *role))]
}

pub fn by_compose(subject: &compose::Subject, case: &Case) -> Vec<Vec<u8>> {
    let Case::Compose {
        model,
        witnesses,
        pairs,
        work,
        room,
    } = case
    else {
        return Vec::new();
    };
    let asked = Asked {
        model,
        witnesses,
        pairs,
    };
    let composed = compose_line(*work, *room, |mut lent| {
        (subject.compose)(&asked, &mut lent)
    });
    vec![composed.1]
}
