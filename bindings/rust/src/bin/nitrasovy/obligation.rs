//! `nitrasovy row` and `nitrasovy terminal`: the clauses of a claim.

use crate::arguments::Arguments;
use crate::failure::Failure;
use crate::{clauses, input, model, numbers, output, progress};
use nitrasovy::aiger_obligation::{
    AigerInputPredicate, AigerObligationError, AigerOutcome, AigerTransition,
    parse_ascii_aiger_transition, relation_row_completeness_cnf, terminal_completeness_cnf,
    transducer_row_completeness_cnf,
};
use nitrasovy::unsat_proof::CnfClause;
use std::ffi::{OsStr, OsString};

/// The inputs that conditions speak of, and the conditions over places in that list.
struct Inputs {
    relevant: Vec<usize>,
    predicate: AigerInputPredicate,
}

type Made = Result<Vec<CnfClause>, AigerObligationError>;

pub fn row(arguments: &Arguments) -> Result<(), Failure> {
    let ([name, source], claims) = arguments.first(["FILE", "SOURCE"])?;
    let source = read_number(arguments, "SOURCE", source)?;
    let inputs = Inputs::of(arguments)?;
    let any = inputs.described();
    if let Some(list) = arguments.value("--outputs") {
        let observed = read_list(arguments, "an output of --outputs", list)?;
        let outcomes = read_all(arguments, claims, numbers::outcome)?;
        let about = format!(
            "row from {} to {} claimed outcomes, with observed outputs {}.\nThe clauses are \
             unsatisfiable exactly when every {any} leads to a claimed target with its outputs.\n",
            model::state(source),
            outcomes.len(),
            model::states(&observed)
        );
        return answer(arguments, name, &about, |model| {
            outcome_row(model, &inputs, source, &observed, &outcomes)
        });
    }
    let targets = read_all(arguments, claims, |text| {
        let number = numbers::number("a target", text);
        number.map_err(|what| format!("{what} (a claim with outputs needs --outputs)"))
    })?;
    let about = format!(
        "row from {} to the claimed targets {}.\nThe clauses are unsatisfiable exactly when every \
         {any} leads to a claimed target.\n",
        model::state(source),
        model::states(&targets)
    );
    answer(arguments, name, &about, |model| {
        let Inputs {
            relevant,
            predicate,
        } = &inputs;
        relation_row_completeness_cnf(model, relevant, source, predicate, &targets)
    })
}

fn outcome_row(
    model: &AigerTransition,
    inputs: &Inputs,
    source: usize,
    observed: &[usize],
    outcomes: &[AigerOutcome],
) -> Made {
    let Inputs {
        relevant,
        predicate,
    } = inputs;
    transducer_row_completeness_cnf(model, relevant, source, predicate, observed, outcomes)
}

pub fn terminal(arguments: &Arguments) -> Result<(), Failure> {
    let ([name, bad], claims) = arguments.first(["FILE", "BAD"])?;
    let bad = read_number(arguments, "BAD", bad)?;
    let states = read_all(arguments, claims, |text| numbers::number("a state", text))?;
    let inputs = Inputs::of(arguments)?;
    let about = format!(
        "terminal list for output {bad} with the claimed states {}.\nThe clauses are unsatisfiable \
         exactly when every state is claimed in which some {} leaves that output 0.\n",
        model::states(&states),
        inputs.described()
    );
    answer(arguments, name, &about, |model| {
        let Inputs {
            relevant,
            predicate,
        } = &inputs;
        terminal_completeness_cnf(model, relevant, predicate, bad, &states)
    })
}

/// Reads the model, makes the clauses and writes them.
fn answer(
    arguments: &Arguments,
    name: &OsStr,
    about: &str,
    make: impl FnOnce(&AigerTransition) -> Made,
) -> Result<(), Failure> {
    let text = input::read(name)?;
    let (model, made) = progress::shown("making clauses", || {
        let model = parse_ascii_aiger_transition(&text)?;
        let made = make(&model)?;
        Ok::<_, Failure>((model, made))
    })?;
    let plain = arguments.has("--plain");
    output::write(|out| {
        if plain {
            return clauses::write_plain(out, &made);
        }
        writeln!(out, "{}: {about}", input::source(name))?;
        clauses::write_table(out, &model, &made)
    })
}

impl Inputs {
    /// Conditions speak of inputs by their number in the model; the library wants the list of the
    /// inputs that are relevant, and places in that list. Without `--inputs` they are those that
    /// the conditions name. A condition on an input outside `--inputs` gets a place outside the
    /// list, which the library refuses.
    fn of(arguments: &Arguments) -> Result<Self, Failure> {
        let conditions: Vec<OsString> = arguments.values("--when").map(OsString::from).collect();
        let conditions = read_all(arguments, &conditions, numbers::condition)?;
        let relevant = match arguments.value("--inputs") {
            Some(list) => read_list(arguments, "an input of --inputs", list)?,
            None => {
                let named = conditions.iter().flatten().map(|&(input, _)| input);
                let mut named: Vec<usize> = named.collect();
                named.sort_unstable();
                named.dedup();
                named
            }
        };
        let place = |(input, value)| {
            let place = relevant.iter().position(|&listed| listed == input);
            (place.unwrap_or(usize::MAX), value)
        };
        let clauses = conditions.into_iter();
        let clauses = clauses.map(|clause| clause.into_iter().map(place).collect());
        Ok(Self {
            predicate: AigerInputPredicate {
                clauses: clauses.collect(),
            },
            relevant,
        })
    }

    fn described(&self) -> &'static str {
        match self.predicate.clauses.len() {
            0 => "input",
            1 => "input that meets the condition",
            _ => "input that meets all conditions",
        }
    }
}

fn read_number(arguments: &Arguments, what: &str, word: &OsStr) -> Result<usize, Failure> {
    let number = numbers::text(word).and_then(|text| numbers::number(what, text));
    number.map_err(|what| arguments.usage(what))
}

fn read_list(arguments: &Arguments, what: &str, word: &OsStr) -> Result<Vec<usize>, Failure> {
    let list = numbers::text(word).and_then(|text| numbers::list(what, text));
    list.map_err(|what| arguments.usage(what))
}

fn read_all<T>(
    arguments: &Arguments,
    words: &[OsString],
    read: impl Fn(&str) -> Result<T, String>,
) -> Result<Vec<T>, Failure> {
    let values = words.iter().map(|word| read(numbers::text(word)?));
    let values: Result<Vec<T>, String> = values.collect();
    values.map_err(|what| arguments.usage(what))
}
