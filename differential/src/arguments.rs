//! The words of the command line.

use crate::compare::{Comparison, Settings, compose, model, obligation, text, witness};

pub const USAGE: &str =
    "usage: differential [text|model|obligation|witness|compose] [--seed N] [--cases N] [--self-test]
       differential sample [--self-test]
  text         numbers, lines, fields, literals, text checks, decimal digits (the default)
  model        the transition reader, the validation of records, the step
  obligation   the three calls that make clauses, and what the clauses mean
  witness      the witness reader, for models and witnesses, and all that it reads
  compose      the composer, and what a composition means
  sample       writes the cases that the program `replay` has stored, and the answers due
  --seed N     seed of the random inputs (default 1)
  --cases N    random inputs a group (default 100000 for text, 20000 for the others)
  --self-test  compare deliberately wrong variants instead; succeeds when all are found";

pub struct Arguments {
    pub layer: &'static dyn Comparison,
    pub settings: Settings,
    pub self_test: bool,
    pub sample: bool,
}

/// Reads the words, or says what is wrong with them.
pub fn read(mut words: impl Iterator<Item = String>) -> Result<Arguments, String> {
    let mut arguments = Arguments {
        layer: &text::LAYER,
        settings: Settings {
            seed: 1,
            cases: None,
        },
        self_test: false,
        sample: false,
    };
    while let Some(word) = words.next() {
        match word.as_str() {
            "text" => arguments.layer = &text::LAYER,
            "model" => arguments.layer = &model::LAYER,
            "obligation" => arguments.layer = &obligation::LAYER,
            "witness" => arguments.layer = &witness::LAYER,
            "compose" => arguments.layer = &compose::LAYER,
            "sample" => arguments.sample = true,
            "--seed" => arguments.settings.seed = number(&word, words.next())?,
            "--cases" => arguments.settings.cases = Some(number(&word, words.next())?),
            "--self-test" => arguments.self_test = true,
            _ => return Err(format!("unknown word '{word}'")),
        }
    }
    Ok(arguments)
}

fn number<T: std::str::FromStr>(option: &str, word: Option<String>) -> Result<T, String> {
    word.and_then(|word| word.parse().ok())
        .ok_or_else(|| format!("{option} needs a number"))
}
