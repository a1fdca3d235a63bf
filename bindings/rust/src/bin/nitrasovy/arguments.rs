//! The words of the command line: options, and what is not an option.

use crate::failure::Failure;
use crate::input::shown;
use std::ffi::{OsStr, OsString};

/// What follows an option.
#[derive(Clone, Copy, PartialEq)]
pub enum Kind {
    /// Nothing.
    Flag,
    /// A value; the option stands once.
    Value,
    /// A value; the option may stand many times.
    Values,
}

/// The words after a subcommand.
pub struct Arguments {
    pub subcommand: &'static str,
    pub help: bool,
    pub words: Vec<OsString>,
    options: Vec<(&'static str, OsString)>,
}

impl Arguments {
    /// Takes the words apart. `--` ends the options, and `-` is a word.
    pub fn of(
        subcommand: &'static str,
        known: &[(&'static str, Kind)],
        words: Vec<OsString>,
    ) -> Result<Self, Failure> {
        let mut arguments = Self {
            subcommand,
            help: false,
            words: Vec::new(),
            options: Vec::new(),
        };
        let mut words = words.into_iter();
        while let Some(word) = words.next() {
            match word.to_str() {
                Some("--") => arguments.words.extend(words.by_ref()),
                Some("--help" | "-h") => arguments.help = true,
                _ if is_option(&word) => arguments.option(known, &word, &mut words)?,
                _ => arguments.words.push(word),
            }
        }
        Ok(arguments)
    }

    fn option(
        &mut self,
        known: &[(&'static str, Kind)],
        word: &OsStr,
        words: &mut impl Iterator<Item = OsString>,
    ) -> Result<(), Failure> {
        let Some(text) = word.to_str() else {
            let word = shown(word);
            return Err(self.usage(format!(
                "'{word}' is not text; give an option's value as a word of its own"
            )));
        };
        let (name, attached) = match text.split_once('=') {
            Some((name, value)) => (name, Some(OsString::from(value))),
            None => (text, None),
        };
        let Some(&(name, kind)) = known.iter().find(|(known, _)| *known == name) else {
            return Err(self.usage(format!(
                "'{}' is not an option here (and no number is negative)",
                shown(word)
            )));
        };
        if kind != Kind::Values && self.has(name) {
            return Err(self.usage(format!("{name} stands twice")));
        }
        let value = match (kind, attached) {
            (Kind::Flag, None) => OsString::new(),
            (Kind::Flag, Some(_)) => return Err(self.usage(format!("{name} takes no value"))),
            (_, Some(value)) => value,
            (_, None) => {
                let missing = || self.usage(format!("a value is missing after {name}"));
                words.next().ok_or_else(missing)?
            }
        };
        self.options.push((name, value));
        Ok(())
    }

    pub fn has(&self, name: &str) -> bool {
        self.value(name).is_some()
    }

    pub fn value(&self, name: &str) -> Option<&OsStr> {
        self.values(name).next()
    }

    pub fn values(&self, name: &str) -> impl Iterator<Item = &OsStr> {
        let named = self.options.iter().filter(move |(known, _)| *known == name);
        named.map(|(_, value)| value.as_os_str())
    }

    /// The first words by their names, and those behind them.
    pub fn first<const COUNT: usize>(
        &self,
        names: [&str; COUNT],
    ) -> Result<([&OsStr; COUNT], &[OsString]), Failure> {
        let Some((first, rest)) = self.words.split_first_chunk::<COUNT>() else {
            let missing = names[self.words.len()];
            return Err(self.usage(format!("{missing} is missing")));
        };
        Ok((first.each_ref().map(OsString::as_os_str), rest))
    }

    /// The words by their names, where there are no more.
    pub fn only<const COUNT: usize>(
        &self,
        names: [&str; COUNT],
    ) -> Result<[&OsStr; COUNT], Failure> {
        let (first, rest) = self.first(names)?;
        match rest.first() {
            None => Ok(first),
            Some(word) => Err(self.usage(format!("'{}' is one word too many", shown(word)))),
        }
    }

    pub fn usage(&self, what: String) -> Failure {
        Failure::usage(self.subcommand, what)
    }
}

/// Whether a word begins with a dash and is more than that.
fn is_option(word: &OsStr) -> bool {
    let bytes = word.as_encoded_bytes();
    bytes.len() > 1 && bytes[0] == b'-'
}
