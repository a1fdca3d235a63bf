//! `nitrasovy compose`: witnesses of a model in one text.

use crate::arguments::Arguments;
use crate::failure::Failure;
use crate::{input, output, progress};
use nitrasovy::composed_witness::{
    ComposedWitnessError, MAX_COMPOSED_WITNESSES, compose_safety_witnesses_in, read_model,
    read_witness,
};
use std::ffi::{OsStr, OsString};

/// A model, and witnesses in one buffer: offset and length of each.
struct Texts {
    model: Vec<u8>,
    witnesses: Vec<u8>,
    parts: Vec<[usize; 2]>,
}

pub fn run(arguments: &Arguments) -> Result<(), Failure> {
    let ([model], witnesses) = arguments.first(["MODEL"])?;
    input::check_names(arguments, &arguments.words)?;
    if witnesses.len() > MAX_COMPOSED_WITNESSES {
        // So many are refused by their number, and not read.
        let parts = vec![[0, 0]; witnesses.len()];
        compose_safety_witnesses_in(&[], &[], &parts)?;
    }
    let texts = Texts::read(model, witnesses)?;
    let composed = progress::shown("composing", || {
        let composed = compose_safety_witnesses_in(&texts.model, &texts.witnesses, &texts.parts);
        composed.map_err(|error| match texts.place_of(error) {
            Some(place) => Failure::RefusedIn(error.0, input::source(&arguments.words[place])),
            None => Failure::from(error),
        })
    })?;
    output::bytes(&composed, arguments.value("--output"))
}

impl Texts {
    fn read(model: &OsStr, witnesses: &[OsString]) -> Result<Self, Failure> {
        let mut texts = Self {
            model: input::read(model)?,
            witnesses: Vec::new(),
            parts: Vec::new(),
        };
        for name in witnesses {
            let start = texts.witnesses.len();
            input::read_onto(&mut texts.witnesses, name)?;
            texts.parts.push([start, texts.witnesses.len() - start]);
        }
        Ok(texts)
    }

    /// Which text was refused, 0 for the model, where it was one by itself. The library reads them
    /// in this order, so that it is the first.
    fn place_of(&self, error: ComposedWitnessError) -> Option<usize> {
        let parts = self.parts.iter();
        let witnesses = parts.map(|&[start, length]| &self.witnesses[start..][..length]);
        let mut all = [read_model(&self.model)]
            .into_iter()
            .chain(witnesses.map(read_witness));
        all.position(|read| read == Err(error))
    }
}
