//! Texts from files or standard input.

use crate::arguments::Arguments;
use crate::failure::Failure;
use std::ffi::{OsStr, OsString};
use std::fs::File;
use std::io::{self, Read};

/// The most bytes of a text, by both readers' limit. One more shows that a text is too long.
const MOST: u64 = nitrasovy::aiger_obligation::MAX_ASCII_AIGER_BYTES as u64;

/// Adds the bytes of a file, or of standard input for `-`, to those that are there.
pub fn read_onto(bytes: &mut Vec<u8>, name: &OsStr) -> Result<(), Failure> {
    let read = if name == "-" {
        io::stdin().lock().take(MOST + 1).read_to_end(bytes)
    } else {
        read_file(bytes, name)
    };
    read.map(drop).map_err(|error| {
        Failure::Trouble(format!(
            "cannot read {}: {error}; name a file that can be read, or - for standard input",
            source(name)
        ))
    })
}

pub fn read(name: &OsStr) -> Result<Vec<u8>, Failure> {
    let mut bytes = Vec::new();
    read_onto(&mut bytes, name)?;
    Ok(bytes)
}

fn read_file(bytes: &mut Vec<u8>, name: &OsStr) -> io::Result<usize> {
    let file = File::open(name)?;
    if file.metadata()?.is_dir() {
        return Err(io::Error::from(io::ErrorKind::IsADirectory));
    }
    file.take(MOST + 1).read_to_end(bytes)
}

/// Standard input can be read once.
pub fn check_names(arguments: &Arguments, names: &[OsString]) -> Result<(), Failure> {
    if names.iter().filter(|name| *name == "-").count() > 1 {
        let what = "standard input (-) can stand for one text only; name files for the others";
        return Err(arguments.usage(what.into()));
    }
    Ok(())
}

/// A file's name for people.
pub fn source(name: &OsStr) -> String {
    if name == "-" {
        "standard input".into()
    } else {
        shown(name)
    }
}

/// A word of the command line for people: what a screen would obey is not sent to it.
pub fn shown(word: &OsStr) -> String {
    let plain = |letter: char| if letter.is_control() { '?' } else { letter };
    word.to_string_lossy().chars().map(plain).collect()
}
