//! Answers to standard output or a file.

use crate::failure::Failure;
use crate::input::shown;
use std::ffi::OsStr;
use std::fs::File;
use std::io::{self, BufWriter, ErrorKind, Write};

/// Writes to standard output through a buffer, and whether all of it went.
pub fn write(writing: impl FnOnce(&mut dyn Write) -> io::Result<()>) -> Result<(), Failure> {
    let mut out = BufWriter::with_capacity(1 << 16, io::stdout().lock());
    let written = writing(&mut out).and_then(|()| out.flush());
    // What is still in the buffer after an error is not tried again.
    let (_, _) = out.into_parts();
    written.map_err(|error| failure("standard output", &error))
}

pub fn text(text: &str) -> Result<(), Failure> {
    bytes(text.as_bytes(), None)
}

/// Writes bytes to the file, or to standard output where none is named or it is `-`.
pub fn bytes(bytes: &[u8], file: Option<&OsStr>) -> Result<(), Failure> {
    match file.filter(|name| *name != "-") {
        None => write(|out| out.write_all(bytes)),
        Some(name) => File::create(name)
            .and_then(|mut file| file.write_all(bytes))
            .map_err(|error| failure(&shown(name), &error)),
    }
}

fn failure(place: &str, error: &io::Error) -> Failure {
    match error.kind() {
        ErrorKind::BrokenPipe => Failure::OutputClosed,
        _ => Failure::Trouble(format!(
            "cannot write to {place}: {error}; what is there is not the whole answer"
        )),
    }
}
