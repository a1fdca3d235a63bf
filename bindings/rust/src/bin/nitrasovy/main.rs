//! The release desk's command: reads locks and witnesses, steps them, makes the clauses of claims,
//! composes witnesses. `nitrasovy --help` says how.

#![forbid(unsafe_code)]

mod arguments;
mod clauses;
mod compose;
mod failure;
mod help;
mod input;
mod model;
mod numbers;
mod obligation;
mod output;
mod progress;
mod read;
mod step;

use arguments::{Arguments, Kind};
use failure::Failure;
use std::ffi::OsString;
use std::process::ExitCode;

/// A subcommand: its name, its help, the options that it takes, and what it does.
struct Subcommand {
    name: &'static str,
    help: &'static str,
    options: &'static [(&'static str, Kind)],
    run: fn(&Arguments) -> Result<(), Failure>,
}

const SUBCOMMANDS: [Subcommand; 5] = [
    Subcommand {
        name: "read",
        help: help::READ,
        options: &[
            ("--plain", Kind::Flag),
            ("--model", Kind::Flag),
            ("--witness", Kind::Flag),
        ],
        run: read::run,
    },
    Subcommand {
        name: "step",
        help: help::STEP,
        options: &[("--plain", Kind::Flag)],
        run: step::run,
    },
    Subcommand {
        name: "row",
        help: help::ROW,
        options: &[
            ("--plain", Kind::Flag),
            ("--when", Kind::Values),
            ("--inputs", Kind::Value),
            ("--outputs", Kind::Value),
        ],
        run: obligation::row,
    },
    Subcommand {
        name: "terminal",
        help: help::TERMINAL,
        options: &[
            ("--plain", Kind::Flag),
            ("--when", Kind::Values),
            ("--inputs", Kind::Value),
        ],
        run: obligation::terminal,
    },
    Subcommand {
        name: "compose",
        help: help::COMPOSE,
        options: &[("--output", Kind::Value)],
        run: compose::run,
    },
];

fn main() -> ExitCode {
    match run(std::env::args_os().skip(1).collect()) {
        Ok(()) => ExitCode::SUCCESS,
        Err(failure) => failure.report(),
    }
}

fn run(mut words: Vec<OsString>) -> Result<(), Failure> {
    if words.is_empty() {
        return Err(Failure::usage("", "a subcommand is missing".into()));
    }
    let first = words.remove(0);
    let told = match first.to_str() {
        Some("--help" | "-h" | "help") => Some(help::WHOLE),
        Some("--version" | "-V") => Some(concat!("nitrasovy ", env!("CARGO_PKG_VERSION"), "\n")),
        _ => None,
    };
    if let Some(text) = told {
        return match words.first() {
            None => output::text(text),
            Some(word) => {
                let what = format!("'{}' is one word too many", input::shown(word));
                Err(Failure::usage("", what))
            }
        };
    }
    let Some(subcommand) = SUBCOMMANDS
        .iter()
        .find(|subcommand| first == *subcommand.name)
    else {
        let what = format!("'{}' is not a subcommand", input::shown(&first));
        return Err(Failure::usage("", what));
    };
    let name = subcommand.name;
    let arguments = Arguments::of(name, subcommand.options, words)?;
    if arguments.help {
        return output::text(subcommand.help);
    }
    (subcommand.run)(&arguments)
}
