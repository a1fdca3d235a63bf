//! `nitrasovy read`: what a text has in it.

use crate::arguments::Arguments;
use crate::failure::Failure;
use crate::{input, output, progress};
use nitrasovy::aiger_obligation::{AigerTransition, parse_ascii_aiger_transition};
use nitrasovy::composed_witness::{WitnessCounts, read_model, read_witness};
use std::io::{self, Write};

pub fn run(arguments: &Arguments) -> Result<(), Failure> {
    let [name] = arguments.only(["FILE"])?;
    let (witness, model) = (arguments.has("--witness"), arguments.has("--model"));
    if witness && model {
        return Err(arguments.usage("choose one of --witness and --model".into()));
    }
    let plain = arguments.has("--plain");
    let text = input::read(name)?;
    let source = input::source(name);
    if witness || model {
        let (read, kind): (fn(&[u8]) -> _, _) = match witness {
            true => (read_witness, "witness"),
            false => (read_model, "model of a composition"),
        };
        let counts = progress::shown("reading", || read(&text))?;
        let title = format!("{source} is a {kind}.\n\n");
        output::write(|out| write_counts(out, &listed(&counts), &title, plain))
    } else {
        let model = progress::shown("reading", || parse_ascii_aiger_transition(&text))?;
        let title = format!("{source} is a transition model (a lock).\n\n");
        output::write(|out| {
            write_counts(out, &listed_transition(&model), &title, plain)?;
            if plain {
                Ok(())
            } else {
                write_model(out, &model)
            }
        })
    }
}

fn listed(counts: &WitnessCounts) -> Vec<(&'static str, usize)> {
    vec![
        ("variables", counts.max_variable),
        ("inputs", counts.inputs),
        ("latches", counts.latches),
        ("outputs", counts.outputs),
        ("gates", counts.gates),
        ("bads", counts.bads),
        ("constraints", counts.constraints),
    ]
}

fn listed_transition(model: &AigerTransition) -> Vec<(&'static str, usize)> {
    vec![
        ("variables", model.max_variable),
        ("inputs", model.inputs.len()),
        ("latches", model.latches.len()),
        ("outputs", model.outputs.len()),
        ("gates", model.ands.len()),
    ]
}

fn write_counts(
    out: &mut dyn Write,
    counts: &[(&str, usize)],
    title: &str,
    plain: bool,
) -> io::Result<()> {
    if plain {
        return counts
            .iter()
            .try_for_each(|(name, count)| writeln!(out, "{name} {count}"));
    }
    out.write_all(title.as_bytes())?;
    counts
        .iter()
        .try_for_each(|(name, count)| writeln!(out, "{name:<12}{count:>9}"))
}

fn write_model(out: &mut dyn Write, model: &AigerTransition) -> io::Result<()> {
    let states = model.state_count();
    writeln!(
        out,
        "\nIts states are 0 to {}: bit k of a state is latch k.",
        states - 1
    )?;
    writeln!(
        out,
        "Literals are those of the file: 2 x variable, plus 1 when negated."
    )?;
    writeln!(out, "\n   latch  literal  next literal")?;
    for (at, latch) in model.latches.iter().enumerate() {
        writeln!(out, "{at:>8}{:>9}{:>14}", latch.current, latch.next)?;
    }
    for (name, literals) in [("input", &model.inputs), ("output", &model.outputs)] {
        if !literals.is_empty() {
            writeln!(out, "\n{name:>8}  literal")?;
        }
        for (at, literal) in literals.iter().enumerate() {
            writeln!(out, "{at:>8}{literal:>9}")?;
        }
    }
    Ok(())
}
