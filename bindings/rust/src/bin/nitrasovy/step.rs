//! `nitrasovy step`: one step of a lock.

use crate::arguments::Arguments;
use crate::failure::Failure;
use crate::{input, model, numbers, output, progress};
use nitrasovy::aiger_obligation::{AigerTransition, parse_ascii_aiger_transition};
use std::io::{self, Write};

struct Step {
    state: usize,
    input: u64,
    target: usize,
    outputs: u128,
}

pub fn run(arguments: &Arguments) -> Result<(), Failure> {
    let [name, state, word] = arguments.only(["FILE", "STATE", "INPUT"])?;
    let usage = |what| arguments.usage(what);
    let state = numbers::text(state).and_then(|text| numbers::number("STATE", text));
    let state = state.map_err(usage)?;
    let word = numbers::text(word).and_then(|text| numbers::bits("INPUT", text));
    let word = u64::try_from(word.map_err(usage)?);
    let word =
        word.map_err(|_| usage("INPUT is too large a number: it has at most 64 bits".into()))?;
    let text = input::read(name)?;
    let (model, target, outputs) = progress::shown("stepping", || {
        let model = parse_ascii_aiger_transition(&text)?;
        let (target, outputs) = model.evaluate(state, word)?;
        Ok::<_, Failure>((model, target, outputs))
    })?;
    let step = Step {
        state,
        input: word,
        target,
        outputs,
    };
    if arguments.has("--plain") {
        return output::write(|out| writeln!(out, "{target} {outputs}"));
    }
    output::write(|out| write_step(out, &input::source(name), &model, &step))
}

fn write_step(
    out: &mut dyn Write,
    source: &str,
    model: &AigerTransition,
    step: &Step,
) -> io::Result<()> {
    let (input, outputs) = (step.input, step.outputs);
    writeln!(out, "{source}: one step from {}", model::state(step.state))?;
    writeln!(out, "under the input word {input} ({input:#x})")?;
    writeln!(out, "leads to {}", model::state(step.target))?;
    writeln!(out, "with the outputs {outputs} ({outputs:#x}).")?;
    writeln!(out, "\n   latch   before    after")?;
    for at in 0..model.latches.len() {
        let [before, after] = [step.state, step.target].map(|state| state >> at & 1);
        writeln!(out, "{at:>8}{before:>9}{after:>9}")?;
    }
    write_bits(out, "input", model.inputs.len(), u128::from(input))?;
    write_bits(out, "output", model.outputs.len(), outputs)
}

fn write_bits(out: &mut dyn Write, name: &str, count: usize, bits: u128) -> io::Result<()> {
    if count > 0 {
        writeln!(out, "\n{name:>8}    value")?;
    }
    (0..count).try_for_each(|at| writeln!(out, "{at:>8}{:>9}", bits >> at & 1))
}
