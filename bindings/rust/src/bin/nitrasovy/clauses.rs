//! Clauses for people, and in the row program's plain form.

use crate::model::Names;
use nitrasovy::aiger_obligation::AigerTransition;
use nitrasovy::unsat_proof::CnfClause;
use std::io::{self, Write};

/// The row program's form (R14.5): `rows` and how many clauses there are, then a line for each. A
/// literal is 2 x variable, plus 1 when positive.
pub fn write_plain(out: &mut dyn Write, clauses: &[CnfClause]) -> io::Result<()> {
    writeln!(out, "rows {}", clauses.len())?;
    let mut offset = 0;
    for CnfClause(clause) in clauses {
        write!(out, "{offset} {}", clause.len())?;
        for &(variable, positive) in clause {
            write!(out, " {}", 2 * variable + usize::from(positive))?;
        }
        writeln!(out)?;
        offset += clause.len();
    }
    Ok(())
}

/// A line for each clause: what it says of inputs, latches and gates.
pub fn write_table(
    out: &mut dyn Write,
    model: &AigerTransition,
    clauses: &[CnfClause],
) -> io::Result<()> {
    let literals: usize = clauses.iter().map(|CnfClause(clause)| clause.len()).sum();
    let (count, variables) = (clauses.len(), model.max_variable);
    writeln!(
        out,
        "{count} clauses, {literals} literals, {variables} variables."
    )?;
    writeln!(
        out,
        "Inputs and latches have their number, gates their literal in the file."
    )?;
    writeln!(out, "\n  clause  at least one of these holds")?;
    let names = Names::of(model);
    for (at, CnfClause(clause)) in clauses.iter().enumerate() {
        write!(out, "{at:>8}  ")?;
        if clause.is_empty() {
            write!(out, "(nothing does: this clause cannot be met)")?;
        }
        for (place, &(variable, positive)) in clause.iter().enumerate() {
            let comma = if place > 0 { ", " } else { "" };
            let name = names.of_variable(variable + 1);
            write!(out, "{comma}{name} is {}", u8::from(positive))?;
        }
        writeln!(out)?;
    }
    Ok(())
}
