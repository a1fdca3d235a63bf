//! Satisfiability of clauses over variables below a number.

use std::io::Write;
use std::process::{Command, Stdio};
use std::sync::OnceLock;

/// By trying values in the order of the variables. A gate's variable is larger than its operands', so
/// that only inputs and latches are tried both ways.
pub fn satisfiable(clauses: &[&[u32]], variables: usize) -> bool {
    go_on(clauses, vec![None; variables])
}

fn go_on(clauses: &[&[u32]], mut values: Vec<Option<bool>>) -> bool {
    if !follow(clauses, &mut values) {
        return false;
    }
    match values.iter().position(Option::is_none) {
        None => true,
        Some(variable) => [false, true].iter().any(|&value| {
            let mut values = values.clone();
            values[variable] = Some(value);
            go_on(clauses, values)
        }),
    }
}

/// Gives literals that are alone in their clause their value until there is none. False where a
/// clause has no literal left.
fn follow(clauses: &[&[u32]], values: &mut [Option<bool>]) -> bool {
    let mut again = true;
    while again {
        again = false;
        for clause in clauses {
            let value =
                |&word: &u32| values[(word / 2) as usize].map(|value| value == (word % 2 == 1));
            if clause.iter().any(|word| value(word) == Some(true)) {
                continue;
            }
            let mut open = clause.iter().filter(|word| value(word).is_none());
            match (open.next(), open.next()) {
                (None, _) => return false,
                (Some(word), None) => {
                    values[(word / 2) as usize] = Some(word % 2 == 1);
                    again = true;
                }
                _ => {}
            }
        }
    }
    true
}

/// What a solver of the machine says, where there is one: the status is 10 for satisfiable clauses
/// and 20 for others.
pub fn asked(clauses: &[&[u32]], variables: usize) -> Option<bool> {
    static SOLVER: OnceLock<Option<&str>> = OnceLock::new();
    let names = ["cadical", "minisat"];
    let solver = (*SOLVER.get_or_init(|| names.into_iter().find(|name| is_there(name))))?;
    let mut text = format!("p cnf {variables} {}\n", clauses.len());
    for clause in clauses {
        for word in *clause {
            let sign = if word % 2 == 1 { "" } else { "-" };
            text.push_str(&format!("{sign}{} ", word / 2 + 1));
        }
        text.push_str("0\n");
    }
    match status(solver, &text) {
        Some(10) => Some(true),
        Some(20) => Some(false),
        other => panic!("{solver} ended with status {other:?}"),
    }
}

fn is_there(name: &str) -> bool {
    let paths = std::env::var_os("PATH").unwrap_or_default();
    std::env::split_paths(&paths).any(|folder| folder.join(name).is_file())
}

fn status(solver: &str, text: &str) -> Option<i32> {
    let mut child = Command::new(solver)
        .stdin(Stdio::piped())
        .stdout(Stdio::null())
        .stderr(Stdio::null())
        .spawn()
        .ok()?;
    let mut input = child.stdin.take()?;
    input.write_all(text.as_bytes()).ok()?;
    drop(input);
    child.wait().ok()?.code()
}
