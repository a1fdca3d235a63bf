//! Gates whose operands stand close together in the library's table of gates, so that it has to look
//! at many entries for each.

use super::cases::Case;
use std::fmt::Write;

/// Inputs of each witness, all shared by position: an own literal is the composed one. The gates'
/// operands are chosen among their literals.
const INPUTS: u64 = 4_000;

/// Where the search of the crate `key_table` for a key begins: it takes the high bits of this, so many
/// as it has heads. To be kept the same as there; else these gates are like any others.
fn scattered(key: u64) -> u64 {
    let [low, high] = halves(key);
    let mixed = low * 1_821_285_621 + high * 1_481_765_933;
    let [low, high] = halves(mixed);
    let folded = (high + low) % (1 << 32);
    folded * 2_654_435_769 / 65_536 % (1 << 32)
}

fn halves(word: u64) -> [u64; 2] {
    [word % (1 << 32), word >> 32]
}

/// So many different pairs of operands, those for which the search begins lowest: all at few of the
/// heads, however many there are.
fn pairs(count: usize) -> Vec<[u64; 2]> {
    let literals = 2..2 * INPUTS + 2;
    let all = 2 * INPUTS * (2 * INPUTS + 1) / 2;
    // Somewhat more than are wanted are below this.
    let limit = (1 << 32) / all * (count as u64 + count as u64 / 4 + 100);
    let mut lowest = Vec::new();
    for right in literals.clone() {
        for left in literals.start..=right {
            let place = scattered(left + (right << 32));
            if place < limit {
                lowest.push((place, left, right));
            }
        }
    }
    lowest.sort_unstable();
    let chosen = lowest[..count].iter();
    chosen.map(|&(_, left, right)| [left, right]).collect()
}

/// Two witnesses of so many gates each, all different.
pub fn colliding(gates: usize) -> Case {
    let pairs = pairs(2 * gates);
    let (first, second) = pairs.split_at(gates);
    Case::of(inputs(0), &[witness(first), witness(second)])
}

/// The header, and the lines of the inputs.
fn inputs(gates: usize) -> String {
    let variables = INPUTS as usize + gates;
    let bads = usize::from(gates > 0);
    let mut text = format!("aag {variables} {INPUTS} 0 0 {gates} {bads}\n");
    for variable in 1..=INPUTS {
        writeln!(text, "{}", 2 * variable).expect("a String takes all");
    }
    text
}

fn witness(pairs: &[[u64; 2]]) -> String {
    let mut text = inputs(pairs.len());
    text += "2\n";
    for (variable, [left, right]) in (INPUTS + 1..).zip(pairs) {
        writeln!(text, "{} {left} {right}", 2 * variable).expect("a String takes all");
    }
    text
}
