//! Several faults in one call, so that the order of the numbers shows. 15 and 20 are tried with
//! every case; 17 needs large texts and is tried beside the limits.

use super::cases::Case;
use super::check::check;
use super::{Group, Run};

pub const TEXTS: Group = Group {
    name: "compose: several faults, texts and pairs",
    run: faulty_texts,
};

pub const LATER: Group = Group {
    name: "compose: several faults, after the texts",
    run: later,
};

/// Faults of one text or witness, by the numbers of their reasons. The last three are no faults of
/// a text by itself: a mapping, another next literal, no safety.
#[derive(Clone, Copy, Default)]
struct Faults(u32);

const OF_TEXTS: [u32; 8] = [3, 4, 5, 6, 8, 9, 10, 11];
const OF_WITNESSES: [u32; 3] = [16, 18, 19];

impl Faults {
    fn has(self, reason: u32) -> bool {
        self.0 >> reason & 1 == 1
    }

    fn one(reason: u32) -> Self {
        Self(1 << reason)
    }

    fn and(self, other: Self) -> Self {
        Self(self.0 | other.0)
    }

    /// Each set of some of these reasons, the empty one first.
    fn sets(reasons: &[u32]) -> Vec<Self> {
        let mut sets = vec![Self::default()];
        for &reason in reasons {
            let more: Vec<Self> = sets.iter().map(|set| set.and(Self::one(reason))).collect();
            sets.extend(more);
        }
        sets
    }

    /// One input, one latch, an output, a gate, and a name for the input.
    fn text(self) -> String {
        let pick = |reason, fault: &'static str, good: &'static str| match self.has(reason) {
            true => fault,
            false => good,
        };
        let word = pick(4, "aig", "aag");
        let variables = pick(5, "4", "3");
        let outputs = pick(19, "0", "1");
        let liveness = pick(6, " 0 0 1", "");
        let input = pick(11, "3", "2");
        let next = pick(18, "5", "6");
        let output = pick(19, "", "6\n");
        let gate = pick(8, "6 2", "6 2 4");
        let name = pick(16, "= 3", "= 2");
        let symbol = pick(9, "x\n", "");
        let comment = pick(10, "c\nMAPPING\n", "");
        let end = pick(3, "\r\n", "");
        let header = format!("{word} {variables} 1 1 {outputs} 1{liveness}\n");
        let body = format!("{input}\n4 {next}\n{output}{gate}\ni0 {name}\nl0 = 4\n");
        format!("{header}{body}{symbol}{comment}{end}")
    }
}

/// A call of these texts, with the pairs in order; overlapping (2); and too few or too many (1), one
/// of which is past the buffer or overlaps.
fn cases(run: &mut Run, model: Faults, witnesses: &[Faults]) {
    let texts: Vec<String> = witnesses.iter().map(|faults| faults.text()).collect();
    let case = Case::of(model.text(), &texts);
    let mut overlap = case.clone();
    overlap.pairs[2] -= 1;
    let mut few = case.clone();
    few.pairs = vec![u64::MAX, 1, 0];
    let mut many = overlap.clone();
    many.pairs.extend([0; 130]);
    for case in [case, overlap, few, many] {
        check(run, &case);
    }
}

fn faulty_texts(run: &mut Run) {
    let none = Faults::default();
    // All faults of one text at once, in each of the three.
    for faults in Faults::sets(&OF_TEXTS) {
        let late = Faults::one(16).and(Faults::one(18));
        cases(run, faults, &[none, none]);
        cases(run, none, &[faults, none]);
        cases(run, none, &[none, faults.and(late)]);
    }
    // One fault of each text; later faults besides.
    let mut single = vec![none];
    single.extend(OF_TEXTS.map(Faults::one));
    for &model in &single {
        for &first in &single {
            for &second in &single {
                cases(run, model, &[first, second]);
                for late in OF_WITNESSES {
                    let first = first.and(Faults::one(late));
                    cases(run, model, &[first, second]);
                }
            }
        }
    }
}

fn later(run: &mut Run) {
    let sets = Faults::sets(&OF_WITNESSES);
    let none = Faults::default();
    for &first in &sets {
        for &second in &sets {
            cases(run, none, &[first, second]);
            for &third in &sets {
                cases(run, none, &[first, second, third]);
            }
            cases(run, none, &[first, second, Faults::one(11)]);
            cases(run, none, &[first, Faults::one(9), second]);
        }
    }
    // A model may have comments that map, and needs no safety.
    let mapping = Faults::one(10).and(Faults::one(19));
    cases(run, mapping, &[none, none]);
}
