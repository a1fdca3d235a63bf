//! Random witnesses of one model. Each has the model's circuit in it or a part of it, numbered and
//! written in its own way, so that shared latches agree; and inputs, latches and gates of its own.

use crate::compare::model::circuits::{Operands, literal_up_to, operand};
use crate::compare::witness::circuits::{Shape, make};
use crate::compare::witness::pages::{NAMES, Page};
use crate::random::Random;
use crate::sections::{Latch, Sections};

/// What a witness may have.
#[derive(Clone, Copy)]
pub struct Plan {
    /// Whether names map; else positions do.
    pub named: bool,
    /// Whether only a part of the model's inputs and latches is shared.
    pub partial: bool,
    /// The most inputs, latches, gates, and bads, outputs or constraints of its own.
    pub own: usize,
}

/// A model: a circuit of so many of each kind at most.
pub fn model(random: &mut Random, most: usize) -> Sections {
    let shape = Shape {
        inputs: random.below(most + 1),
        latches: random.below(most + 1),
        outputs: random.below(2),
        gates: random.below(2 * most + 1),
        bads: random.below(2),
        constraints: random.below(2),
    };
    let resets = random.once_in(2);
    let operands = random.choose(&[Operands::Any, Operands::Any, Operands::Plain]);
    make(random, &shape, operands, resets)
}

pub fn any_plan(random: &mut Random) -> Plan {
    Plan {
        named: random.once_in(2),
        partial: random.once_in(3),
        own: random.choose(&[0, 1, 2, 4]),
    }
}

/// A witness being made.
struct Making<'a> {
    random: &'a mut Random,
    model: &'a Sections,
    plan: Plan,
    made: Sections,
    /// Which variables of the model the witness has.
    kept: Vec<bool>,
    /// The witness's literal of each variable of the model; none where it does not have it.
    own: Vec<Option<u64>>,
    symbols: Vec<String>,
}

/// A witness's text.
pub fn witness(random: &mut Random, model: &Sections, plan: Plan) -> Page {
    let mut own = vec![None; model.variables as usize + 1];
    own[0] = Some(0);
    let kept = kept(random, model, plan);
    let mut making = Making {
        kept,
        random,
        model,
        plan,
        made: Sections::default(),
        own,
        symbols: Vec::new(),
    };
    let inputs = making.leaves('i', 1, model.inputs.len());
    let latches = making.leaves('l', 1 + model.inputs.len() as u64, model.latches.len());
    making.made.inputs = inputs.iter().map(|leaf| leaf.0).collect();
    making.gates();
    making.latches(&latches);
    making.lists();
    making.finish()
}

/// Which variables of the model a witness has: all, or a part in which each gate has its operands and
/// each latch what defines it. By position, inputs and latches are left out from behind.
fn kept(random: &mut Random, model: &Sections, plan: Plan) -> Vec<bool> {
    let [inputs, latches] = [model.inputs.len(), model.latches.len()];
    let mut kept = vec![true; model.variables as usize + 1];
    for leaf in kept[1..=inputs + latches].iter_mut() {
        *leaf = !plan.partial || !random.once_in(4);
    }
    loop {
        let before = kept.clone();
        let has = |kept: &[bool], literal: u64| kept[(literal / 2) as usize];
        for &[output, left, right] in &model.gates {
            kept[(output / 2) as usize] &= has(&kept, left) && has(&kept, right);
        }
        for latch in &model.latches {
            kept[(latch.current / 2) as usize] &= has(&kept, latch.next) && has(&kept, latch.reset);
        }
        if !plan.named {
            for kind in [1..inputs + 1, inputs + 1..inputs + latches + 1] {
                let mut all = true;
                for variable in kind {
                    all &= kept[variable];
                    kept[variable] = all;
                }
            }
        }
        if kept == before {
            return kept;
        }
    }
}

impl Making<'_> {
    fn next(&mut self) -> u64 {
        self.made.variables += 1;
        2 * self.made.variables
    }

    /// Inputs or latches: own literal, and the model's variable with which it is shared. By
    /// position, those of the model come first; by name, they come in any order, at times twice.
    fn leaves(&mut self, kind: char, first: u64, count: usize) -> Vec<(u64, Option<u64>)> {
        let models = (first..).take(count);
        let kept = models.filter(|&variable| self.kept[variable as usize]);
        let mut shared: Vec<Option<u64>> = kept.map(Some).collect();
        if self.plan.named {
            for place in 0..shared.len() {
                if self.random.once_in(8) {
                    shared.push(shared[place]);
                }
            }
        }
        // By position, what stands behind a part of the model's would be shared as well.
        if self.plan.named || shared.len() == count {
            shared.resize(shared.len() + self.random.below(self.plan.own + 1), None);
        }
        if self.plan.named {
            for place in (1..shared.len()).rev() {
                shared.swap(place, self.random.below(place + 1));
            }
        }
        let mut leaves = Vec::new();
        for (index, shared) in shared.into_iter().enumerate() {
            let literal = self.next();
            if let Some(variable) = shared {
                self.own[variable as usize] = Some(literal);
            }
            self.name(kind, index, shared);
            leaves.push((literal, shared));
        }
        leaves
    }

    /// A name that maps, or one that does not, or none.
    fn name(&mut self, kind: char, index: usize, shared: Option<u64>) {
        let name = match shared {
            Some(variable) if self.plan.named => {
                let sign = self.random.choose(&["", "", "", "+", "+00"]);
                format!("= {sign}{}", 2 * variable)
            }
            _ if self.random.once_in(2) => return,
            _ => match self.random.choose(&NAMES) {
                name if name.starts_with("= ") => return,
                name => name.to_string(),
            },
        };
        self.symbols.push(format!("{kind}{index} {name}"));
    }

    /// The model's gates with their operands in either order, and own ones between them.
    fn gates(&mut self) {
        for &[output, left, right] in &self.model.gates {
            self.own_gates();
            if !self.kept[(output / 2) as usize] {
                continue;
            }
            let [left, right] = [left, right].map(|literal| self.translated(literal));
            let own = self.next();
            self.own[(output / 2) as usize] = Some(own);
            self.made.gates.push(match self.random.once_in(2) {
                true => [own, left, right],
                false => [own, right, left],
            });
        }
        self.own_gates();
    }

    fn own_gates(&mut self) {
        while self.plan.own > 0 && self.random.once_in(3) {
            let own = self.next();
            let gates = &self.made.gates;
            // Some are the same as an earlier one, with the operands the other way round.
            let gate = if !gates.is_empty() && self.random.once_in(3) {
                let [_, left, right] = gates[self.random.below(gates.len())];
                [own, right, left]
            } else {
                let [left, right] = [(); 2].map(|()| operand(self.random, own / 2, Operands::Any));
                [own, left, right]
            };
            self.made.gates.push(gate);
        }
    }

    /// Own literal of a literal of the model.
    fn translated(&self, literal: u64) -> u64 {
        let own = self.own[(literal / 2) as usize];
        own.expect("a part has what its gates and latches need") + literal % 2
    }

    /// Shared latches are defined as the model's, others in any way.
    fn latches(&mut self, leaves: &[(u64, Option<u64>)]) {
        let inputs = self.model.inputs.len() as u64;
        for &(current, shared) in leaves {
            let models =
                shared.map(|variable| self.model.latches[(variable - inputs - 1) as usize]);
            let [next, reset] = match models {
                Some(latch) => [latch.next, latch.reset].map(|literal| self.translated(literal)),
                None => [self.any(), self.any()],
            };
            self.made.latches.push(Latch {
                current,
                next,
                reset,
            });
        }
    }

    fn any(&mut self) -> u64 {
        literal_up_to(self.random, 2 * self.made.variables + 1)
    }

    /// Bads, outputs where there is none and at times besides, and constraints.
    fn lists(&mut self) {
        let most = self.plan.own + 2;
        let [outputs, bads, constraints] = [(); 3].map(|()| self.random.below(most));
        let outputs = if bads == 0 { outputs.max(1) } else { outputs };
        self.made.outputs = (0..outputs).map(|_| self.any()).collect();
        self.made.bads = (0..bads).map(|_| self.any()).collect();
        self.made.constraints = (0..constraints).map(|_| self.any()).collect();
    }

    fn finish(mut self) -> Page {
        let mut page = Page::of(&self.made);
        page.shorten_header(self.random);
        for place in (1..self.symbols.len()).rev() {
            self.symbols.swap(place, self.random.below(place + 1));
        }
        page.tail = self.symbols;
        if self.random.once_in(6) {
            page.tail.extend(["c".to_string(), "= 2".to_string()]);
        }
        page
    }
}
