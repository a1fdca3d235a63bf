//! Random circuits that break no rule.

use crate::circuit::Circuit;
use crate::random::Random;
use crate::subject::model::Latch;

/// How many inputs, latches, outputs and gates a circuit has.
#[derive(Clone, Copy, Debug)]
pub struct Shape {
    pub inputs: usize,
    pub latches: usize,
    pub outputs: usize,
    pub gates: usize,
}

/// In which order variables are numbered, or gates are listed.
#[derive(Clone, Copy, Debug, Eq, PartialEq)]
pub enum Order {
    Rising,
    Falling,
    Any,
}

/// Which operands a gate takes.
#[derive(Clone, Copy, Debug, Eq, PartialEq)]
pub enum Operands {
    /// Any smaller ones.
    Any,
    /// Those just below it, so that a change runs through the whole circuit.
    Near,
    /// Of at most three digits, so that a million gates fit in a text.
    Short,
    /// Often constants, and often one variable twice.
    Plain,
}

/// How a circuit is made.
#[derive(Clone, Copy, Debug)]
pub struct Plan {
    pub shape: Shape,
    pub numbering: Order,
    pub listing: Order,
    pub operands: Operands,
}

pub fn small_shape(random: &mut Random) -> Shape {
    Shape {
        inputs: random.below(5),
        latches: 1 + random.below(3),
        outputs: random.below(5),
        gates: random.below(8),
    }
}

/// Up to the limits, except that there are at most 300 gates.
pub fn wide_shape(random: &mut Random) -> Shape {
    let most_gates = random.choose(&[10, 300]);
    Shape {
        inputs: one_of_or_below(random, &[0, 1, 63, 64], 65),
        latches: one_of_or_below(random, &[1, 7, 8], 8).max(1),
        outputs: one_of_or_below(random, &[0, 1, 63, 64, 65, 127, 128], 129),
        gates: random.below(most_gates + 1),
    }
}

fn one_of_or_below(random: &mut Random, telling: &[usize], limit: usize) -> usize {
    if random.once_in(2) {
        random.choose(telling)
    } else {
        random.below(limit)
    }
}

pub fn any_plan(random: &mut Random, shape: Shape) -> Plan {
    const ORDERS: [Order; 4] = [Order::Rising, Order::Falling, Order::Any, Order::Any];
    const OPERANDS: [Operands; 3] = [Operands::Any, Operands::Near, Operands::Plain];
    Plan {
        shape,
        numbering: random.choose(&ORDERS),
        listing: random.choose(&ORDERS),
        operands: random.choose(&OPERANDS),
    }
}

pub fn make(random: &mut Random, plan: &Plan) -> Circuit {
    let Shape {
        inputs,
        latches,
        outputs,
        gates,
    } = plan.shape;
    let count = inputs + latches + gates;
    let mut variables: Vec<u64> = (1..=count as u64).collect();
    arrange(random, &mut variables, plan.numbering);
    let (leaves, inner) = variables.split_at_mut(inputs + latches);
    arrange(random, inner, plan.listing);
    let highest = 2 * count as u64 + 1;
    Circuit {
        variables: count,
        inputs: leaves[..inputs]
            .iter()
            .map(|variable| 2 * variable)
            .collect(),
        latches: leaves[inputs..]
            .iter()
            .map(|variable| Latch {
                current: 2 * variable,
                next: literal_up_to(random, highest),
            })
            .collect(),
        outputs: (0..outputs)
            .map(|_| literal_up_to(random, highest))
            .collect(),
        gates: inner
            .iter()
            .map(|&variable| {
                let [left, right] = [(); 2].map(|()| operand(random, variable, plan.operands));
                [2 * variable, left, right]
            })
            .collect(),
    }
}

pub fn arrange(random: &mut Random, variables: &mut [u64], order: Order) {
    match order {
        Order::Rising => variables.sort_unstable(),
        Order::Falling => {
            variables.sort_unstable();
            variables.reverse();
        }
        Order::Any => {
            for i in (1..variables.len()).rev() {
                variables.swap(i, random.below(i + 1));
            }
        }
    }
}

pub fn literal_up_to(random: &mut Random, highest: u64) -> u64 {
    random.below(highest as usize + 1) as u64
}

/// An operand of the gate with this variable: a literal below 2 x variable.
pub fn operand(random: &mut Random, variable: u64, operands: Operands) -> u64 {
    let any = literal_up_to(random, 2 * variable - 1);
    match operands {
        Operands::Any => any,
        Operands::Near => 2 * variable - 1 - any % (2 * variable).min(6),
        Operands::Short => any % 1_000,
        Operands::Plain => any % (2 * variable).min(4),
    }
}
