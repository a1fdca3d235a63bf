//! Wrong readers: the sections' lines and literals.

use super::super::{Fault, large, limits, random, short};
use super::{OURS, lenient, refused_if, retried};
use crate::sections::Sections;

pub const FAULTS: &[Fault] = &[
    Fault {
        name: "a reset may be any literal",
        group: limits::BOUNDS.name,
        spoil: |subject| subject.read = |text, role| lenient(resets, text, role),
    },
    Fault {
        name: "a reset is 0, 1 or the latch, as in AIGER",
        group: short::LITERALS.name,
        spoil: refusing!(11, |text, role, read| {
            read.reason == 0 && text.starts_with(b"aag 1 0 1") && text[22] > b'2'
        }),
    },
    Fault {
        name: "a reset is at most 2M",
        group: limits::BOUNDS.name,
        spoil: |subject| {
            subject.read = |text, role| {
                let highest = |latch: &crate::sections::Latch, variables: u64| {
                    latch.reset == 2 * variables + 1
                };
                refused_if(11, text, role, |read| {
                    let sections = crate::reading::witness::sections(text, role);
                    let latches = sections.map_or(Vec::new(), |sections| sections.latches);
                    latches
                        .iter()
                        .any(|latch| highest(latch, read.max_variable))
                })
            };
        },
    },
    Fault {
        name: "a next literal may be any literal",
        group: limits::BOUNDS.name,
        spoil: |subject| subject.read = |text, role| lenient(nexts, text, role),
    },
    Fault {
        name: "outputs are not checked",
        group: short::LITERALS.name,
        spoil: |subject| {
            subject.read = |text, role| lenient(|circuit| circuit.outputs.fill(0), text, role);
        },
    },
    Fault {
        name: "bads are not checked",
        group: short::LITERALS.name,
        spoil: |subject| {
            subject.read = |text, role| lenient(|circuit| circuit.bads.fill(0), text, role);
        },
    },
    Fault {
        name: "constraints are not checked",
        group: random::DAMAGED.name,
        spoil: |subject| {
            subject.read = |text, role| lenient(|circuit| circuit.constraints.fill(0), text, role);
        },
    },
    Fault {
        name: "a gate may be its own operand",
        group: limits::BOUNDS.name,
        spoil: |subject| subject.read = |text, role| lenient(own_operands, text, role),
    },
    Fault {
        name: "a gate's second operand is not checked",
        group: random::DAMAGED.name,
        spoil: |subject| {
            subject.read = |text, role| lenient(second_operands, text, role);
        },
    },
    Fault {
        name: "an input may be an odd literal",
        group: short::LITERALS.name,
        spoil: |subject| subject.read = |text, role| lenient(odd_inputs, text, role),
    },
    Fault {
        name: "latches may be numbered in any order",
        group: random::DAMAGED.name,
        spoil: |subject| {
            subject.read = |text, role| {
                let sorted = |circuit: &mut Sections| {
                    circuit.latches.sort_by_key(|latch| latch.current);
                };
                lenient(sorted, text, role)
            };
        },
    },
    Fault {
        name: "gates may be listed in any order",
        group: short::LITERALS.name,
        spoil: |subject| {
            subject.read = |text, role| lenient(|circuit| circuit.gates.sort(), text, role);
        },
    },
    Fault {
        name: "the last gate's output is not checked",
        group: large::VARIABLES.name,
        spoil: |subject| subject.read = |text, role| lenient(last_output, text, role),
    },
    Fault {
        name: "a fourth field of a latch is not seen",
        group: random::DAMAGED.name,
        spoil: |subject| {
            subject.read = |text, role| {
                retried(8, text, role, |text| {
                    super::with_line(text, |line| {
                        let (start, _) = line.rsplit_once(' ')?;
                        (line.split(' ').count() == 4).then(|| start.to_string())
                    })
                })
            };
        },
    },
    Fault {
        name: "a literal of 2^64 or more wraps",
        group: short::LITERALS.name,
        spoil: |subject| {
            subject.read = |text, role| {
                retried(8, text, role, |text| {
                    let wraps = text.contains("18446744073709551618");
                    wraps.then(|| text.replace("18446744073709551618", "2"))
                })
            };
        },
    },
    Fault {
        name: "02 is taken as a literal",
        group: short::BODIES.name,
        spoil: |subject| {
            subject.read = |text, role| {
                retried(8, text, role, |text| {
                    text.contains("\n02")
                        .then(|| text.replacen("\n02", "\n2", 1))
                })
            };
        },
    },
    Fault {
        name: "a missing last line is refused with 9",
        group: short::BODIES.name,
        spoil: refusing!(9, |text, role, read| {
            let more = [text, b"4 2 2\n"].concat();
            read.reason == 8 && (OURS.read)(&more, role).reason == 0
        }),
    },
];

fn resets(circuit: &mut Sections) {
    for latch in &mut circuit.latches {
        latch.reset = 0;
    }
}

fn nexts(circuit: &mut Sections) {
    for latch in &mut circuit.latches {
        latch.next = 0;
    }
}

fn own_operands(circuit: &mut Sections) {
    for [output, left, right] in &mut circuit.gates {
        for operand in [left, right] {
            if *operand / 2 == *output / 2 {
                *operand = 0;
            }
        }
    }
}

fn second_operands(circuit: &mut Sections) {
    for gate in &mut circuit.gates {
        gate[2] = 0;
    }
}

fn odd_inputs(circuit: &mut Sections) {
    for input in &mut circuit.inputs {
        *input -= *input % 2;
    }
}

fn last_output(circuit: &mut Sections) {
    if let Some(gate) = circuit.gates.last_mut() {
        gate[0] = 2 * circuit.variables;
    }
}
