//! Wrong steps.

use super::super::{Fault, records, steps};
use super::OURS;
use crate::circuit::Circuit;
use crate::reading::model as reading;
use crate::subject::model::{Model, Stepped};

/// A fault of the step: its answer is another.
macro_rules! restepped {
    (|$model:ident, $gates:ident, $state:ident, $input:ident, $stepped:ident| $answer:expr) => {
        |subject| {
            subject.step = |$model, $gates, work, $state, $input| {
                let $stepped = (OURS.step)($model, $gates, work, $state, $input);
                $answer
            }
        }
    };
}

/// A fault of the step: it steps another circuit.
macro_rules! changing {
    ($change:expr) => {
        |subject| {
            subject.step = |model, gates, work, state, input| {
                changed(model, gates, work, state, input, $change)
            }
        }
    };
}

pub const FAULTS: &[Fault] = &[
    Fault {
        name: "step: gates are computed in rising order",
        group: steps::SMALL.name,
        spoil: changing!(|circuit| { circuit.gates.sort_unstable() }),
    },
    Fault {
        name: "step: inputs are counted from the last",
        group: steps::SMALL.name,
        spoil: changing!(|circuit| { circuit.inputs.reverse() }),
    },
    Fault {
        name: "step: target bits are counted from the last latch",
        group: steps::SMALL.name,
        spoil: changing!(|circuit| {
            let nexts: Vec<u64> = circuit.latches.iter().map(|latch| latch.next).collect();
            for (latch, next) in circuit.latches.iter_mut().zip(nexts.into_iter().rev()) {
                latch.next = next;
            }
        }),
    },
    Fault {
        name: "step: the literal 1 is false",
        group: steps::WIDE.name,
        spoil: changing!(|circuit| {
            for literal in circuit.outputs.iter_mut().filter(|literal| **literal == 1) {
                *literal = 0;
            }
        }),
    },
    Fault {
        name: "step: the halves are exchanged",
        group: steps::WIDE.name,
        spoil: restepped!(|model, gates, state, input, stepped| {
            Stepped {
                high: stepped.low,
                low: stepped.high,
                ..stepped
            }
        }),
    },
    Fault {
        name: "step: output bits are shifted by one",
        group: steps::SMALL.name,
        spoil: restepped!(|model, gates, state, input, stepped| {
            Stepped {
                high: stepped.high << 1 | stepped.low >> 63,
                low: stepped.low << 1,
                ..stepped
            }
        }),
    },
    Fault {
        name: "step: output 64 is lost",
        group: steps::WIDE.name,
        spoil: restepped!(|model, gates, state, input, stepped| {
            Stepped {
                high: stepped.high & !1,
                ..stepped
            }
        }),
    },
    Fault {
        name: "step: values start as the work words are",
        group: steps::SMALL.name,
        spoil: |subject| {
            subject.step = |model, gates, work, state, input| {
                let first = work.get(1).is_some_and(|word| word % 2 == 1);
                let stepped = (OURS.step)(model, gates, work, state, input);
                // The first gate, where it takes a gate that is listed after it.
                match model.circuit(gates) {
                    Some(circuit) if stepped.reason == 0 && first && looks_ahead(&circuit) => {
                        Stepped {
                            target: stepped.target ^ 1,
                            ..stepped
                        }
                    }
                    _ => stepped,
                }
            };
        },
    },
    Fault {
        name: "step: the state 2^L is taken",
        group: steps::SMALL.name,
        spoil: |subject| {
            subject.step = |model, gates, work, state, input| {
                let states = 1_u64.checked_shl(model.latch_count as u32);
                let state = if states == Some(state) { 0 } else { state };
                (OURS.step)(model, gates, work, state, input)
            };
        },
    },
    Fault {
        name: "step: the upper half of a state is not looked at",
        group: steps::WILD.name,
        spoil: |subject| {
            subject.step = |model, gates, work, state, input| {
                (OURS.step)(model, gates, work, state & 0xffff_ffff, input)
            };
        },
    },
    Fault {
        name: "step: an input bit at I is taken",
        group: steps::WILD.name,
        spoil: |subject| {
            subject.step = |model, gates, work, state, input| {
                let bit = 1_u64.checked_shl(model.input_count as u32).unwrap_or(0);
                (OURS.step)(model, gates, work, state, input & !bit)
            };
        },
    },
    Fault {
        name: "step: with 64 inputs the shift by 64 is a shift by 0",
        group: steps::WILD.name,
        spoil: restepped!(|model, gates, state, input, stepped| {
            if stepped.reason == 0 && input.wrapping_shr(model.input_count as u32) != 0 {
                Stepped::refused(12)
            } else {
                stepped
            }
        }),
    },
    Fault {
        name: "step: 12 comes before 11",
        group: records::LENT.name,
        spoil: restepped!(|model, gates, state, input, stepped| {
            if stepped.reason == 11 && state > 255 {
                Stepped::refused(12)
            } else {
                stepped
            }
        }),
    },
    Fault {
        name: "step: 12 comes before 7",
        group: records::LENT.name,
        spoil: restepped!(|model, gates, state, input, stepped| {
            if stepped.reason == 7 && state > 255 {
                Stepped::refused(12)
            } else {
                stepped
            }
        }),
    },
    Fault {
        name: "step: a refusal has a target",
        group: steps::WILD.name,
        spoil: restepped!(|model, gates, state, input, stepped| {
            let target = if stepped.reason == 12 {
                state
            } else {
                stepped.target
            };
            Stepped { target, ..stepped }
        }),
    },
    Fault {
        name: "step: values are left in the work slice",
        group: steps::SMALL.name,
        spoil: |subject| {
            subject.step = |model, gates, work, state, input| {
                let stepped = (OURS.step)(model, gates, work, state, input);
                if stepped.reason == 0 {
                    let last = work.len() - 1;
                    work[last] = stepped.target & 1;
                }
                stepped
            };
        },
    },
    Fault {
        name: "step: only 65,536 gates are computed",
        group: steps::LARGE.name,
        spoil: changing!(|circuit| { circuit.gates.truncate(65_536) }),
    },
];

/// Steps what `change` makes of a model that is accepted.
fn changed(
    model: &Model,
    gates: &[u64],
    work: &mut [u64],
    state: u64,
    input: u64,
    change: fn(&mut Circuit),
) -> Stepped {
    let stepped = (OURS.step)(model, gates, work, state, input);
    if stepped.reason != 0 {
        return stepped;
    }
    let mut circuit = model.circuit(gates).expect("an accepted model");
    change(&mut circuit);
    reading::outcome(&circuit, state, input).unwrap_or(stepped)
}

/// Whether the first gate takes the variable of the second one.
fn looks_ahead(circuit: &Circuit) -> bool {
    match circuit.gates[..] {
        [[_, left, _], [output, ..], ..] => left / 2 == output / 2,
        _ => false,
    }
}
