//! Wrong readers: literals, what is lent, and what is handed back.

use super::super::{Fault, readings, short};
use super::{OURS, accepted, lenient_read, outputs, own_operands, parsed, second_operands};
use super::{latches_of_inputs, nexts, odd_definitions};
use crate::subject::model::Read;

pub const FAULTS: &[Fault] = &[
    Fault {
        name: "a gate may be its own operand",
        group: short::LITERALS.name,
        spoil: |subject| {
            subject.read = |text, gates, work| lenient_read(own_operands, text, gates, work);
        },
    },
    Fault {
        name: "a gate's second operand is not checked",
        group: readings::DAMAGED.name,
        spoil: |subject| {
            subject.read = |text, gates, work| lenient_read(second_operands, text, gates, work);
        },
    },
    Fault {
        name: "a latch may be an odd literal",
        group: short::LITERALS.name,
        spoil: |subject| {
            subject.read = |text, gates, work| lenient_read(odd_definitions, text, gates, work);
        },
    },
    Fault {
        name: "an output may be any literal",
        group: short::LITERALS.name,
        spoil: |subject| {
            subject.read = |text, gates, work| lenient_read(outputs, text, gates, work);
        },
    },
    Fault {
        name: "a next literal may be any literal",
        group: short::LITERALS.name,
        spoil: |subject| {
            subject.read = |text, gates, work| lenient_read(nexts, text, gates, work);
        },
    },
    Fault {
        name: "a latch may be an input's variable",
        group: short::LITERALS.name,
        spoil: |subject| {
            subject.read = |text, gates, work| lenient_read(latches_of_inputs, text, gates, work);
        },
    },
    Fault {
        name: "11 comes before 7",
        group: readings::LENT.name,
        spoil: |subject| {
            subject.read = |text, gates, work| before_seven(11, text, gates, work);
        },
    },
    Fault {
        name: "8 comes before 7",
        group: readings::LENT.name,
        spoil: |subject| {
            subject.read = |text, gates, work| before_seven(8, text, gates, work);
        },
    },
    Fault {
        name: "a work slice of M words suffices",
        group: readings::LENT.name,
        spoil: |subject| {
            subject.read = |text, gates, work| {
                let mut longer = vec![1; work.len() + 1];
                work.fill(0);
                (OURS.read)(text, gates, &mut longer)
            };
        },
    },
    Fault {
        name: "3A - 1 gate words suffice",
        group: readings::LENT.name,
        spoil: |subject| {
            subject.read = |text, gates, work| {
                let mut longer = gates.to_vec();
                longer.push(0);
                let read = (OURS.read)(text, &mut longer, work);
                gates.copy_from_slice(&longer[..gates.len()]);
                read
            };
        },
    },
    Fault {
        name: "gate words are written before the text is accepted",
        group: short::LITERALS.name,
        spoil: |subject| {
            subject.read = |text, gates, work| {
                let read = (OURS.read)(text, gates, work);
                if let Some(circuit) = parsed(text).filter(|_| read.reason == 11) {
                    accepted(&circuit, gates);
                }
                read
            };
        },
    },
    Fault {
        name: "gate words past 3A are made zeros",
        group: readings::RANDOM.name,
        spoil: |subject| {
            subject.read = |text, gates, work| {
                let read = (OURS.read)(text, gates, work);
                if read.reason == 0 {
                    gates[3 * read.model.and_count..].fill(0);
                }
                read
            };
        },
    },
    Fault {
        name: "gates are handed back in rising order",
        group: readings::RANDOM.name,
        spoil: |subject| {
            subject.read = |text, gates, work| {
                let read = (OURS.read)(text, gates, work);
                if read.reason == 0 {
                    let (front, _) = gates.as_chunks_mut::<3>();
                    front[..read.model.and_count].sort_unstable();
                }
                read
            };
        },
    },
    Fault {
        name: "slots past the counts are not zero",
        group: readings::RANDOM.name,
        spoil: |subject| {
            subject.read = |text, gates, work| {
                let mut read = (OURS.read)(text, gates, work);
                if read.reason == 0 && read.model.output_count < 128 {
                    read.model.outputs[127] = 1;
                }
                read
            };
        },
    },
    Fault {
        name: "a refusal hands back the counts",
        group: readings::DAMAGED.name,
        spoil: |subject| {
            subject.read = |text, gates, work| {
                let mut read = (OURS.read)(text, gates, work);
                if let Some(circuit) = parsed(text) {
                    read.model.max_variable = circuit.variables;
                }
                read
            };
        },
    },
    Fault {
        name: "marks are left in the work slice",
        group: readings::RANDOM.name,
        spoil: |subject| {
            subject.read = |text, gates, work| {
                let read = (OURS.read)(text, gates, work);
                if read.reason == 0 {
                    work[1] = 1;
                }
                read
            };
        },
    },
    Fault {
        name: "work words past M + 1 are not cleared",
        group: readings::RANDOM.name,
        spoil: |subject| {
            subject.read = |text, gates, work| {
                let kept = work.to_vec();
                let read = (OURS.read)(text, gates, work);
                let used = read.model.max_variable + 1;
                if read.reason == 0 {
                    work[used..].copy_from_slice(&kept[used..]);
                }
                read
            };
        },
    },
    Fault {
        name: "the work slice is not cleared on 4",
        group: short::HEADERS.name,
        spoil: |subject| {
            subject.read = |text, gates, work| dirty_on(4, text, gates, work);
        },
    },
    Fault {
        name: "the work slice is not cleared on 7",
        group: readings::LENT.name,
        spoil: |subject| {
            subject.read = |text, gates, work| dirty_on(7, text, gates, work);
        },
    },
];

/// Gives this number where it applies beside 7.
fn before_seven(reason: u64, text: &[u8], gates: &mut [u64], work: &mut [u64]) -> Read {
    let read = (OURS.read)(text, gates, work);
    let mut roomy = (vec![0; 3_000_000], vec![0; 1_000_001]);
    if read.reason == 7 && (OURS.read)(text, &mut roomy.0, &mut roomy.1).reason == reason {
        return Read::refused(reason);
    }
    read
}

/// Leaves the work slice as it was where the text is refused with this number.
fn dirty_on(reason: u64, text: &[u8], gates: &mut [u64], work: &mut [u64]) -> Read {
    let kept = work.to_vec();
    let read = (OURS.read)(text, gates, work);
    if read.reason == reason {
        work.copy_from_slice(&kept);
    }
    read
}
