//! Wrong validations of records.

use super::super::records::filled_up;
use super::super::{Fault, records};
use super::{OURS, latches_of_inputs, lenient_validate, outputs, own_operands};
use crate::reading::model as reading;

pub const FAULTS: &[Fault] = &[
    Fault {
        name: "validate: a gate may be its own operand",
        group: records::SMALL.name,
        spoil: |subject| {
            subject.validate =
                |model, gates, work| lenient_validate(own_operands, model, gates, work);
        },
    },
    Fault {
        name: "validate: an output may be any literal",
        group: records::SMALL.name,
        spoil: |subject| {
            subject.validate = |model, gates, work| lenient_validate(outputs, model, gates, work);
        },
    },
    Fault {
        name: "validate: a latch may be an input's variable",
        group: records::SMALL.name,
        spoil: |subject| {
            subject.validate =
                |model, gates, work| lenient_validate(latches_of_inputs, model, gates, work);
        },
    },
    Fault {
        name: "validate: the literal 2M + 1 is refused",
        group: records::SMALL.name,
        spoil: |subject| {
            subject.validate = |model, gates, work| {
                let reason = (OURS.validate)(model, gates, work);
                let highest = 2 * model.max_variable as u64 + 1;
                if reason == 0 && model.latches[0].next == highest {
                    return 11;
                }
                reason
            };
        },
    },
    Fault {
        name: "validate: M + 1 wraps",
        group: records::COUNTS.name,
        spoil: |subject| {
            subject.validate = |model, gates, work| {
                let reason = (OURS.validate)(model, gates, work);
                if reason == 7 && model.max_variable.wrapping_add(1) <= work.len() {
                    return 11;
                }
                reason
            };
        },
    },
    Fault {
        name: "validate: a model may have no latch",
        group: records::COUNTS.name,
        spoil: |subject| {
            subject.validate = |model, gates, work| {
                let reason = (OURS.validate)(model, gates, work);
                let circuit = model.circuit(gates).filter(|_| model.latch_count == 0);
                match circuit {
                    Some(circuit)
                        if reason == 11
                            && circuit.variables == circuit.inputs.len() + circuit.gates.len()
                            && reading::well_defined(&circuit) =>
                    {
                        0
                    }
                    _ => reason,
                }
            };
        },
    },
    Fault {
        name: "validate: 11 comes before 7",
        group: records::LENT.name,
        spoil: |subject| {
            subject.validate = |model, gates, work| match (OURS.validate)(model, gates, work) {
                7 if model.max_variable < 100 => match (OURS.validate)(model, gates, &mut [0; 100])
                {
                    11 => 11,
                    _ => 7,
                },
                reason => reason,
            };
        },
    },
    Fault {
        name: "validate: a work slice of M words suffices",
        group: records::LENT.name,
        spoil: |subject| {
            subject.validate = |model, gates, work| {
                let mut longer = vec![1; work.len() + 1];
                work.fill(0);
                (OURS.validate)(model, gates, &mut longer)
            };
        },
    },
    Fault {
        name: "validate: a missing gate word is taken for 0",
        group: records::LENT.name,
        spoil: |subject| {
            subject.validate = |model, gates, work| {
                let mut longer = gates.to_vec();
                longer.push(0);
                (OURS.validate)(model, &longer, work)
            };
        },
    },
    Fault {
        name: "validate: more than 3A gate words are refused",
        group: records::LENT.name,
        spoil: |subject| {
            subject.validate = |model, gates, work| {
                let reason = (OURS.validate)(model, gates, work);
                if reason == 0 && gates.len() > 3 * model.and_count {
                    return 11;
                }
                reason
            };
        },
    },
    Fault {
        name: "validate: a slot past the count is read",
        group: records::RANDOM.name,
        spoil: |subject| {
            subject.validate = |model, gates, work| {
                let reason = (OURS.validate)(model, gates, work);
                let slot = model.outputs.get(model.output_count);
                let highest = 2 * model.max_variable as u64 + 1;
                if reason == 0 && slot.is_some_and(|&literal| literal > highest) {
                    return 11;
                }
                reason
            };
        },
    },
    Fault {
        name: "validate: marks are left on 11",
        group: records::RANDOM.name,
        spoil: |subject| {
            subject.validate = |model, gates, work| {
                let reason = (OURS.validate)(model, gates, work);
                if reason == 11 {
                    work[0] = 1;
                }
                reason
            };
        },
    },
    Fault {
        name: "validate: words that are not there are 0",
        group: records::WORDS.name,
        spoil: |subject| {
            subject.validate_words =
                |record, gates, work| (OURS.validate_words)(&filled_up(record), gates, work);
        },
    },
    Fault {
        name: "validate: a record that is cut is 11 before 7",
        group: records::WORDS.name,
        spoil: |subject| {
            subject.validate_words = |record, gates, work| {
                let reason = (OURS.validate_words)(record, gates, work);
                if reason == 7 && record.len() < 67 {
                    return 11;
                }
                reason
            };
        },
    },
    Fault {
        name: "step over records: the last one is not lent",
        group: records::WORDS.name,
        spoil: |subject| {
            subject.step_records = |record, gates, work, state, input| {
                let (lent, _) = gates.split_at(gates.len() - gates.len().min(3));
                (OURS.step_records)(record, lent, work, state, input)
            };
        },
    },
    Fault {
        name: "step: words that are not there are 0",
        group: records::WORDS.name,
        spoil: |subject| {
            subject.step_words = |record, gates, work, state, input| {
                (OURS.step_words)(&filled_up(record), gates, work, state, input)
            };
        },
    },
];
