//! Wrong readers: which texts are taken, and with which number they are refused.

use super::super::{Fault, limits, readings, short};
use super::OURS;
use crate::reading::LONGEST_TEXT;
use crate::reading::model as reading;
use crate::subject::model::Read;

pub const FAULTS: &[Fault] = &[
    Fault {
        name: "a sixth field of the header is not seen",
        group: short::HEADERS.name,
        spoil: |subject| {
            subject.read = |text, gates, work| {
                retried(4, text, gates, work, |text| {
                    let header = text.lines().next()?;
                    let short = header.rsplit_once(' ')?.0;
                    (header.split(' ').count() == 7).then(|| text.replacen(header, short, 1))
                })
            };
        },
    },
    Fault {
        name: "a header word that begins with aag is taken",
        group: short::HEADERS.name,
        spoil: |subject| {
            subject.read = |text, gates, work| {
                retried(4, text, gates, work, |text| {
                    text.starts_with("aagg")
                        .then(|| text.replacen("aagg", "aag", 1))
                })
            };
        },
    },
    Fault {
        name: "an empty text is refused with 3",
        group: short::HEADER_BYTES.name,
        spoil: |subject| {
            subject.read =
                |text, gates, work| refused_if(3, text, gates, work, |_| text.is_empty());
        },
    },
    Fault {
        name: "a last line without byte 10 is lost",
        group: short::BODIES.name,
        spoil: |subject| {
            subject.read = |text, gates, work| {
                let end = text.iter().rposition(|&byte| byte == 10);
                (OURS.read)(&text[..end.map_or(0, |place| place + 1)], gates, work)
            };
        },
    },
    Fault {
        name: "the lines after the gates are read",
        group: short::EACH_BYTE.name,
        spoil: |subject| {
            subject.read = |text, gates, work| {
                refused_if(8, text, gates, work, |read| {
                    let model = &read.model;
                    let leaves = model.input_count + model.latch_count;
                    let lines = 1 + leaves + model.output_count + model.and_count;
                    read.reason == 0 && reading::lines(text).count() > lines
                })
            };
        },
    },
    Fault {
        name: "bytes above 127 are taken where nothing is read",
        group: short::EACH_BYTE.name,
        spoil: |subject| {
            subject.read = |text, gates, work| {
                let low: Vec<u8> = text.iter().map(|byte| byte & 127).collect();
                (OURS.read)(&low, gates, work)
            };
        },
    },
    Fault {
        name: "byte 13 separates nothing",
        group: readings::INITIALIZERS.name,
        spoil: |subject| {
            subject.read = |text, gates, work| {
                let other = |&byte: &u8| if byte == 13 { b'x' } else { byte };
                let text: Vec<u8> = text.iter().map(other).collect();
                (OURS.read)(&text, gates, work)
            };
        },
    },
    Fault {
        name: "the initializer 01 is taken",
        group: readings::INITIALIZERS.name,
        spoil: |subject| {
            subject.read = |text, gates, work| {
                retried(8, text, gates, work, |text| {
                    let text = text.trim_end();
                    text.ends_with(" 01").then(|| text.replace(" 01", " 1"))
                })
            };
        },
    },
    Fault {
        name: "an initializer that reads as the literal 0 is bad",
        group: readings::INITIALIZERS.name,
        spoil: |subject| {
            subject.read = |text, gates, work| {
                refused_if(8, text, gates, work, |read| {
                    read.reason == 11 && text.trim_ascii_end().ends_with(b" 00")
                })
            };
        },
    },
    Fault {
        name: "blank lines are skipped",
        group: readings::DAMAGED.name,
        spoil: |subject| {
            subject.read = |text, gates, work| {
                retried(8, text, gates, work, |text| {
                    let kept: Vec<&str> = text.lines().filter(|line| !line.is_empty()).collect();
                    Some(kept.join("\n"))
                })
            };
        },
    },
    Fault {
        name: "64 inputs are refused",
        group: limits::COUNTS.name,
        spoil: |subject| {
            subject.read = |text, gates, work| {
                refused_if(5, text, gates, work, |read| read.model.input_count == 64)
            };
        },
    },
    Fault {
        name: "129 outputs are within the limits",
        group: limits::COUNTS.name,
        spoil: |subject| {
            subject.read = |text, gates, work| {
                refused_if(8, text, gates, work, |read| {
                    let mended = changed_counts(text, |counts| {
                        counts.outputs = counts.outputs.wrapping_sub(1)
                    });
                    read.reason == 5 && mended
                })
            };
        },
    },
    Fault {
        name: "M may be 1,000,001",
        group: limits::COUNTS.name,
        spoil: |subject| {
            subject.read = |text, gates, work| {
                refused_if(7, text, gates, work, |read| {
                    let mended = changed_counts(text, |counts| {
                        counts.variables = counts.variables.wrapping_sub(1);
                        counts.gates = counts.gates.wrapping_sub(1);
                    });
                    read.reason == 5 && mended
                })
            };
        },
    },
    Fault {
        name: "the sum of the counts wraps",
        group: limits::COUNTS.name,
        spoil: |subject| {
            subject.read = |text, gates, work| {
                refused_if(7, text, gates, work, |read| {
                    let mended = changed_counts(text, |counts| {
                        let leaves = counts.inputs.wrapping_add(counts.latches);
                        if leaves.wrapping_add(counts.gates) == counts.variables {
                            counts.variables = leaves;
                            counts.gates = 0;
                        }
                    });
                    read.reason == 5 && mended
                })
            };
        },
    },
    Fault {
        name: "literals of seven digits are refused",
        group: limits::LARGE.name,
        spoil: |subject| {
            subject.read = |text, gates, work| {
                refused_if(8, text, gates, work, |read| {
                    read.reason == 0 && read.model.inputs.iter().any(|&input| input > 999_999)
                })
            };
        },
    },
    Fault {
        name: "16,777,217 bytes are taken",
        group: limits::LONG.name,
        spoil: |subject| {
            subject.read = |text, gates, work| match text.len() {
                length if length == LONGEST_TEXT + 1 => {
                    (OURS.read)(&text[..LONGEST_TEXT], gates, work)
                }
                _ => (OURS.read)(text, gates, work),
            };
        },
    },
    Fault {
        name: "a literal of 2^64 or more wraps",
        group: short::LITERALS.name,
        spoil: |subject| {
            subject.read = |text, gates, work| {
                retried(8, text, gates, work, |text| {
                    let wraps = text.contains("18446744073709551618");
                    wraps.then(|| text.replace("18446744073709551618", "2"))
                })
            };
        },
    },
    Fault {
        name: "a bad literal is told before a later bad line",
        group: readings::DAMAGED.name,
        spoil: |subject| {
            subject.read = |text, gates, work| {
                refused_if(11, text, gates, work, |read| {
                    let line = reading::lines(text).nth(1);
                    let odd = |line: &[u8]| matches!(line, [b'1' | b'3' | b'5' | b'7' | b'9']);
                    read.reason == 8 && line.is_some_and(odd)
                })
            };
        },
    },
];

/// Refuses a text with this number where `wrong` holds of the right answer.
fn refused_if(
    reason: u64,
    text: &[u8],
    gates: &mut [u64],
    work: &mut [u64],
    wrong: impl Fn(&Read) -> bool,
) -> Read {
    let kept = gates.to_vec();
    let read = (OURS.read)(text, gates, work);
    if wrong(&read) {
        gates.copy_from_slice(&kept);
        return Read::refused(reason);
    }
    read
}

/// Whether the header's counts are within the limits once they are changed.
fn changed_counts(text: &[u8], change: fn(&mut reading::Counts)) -> bool {
    reading::counts(text).is_some_and(|mut counts| {
        change(&mut counts);
        reading::within_limits(&counts)
    })
}

/// Reads again, where the text is refused with this number, what `change` makes of it.
fn retried(
    reason: u64,
    text: &[u8],
    gates: &mut [u64],
    work: &mut [u64],
    change: fn(&str) -> Option<String>,
) -> Read {
    let read = (OURS.read)(text, gates, work);
    let changed = std::str::from_utf8(text).ok().and_then(change);
    match changed {
        Some(changed) if read.reason == reason => (OURS.read)(changed.as_bytes(), gates, work),
        _ => read,
    }
}
