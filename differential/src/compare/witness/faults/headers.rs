//! Wrong readers: the header and its counts.

use super::super::{Fault, limits, loads, random, short};
use super::{OURS, changed_counts, refused_if, retried};
use crate::reading::witness::counts;

pub const FAULTS: &[Fault] = &[
    Fault {
        name: "a tenth count is not seen",
        group: short::HEADERS.name,
        spoil: |subject| {
            subject.read = |text, role| {
                retried(4, text, role, |text| {
                    let header = text.lines().next()?;
                    let (short, last) = header.rsplit_once(' ')?;
                    let ten = header.split(' ').count() == 11 && last == "0";
                    ten.then(|| text.replacen(header, short, 1))
                })
            };
        },
    },
    Fault {
        name: "four counts suffice",
        group: short::HEADERS.name,
        spoil: |subject| {
            subject.read = |text, role| {
                retried(4, text, role, |text| {
                    let header = text.lines().next()?;
                    let four = header.split(' ').count() == 5;
                    four.then(|| text.replacen(header, &format!("{header} 0"), 1))
                })
            };
        },
    },
    Fault {
        name: "a header word that begins with aag is taken",
        group: short::HEADERS.name,
        spoil: |subject| {
            subject.read = |text, role| {
                retried(4, text, role, |text| {
                    text.starts_with("aagg")
                        .then(|| text.replacen("aagg", "aag", 1))
                })
            };
        },
    },
    Fault {
        name: "+02 is refused in a header",
        group: short::HEADERS.name,
        spoil: refusing!(4, |text, role, read| {
            read.reason == 0 && text.windows(3).any(|part| part == b"+02")
        }),
    },
    Fault {
        name: "01 is taken in a header",
        group: short::HEADERS.name,
        spoil: |subject| {
            subject.read =
                |text, role| retried(4, text, role, |text| Some(text.replace(" 01", " 1")));
        },
    },
    Fault {
        name: "only the space separates",
        group: random::WHOLE.name,
        spoil: refusing!(4, |text, role, read| {
            let header = text.split(|&byte| byte == 10).next().unwrap_or_default();
            read.reason == 0 && header.contains(&11)
        }),
    },
    Fault {
        name: "M = 0 is refused",
        group: limits::COUNTS.name,
        spoil: refusing!(5, |text, role, read| {
            read.reason == 0 && read.max_variable == 0
        }),
    },
    Fault {
        name: "M may be 2,000,001",
        group: limits::COUNTS.name,
        spoil: refusing!(8, |text, role, read| {
            let mended = changed_counts(text, |counts| {
                counts.variables = counts.variables.wrapping_sub(1);
                counts.inputs = counts.inputs.wrapping_sub(1);
            });
            read.reason == 5 && mended
        }),
    },
    Fault {
        name: "M must be below 2,000,000",
        group: limits::COUNTS.name,
        spoil: refusing!(5, |text, role, read| {
            let most = counts(text).is_some_and(|counts| counts.variables == 2_000_000);
            read.reason == 8 && most
        }),
    },
    Fault {
        name: "M may be more than the sum",
        group: limits::COUNTS.name,
        spoil: refusing!(8, |text, role, read| {
            let mended = changed_counts(text, |counts| {
                counts.variables = counts.variables.wrapping_sub(1);
            });
            read.reason == 5 && mended
        }),
    },
    Fault {
        name: "the sum of the counts wraps",
        group: limits::COUNTS.name,
        spoil: refusing!(8, |text, role, read| {
            let mended = changed_counts(text, |counts| {
                let leaves = counts.inputs.wrapping_add(counts.latches);
                if leaves.wrapping_add(counts.gates) == counts.variables {
                    (counts.inputs, counts.latches) = (counts.variables, 0);
                    counts.gates = 0;
                }
            });
            read.reason == 5 && mended
        }),
    },
    Fault {
        name: "huge counts are refused with 5",
        group: limits::HUGE.name,
        spoil: refusing!(5, |text, role, read| {
            let huge = counts(text).is_some_and(|counts| counts.bads > 16_777_216);
            read.reason == 8 && huge
        }),
    },
    Fault {
        name: "a count of 2^32 or more loses its upper half",
        group: limits::HUGE.name,
        spoil: |subject| {
            subject.read = |text, role| {
                retried(8, text, role, |text| {
                    let wide = text.contains(" 4294967297");
                    wide.then(|| text.replace(" 4294967297", " 1"))
                })
            };
        },
    },
    Fault {
        name: "fairness is not looked at",
        group: limits::LIVENESS.name,
        spoil: |subject| {
            subject.read = |text, role| {
                retried(6, text, role, |text| {
                    let header = text.lines().next()?;
                    let short = header.strip_suffix(" 1")?;
                    Some(text.replacen(header, short, 1))
                })
            };
        },
    },
    Fault {
        name: "6 is for witnesses only",
        group: limits::LIVENESS.name,
        spoil: refusing!(8, |text, role, read| {
            read.reason == 6 && role == crate::subject::witness::Role::Model
        }),
    },
    Fault {
        name: "bads and constraints are swapped",
        group: random::WHOLE.name,
        spoil: |subject| {
            subject.read = |text, role| {
                let mut read = (OURS.read)(text, role);
                (read.bads, read.constraints) = (read.constraints, read.bads);
                read
            };
        },
    },
    Fault {
        name: "a refusal says M",
        group: loads::LENT.name,
        spoil: |subject| {
            subject.read = |text, role| {
                let mut read = (OURS.read)(text, role);
                if read.reason > 8 {
                    read.max_variable = counts(text).map_or(0, |counts| counts.variables);
                }
                read
            };
        },
    },
];
