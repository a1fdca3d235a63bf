//! Wrong texts of right compositions.

use super::super::{Fault, large, mapping, pairs, random, small, tables};
use super::{rebuilt, renamed, rewritten};
use crate::reading::compose::Leaf;

pub const FAULTS: &[Fault] = &[
    Fault {
        name: "private names have no index",
        group: mapping::PRIVATE.name,
        spoil: |subject| {
            subject.compose = |asked, lent| {
                rewritten(asked, lent, |text| {
                    renamed(text, |name| match name.split_once(':') {
                        Some((_, name)) if !text.contains("= ") => name.to_string(),
                        _ => name.to_string(),
                    })
                })
            };
        },
    },
    Fault {
        name: "the index of private names counts from 1",
        group: small::SHAPES.name,
        spoil: |subject| {
            subject.compose = |asked, lent| {
                rewritten(asked, lent, |text| {
                    renamed(text, |name| {
                        name.replacen("w1:", "w2:", 1).replacen("w0:", "w1:", 1)
                    })
                })
            };
        },
    },
    Fault {
        name: "the index of private names has one digit",
        group: mapping::PRIVATE.name,
        spoil: |subject| {
            subject.compose = |asked, lent| {
                rewritten(asked, lent, |text| {
                    renamed(text, |name| name.replacen("w10:", "w0:", 1))
                })
            };
        },
    },
    Fault {
        name: "an empty private name is none",
        group: mapping::PRIVATE.name,
        spoil: |subject| {
            subject.compose = |asked, lent| {
                rewritten(asked, lent, |text| {
                    renamed(text, |name| match name {
                        "w0:" => "w0:private-input".to_string(),
                        _ => name.to_string(),
                    })
                })
            };
        },
    },
    Fault {
        name: "private latches are called inputs",
        group: small::SHAPES.name,
        spoil: |subject| {
            subject.compose = |asked, lent| {
                rewritten(asked, lent, |text| {
                    text.replace("private-latch", "private-input")
                })
            };
        },
    },
    Fault {
        name: "private names without a symbol are not written",
        group: random::WHOLE.name,
        spoil: |subject| {
            subject.compose = |asked, lent| {
                rewritten(asked, lent, |text| {
                    text.split_inclusive('\n')
                        .filter(|line| !line.contains(":private-"))
                        .collect()
                })
            };
        },
    },
    Fault {
        name: "shared names are not written",
        group: random::WHOLE.name,
        spoil: |subject| {
            subject.compose = |asked, lent| {
                rewritten(asked, lent, |text| {
                    text.split_inclusive('\n')
                        .filter(|line| !line.contains(" = "))
                        .collect()
                })
            };
        },
    },
    Fault {
        name: "a shared name is the literal of the composition",
        group: mapping::MIXED.name,
        spoil: |subject| {
            subject.compose = |asked, lent| {
                rebuilt(asked, lent, |made, _| {
                    for (place, leaf) in made.numbering.inputs.iter_mut().enumerate() {
                        if let Leaf::Shared(model) = leaf {
                            *model = 2 * place as u64 + 2;
                        }
                    }
                })
            };
        },
    },
    Fault {
        name: "blanks of private names are cut off",
        group: small::EACH_BYTE.name,
        spoil: |subject| {
            subject.compose = |asked, lent| {
                rewritten(asked, lent, |text| {
                    renamed(text, |name| name.trim_end().to_string())
                })
            };
        },
    },
    Fault {
        name: "a tab in a private name is a space",
        group: small::EACH_BYTE.name,
        spoil: |subject| {
            subject.compose = |asked, lent| {
                rewritten(asked, lent, |text| {
                    renamed(text, |name| name.replace('\t', " "))
                })
            };
        },
    },
    Fault {
        name: "private names are cut to 4,096 bytes",
        group: large::LARGE.name,
        spoil: |subject| {
            subject.compose = |asked, lent| {
                rewritten(asked, lent, |text| {
                    renamed(text, |name| name.chars().take(4_096).collect())
                })
            };
        },
    },
    Fault {
        name: "private names end at a blank",
        group: mapping::PRIVATE.name,
        spoil: |subject| {
            subject.compose = |asked, lent| {
                rewritten(asked, lent, |text| {
                    renamed(text, |name| match name.strip_prefix("= ") {
                        None => name.split(' ').next().unwrap_or("").to_string(),
                        _ => name.to_string(),
                    })
                })
            };
        },
    },
    Fault {
        name: "latches are named by their variables",
        group: tables::TABLES.name,
        spoil: |subject| {
            subject.compose =
                |asked, lent| rewritten(asked, lent, |text| text.replace("\nl0 ", "\nl1 "));
        },
    },
    Fault {
        name: "a reset of 0 is not written",
        group: tables::TABLES.name,
        spoil: |subject| {
            subject.compose =
                |asked, lent| rewritten(asked, lent, |text| text.replace("\n2 2 0\n", "\n2 2\n"));
        },
    },
    Fault {
        name: "J and F are not written",
        group: tables::TABLES.name,
        spoil: |subject| {
            subject.compose =
                |asked, lent| rewritten(asked, lent, |text| text.replacen(" 0 0\n", "\n", 1));
        },
    },
    Fault {
        name: "bads are written as outputs",
        group: tables::TABLES.name,
        spoil: |subject| {
            subject.compose = |asked, lent| {
                rewritten(asked, lent, |text| {
                    text.replacen(" 0 2 0 0 0\n", " 2 0 0 0 0\n", 1).replacen(
                        "0 1 0 0 2",
                        "0 1 2 0 0",
                        1,
                    )
                })
            };
        },
    },
    Fault {
        name: "the comment is left out",
        group: tables::TABLES.name,
        spoil: |subject| {
            subject.compose = |asked, lent| {
                rewritten(asked, lent, |text| {
                    text.split_once("\nc\n")
                        .map_or(text, |(start, _)| start)
                        .to_string()
                })
            };
        },
    },
    Fault {
        name: "the last byte 10 is left out",
        group: pairs::COUNTS.name,
        spoil: |subject| {
            subject.compose =
                |asked, lent| rewritten(asked, lent, |text| text.trim_end().to_string());
        },
    },
    Fault {
        name: "symbols of latches come first",
        group: random::WHOLE.name,
        spoil: |subject| {
            subject.compose = |asked, lent| {
                rewritten(asked, lent, |text| {
                    let (latches, others): (Vec<&str>, Vec<&str>) = text
                        .split_inclusive('\n')
                        .partition(|line| line.starts_with('l'));
                    let place = others
                        .iter()
                        .position(|line| line.starts_with(['i', 'c']))
                        .unwrap_or(0);
                    [&others[..place], &latches[..], &others[place..]]
                        .concat()
                        .concat()
                })
            };
        },
    },
];
