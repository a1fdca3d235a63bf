//! Wrong refusals of sources and claims.

use super::super::{Fault, lists, small};
use super::{OURS, circuit, refused_where, with_claims};
use crate::reading::obligation::outcomes;
use crate::subject::obligation::{Asked, Claim, Lent, Made};

pub const FAULTS: &[Fault] = &[
    Fault {
        name: "a source of 2^L is taken",
        group: lists::STATES.name,
        spoil: |subject| {
            subject.make = |asked, lent| {
                let states = states(asked);
                with_source(
                    asked,
                    lent,
                    |source| if source == states { 0 } else { source },
                )
            };
        },
    },
    Fault {
        name: "the upper half of a source is not looked at",
        group: lists::STATES.name,
        spoil: |subject| {
            subject.make = |asked, lent| with_source(asked, lent, |source| source & 0xffff_ffff);
        },
    },
    Fault {
        name: "a claimed state of 2^L is taken",
        group: lists::STATES.name,
        spoil: |subject| {
            subject.make = |asked, lent| {
                let states = states(asked);
                with_claims(asked, lent, |list, width| match list {
                    [state, ..] if *state == states && list.len() == width => vec![0; width],
                    _ => list.to_vec(),
                })
            };
        },
    },
    Fault {
        name: "equal claims are taken",
        group: lists::ORDER.name,
        spoil: |subject| {
            subject.make = |asked, lent| {
                with_claims(asked, lent, |list, width| {
                    let mut claims: Vec<&[u64]> = list.chunks(width).collect();
                    claims.dedup();
                    claims.concat()
                })
            };
        },
    },
    Fault {
        name: "claims need not rise",
        group: lists::STATES.name,
        spoil: |subject| {
            subject.make = |asked, lent| {
                with_claims(asked, lent, |list, width| {
                    let mut claims: Vec<&[u64]> = list.chunks(width).collect();
                    claims.sort_unstable();
                    claims.concat()
                })
            };
        },
    },
    Fault {
        name: "an empty claim list is refused",
        group: small::RELATION.name,
        spoil: |subject| {
            subject.make = |asked, lent| {
                let empty = match asked.claim {
                    Claim::Relation { targets: list, .. }
                    | Claim::Terminal { states: list, .. }
                    | Claim::Transducer { outcomes: list, .. } => list.is_empty(),
                };
                refused_where(empty, 14, asked, lent)
            };
        },
    },
    Fault {
        name: "outcomes are compared as target, low, high",
        group: lists::ORDER.name,
        spoil: |subject| {
            subject.make = |asked, lent| {
                let falls = claimed_outcomes(asked).windows(2).any(|two| {
                    let [a, b] = [two[0], two[1]].map(|[target, high, low]| [target, low, high]);
                    a >= b
                });
                refused_where(falls, 14, asked, lent)
            };
        },
    },
    Fault {
        name: "words left over of outcomes are refused",
        group: lists::ORDER.name,
        spoil: |subject| {
            subject.make = |asked, lent| {
                let over = match asked.claim {
                    Claim::Transducer { outcomes, .. } => outcomes.len() % 3 != 0,
                    _ => false,
                };
                refused_where(over, 14, asked, lent)
            };
        },
    },
    Fault {
        name: "65,535 outcomes are the most",
        group: lists::MANY.name,
        spoil: |subject| {
            subject.make = |asked, lent| {
                refused_where(claimed_outcomes(asked).len() > 65_535, 14, asked, lent)
            };
        },
    },
    Fault {
        name: "65,537 outcomes are taken",
        group: lists::MANY.name,
        spoil: |subject| {
            subject.make = |asked, lent| {
                with_claims(asked, lent, |list, width| match list.len() / width {
                    65_537 => list[width..].to_vec(),
                    _ => list.to_vec(),
                })
            };
        },
    },
    Fault {
        name: "an outcome's bit beyond the observed outputs is taken",
        group: lists::BITS.name,
        spoil: |subject| {
            subject.make = |asked, lent| {
                let observed = observed(asked).len() as u32;
                with_claims(asked, lent, |list, width| match *list {
                    [target, high, low] if width == 3 => {
                        let bits = u128::from(high) << 64 | u128::from(low);
                        let bits = bits & !(1_u128.checked_shl(observed).unwrap_or(0));
                        vec![target, (bits >> 64) as u64, bits as u64]
                    }
                    _ => list.to_vec(),
                })
            };
        },
    },
    Fault {
        name: "with 64 observed outputs the high half is not looked at",
        group: lists::BITS.name,
        spoil: |subject| {
            subject.make = |asked, lent| {
                let some = observed(asked).len() == 64;
                with_claims(asked, lent, |list, width| match *list {
                    [target, _, low] if width == 3 && some => vec![target, 0, low],
                    _ => list.to_vec(),
                })
            };
        },
    },
    Fault {
        name: "with 128 observed outputs any bit is beyond",
        group: lists::BITS.name,
        spoil: |subject| {
            subject.make = |asked, lent| {
                let all = observed(asked).len() == 128;
                let mut outcomes = claimed_outcomes(asked).into_iter();
                let bits = outcomes.any(|[_, high, low]| high | low != 0);
                refused_where(all && bits, 14, asked, lent)
            };
        },
    },
    Fault {
        name: "observed outputs must be 0, 1, ..",
        group: lists::OBSERVED.name,
        spoil: |subject| {
            subject.make = |asked, lent| {
                let mut observed = observed(asked).iter().zip(0..);
                let other = observed.any(|(&output, place)| output != place);
                refused_where(other, 14, asked, lent)
            };
        },
    },
    Fault {
        name: "equal observed outputs are taken",
        group: lists::OBSERVED.name,
        spoil: |subject| {
            subject.make = |asked, lent| {
                with_observed(asked, lent, |observed| {
                    observed.dedup();
                })
            };
        },
    },
    Fault {
        name: "the output O may be observed",
        group: lists::OBSERVED.name,
        spoil: |subject| {
            subject.make = |asked, lent| {
                let count = outputs(asked);
                with_observed(asked, lent, |observed| match observed[..] {
                    [output] if output == count && count > 0 => observed[0] -= 1,
                    _ => {}
                })
            };
        },
    },
    Fault {
        name: "the output O may be bad",
        group: lists::OBSERVED.name,
        spoil: |subject| {
            subject.make = |asked, lent| match asked.claim {
                Claim::Terminal { bad_output, states }
                    if bad_output == outputs(asked) && bad_output > 0 =>
                {
                    let claim = Claim::Terminal {
                        bad_output: bad_output - 1,
                        states,
                    };
                    (OURS.make)(&Asked { claim, ..*asked }, lent)
                }
                _ => (OURS.make)(asked, lent),
            };
        },
    },
];

/// 2^L, or 0 without a model.
fn states(asked: &Asked) -> u64 {
    circuit(asked).map_or(0, |circuit| 1 << circuit.latches.len())
}

/// O, or 0 without a model.
fn outputs(asked: &Asked) -> u64 {
    circuit(asked).map_or(0, |circuit| circuit.outputs.len() as u64)
}

fn observed<'a>(asked: &Asked<'a>) -> &'a [u64] {
    match asked.claim {
        Claim::Transducer { observed, .. } => observed,
        _ => &[],
    }
}

fn claimed_outcomes(asked: &Asked) -> Vec<[u64; 3]> {
    match asked.claim {
        Claim::Transducer {
            outcomes: words, ..
        } => outcomes(words),
        _ => Vec::new(),
    }
}

/// The row with the source as `change` makes it.
fn with_source(asked: &Asked, lent: &mut Lent, change: impl Fn(u64) -> u64) -> Made {
    let claim = match asked.claim {
        Claim::Relation { source, targets } => Claim::Relation {
            source: change(source),
            targets,
        },
        Claim::Transducer {
            source,
            observed,
            outcomes,
        } => Claim::Transducer {
            source: change(source),
            observed,
            outcomes,
        },
        terminal => terminal,
    };
    (OURS.make)(&Asked { claim, ..*asked }, lent)
}

/// The row with the observed outputs as `change` makes them.
fn with_observed(asked: &Asked, lent: &mut Lent, change: impl Fn(&mut Vec<u64>)) -> Made {
    let Claim::Transducer {
        source,
        observed,
        outcomes,
    } = asked.claim
    else {
        return (OURS.make)(asked, lent);
    };
    let mut changed = observed.to_vec();
    change(&mut changed);
    let claim = Claim::Transducer {
        source,
        observed: &changed[..],
        outcomes,
    };
    (OURS.make)(&Asked { claim, ..*asked }, lent)
}
