//! A predicate as pairs of offset and length, and literal words.

use super::{AigerInputPredicate, MAX_PREDICATE_CLAUSES, MAX_PREDICATE_LITERALS};

#[derive(Debug, Default, Eq, PartialEq)]
pub struct Words {
    pub pairs: Vec<usize>,
    pub literals: Vec<u32>,
}

impl Words {
    /// A clause more than the limit is handed over, not all that there may be, and so are as many
    /// literals: the library refuses either (13), whatever they are.
    pub fn of(predicate: &AigerInputPredicate) -> Self {
        let mut words = Self::default();
        let mut offset = 0usize;
        for clause in predicate.clauses.iter().take(MAX_PREDICATE_CLAUSES + 1) {
            words.pairs.extend([offset, clause.len()]);
            offset = offset.saturating_add(clause.len());
            let room = (MAX_PREDICATE_LITERALS + 1).saturating_sub(words.literals.len());
            let literals = clause.iter().take(room).map(|&literal| word(literal));
            words.literals.extend(literals);
        }
        words
    }
}

/// 2 x variable, plus 1 when positive. A variable that has no word is put for the largest that has:
/// neither is an index of a list of at most 64, and a longer list is refused for the same reason.
fn word((variable, positive): (usize, bool)) -> u32 {
    const LARGEST: u32 = u32::MAX / 2;
    let variable = u32::try_from(variable).unwrap_or(LARGEST).min(LARGEST);
    2 * variable + u32::from(positive)
}

#[cfg(test)]
mod tests {
    use super::*;

    #[test]
    fn words_never_wrap() {
        assert_eq!(word((0, false)), 0);
        assert_eq!(word((63, true)), 127);
        for huge in [1 << 31, 1 << 32, (1 << 32) + 1, 1 << 63, usize::MAX] {
            assert_eq!(word((huge, false)), u32::MAX - 1, "{huge}");
            assert_eq!(word((huge, true)), u32::MAX, "{huge}");
        }
    }

    #[test]
    fn lengths_are_whole_where_literals_are_not() {
        let clauses = vec![
            vec![(0, true); 1_000],
            vec![(1, true); 100],
            vec![(2, true); 7],
        ];
        let words = Words::of(&AigerInputPredicate { clauses });
        assert_eq!(words.pairs, [0, 1_000, 1_000, 100, 1_100, 7]);
        assert_eq!(words.literals.len(), 1_025);
        let clauses = vec![vec![]; 1_000];
        let words = Words::of(&AigerInputPredicate { clauses });
        assert_eq!(words.pairs, [0; 130]);
    }
}
