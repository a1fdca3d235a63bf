//! The composing case (R14.7), and others that were worked out by hand from R8.

use super::check::texts;
use super::{FIRST, Group, MODEL, Run, SECOND};
use crate::compare::compose::cases::Case;
use crate::oracle::compose as oracle;
use crate::subject::compose::Lent;
use crate::tally::Answers;

pub const TABLES: Group = Group {
    name: "compose: the requirements' case, cases by hand",
    run: tables,
};

const COMMENT: &str = "c\nGCC FM 2026 composed-witness baseline v1\n";

fn tables(run: &mut Run) {
    printed(
        run,
        MODEL,
        &[FIRST, SECOND],
        "aag 1 0 1 0 0 2 0 0 0\n2 2 0\n2\n3\nl0 = 2\n",
    );
    by_hand(run);
}

/// Compares with a text that is written down here, without its comment.
fn printed(run: &mut Run, model: &[u8], witnesses: &[&[u8]], sections: &str) {
    let expected = format!("{sections}{COMMENT}");
    let case = Case::of(model, witnesses);
    let mut out = vec![0; expected.len()];
    let mut lent = Lent {
        work: &mut vec![u64::MAX; 10_000],
        out: &mut out,
    };
    let composed = (run.ours.compose)(&case.asked(), &mut lent);
    let rust = oracle::compose(model, witnesses);
    let answers = Answers {
        ours: (composed.reason, out.escape_ascii().to_string()),
        rust: rust.map(|text| (0, text.escape_ascii().to_string())),
        reading: (0, expected.as_bytes().escape_ascii().to_string()),
    };
    run.tally.check(answers, || case.shown());
    texts(run, model, witnesses);
}

/// Two inputs, two latches, a gate.
const WIDE: &[u8] = b"aag 5 2 2 0 1\n2\n4\n6 2\n8 4\n10 2 4\n";

fn by_hand(run: &mut Run) {
    let rows: [(&[u8], &[&str], &str); 9] = [
        // No variable at all; the constants as bads.
        (
            b"aag 0 0 0 0 0\n",
            &["aag 0 0 0 0 0 1\n1\n", "aag 0 0 0 1 0\n0\n"],
            "aag 0 0 0 0 0 2 0 0 0\n0\n1\n",
        ),
        // Surplus inputs and latches are private.
        (
            MODEL,
            &[
                "aag 3 1 2 0 0 1\n2\n4 4\n6 2\n6\n",
                "aag 2 1 1 1 0\n2\n4 4\n2\ni0 x y\n",
            ],
            "aag 4 2 2 0 0 2 0 0 0\n2\n4\n6 6 0\n8 2 0\n4\n8\n\
             i0 w0:private-input\ni1 w1:x y\nl0 = 2\nl1 w0:private-latch\n",
        ),
        // Names map in any order; one mapping makes the unnamed private.
        (
            WIDE,
            &[
                "aag 2 2 0 0 0 1\n2\n4\n2\ni0 = 4\ni1 = 2\n",
                "aag 3 2 1 0 0 1\n2\n4\n6 2 3\n4\nl0 = +08\n",
            ],
            "aag 5 4 1 0 0 2 0 0 0\n2\n4\n6\n8\n10 6 7\n2\n8\n\
             i0 = 4\ni1 = 2\ni2 w1:private-input\ni3 w1:private-input\nl0 = 8\n",
        ),
        // Two own inputs mapped to one; empty names.
        (
            WIDE,
            &[
                "aag 3 3 0 0 0 2\n2\n4\n6\n5\n3\ni0 = 2\ni1 = 2\ni2 \n",
                "aag 1 1 0 0 0 1\n2\n3\n",
            ],
            "aag 2 2 0 0 0 1 0 0 0\n2\n4\n3\ni0 = 2\ni1 w0:\n",
        ),
        // Gates are shared in any order of operands, across and inside witnesses.
        (
            WIDE,
            &[
                "aag 4 2 0 0 2 1\n2\n4\n7\n6 5 2\n8 2 5\n",
                "aag 4 2 0 0 2 1\n2\n4\n8\n6 2 5\n8 6 4\n",
            ],
            "aag 4 2 0 0 2 2 0 0 0\n2\n4\n7\n8\n6 2 5\n8 4 6\ni0 = 2\ni1 = 4\n",
        ),
        // Constants are not folded: x and true, x and x are gates of their own.
        (
            WIDE,
            &[
                "aag 3 1 0 0 2 1\n2\n4\n4 2 1\n6 2 2\n",
                "aag 3 1 0 0 2 1\n2\n6\n4 1 2\n6 0 1\n",
            ],
            "aag 4 1 0 0 3 2 0 0 0\n2\n4\n8\n4 1 2\n6 2 2\n8 0 1\ni0 = 2\n",
        ),
        // Outputs only where there is no bad; constraints and bads ascend without repeats.
        (
            WIDE,
            &[
                "aag 2 2 0 1 0 3 2\n2\n4\n0\n5\n2\n5\n4\n3\n",
                "aag 2 2 0 2 0 0 2\n2\n4\n4\n1\n3\n1\n",
            ],
            "aag 2 2 0 0 0 4 3 0 0\n2\n4\n1\n2\n4\n5\n1\n3\n4\ni0 = 2\ni1 = 4\n",
        ),
        // A shared latch is defined alike through a shared gate; resets of any literal.
        (
            WIDE,
            &[
                "aag 3 1 1 0 1 1\n2\n4 6 7\n6\n6 2 4\n",
                "aag 4 1 1 0 2 1\n2\n4 8 9\n6\n6 2 2\n8 4 2\n",
            ],
            "aag 4 1 1 0 2 2 0 0 0\n2\n4 6 7\n6\n8\n6 2 4\n8 2 2\ni0 = 2\nl0 = 6\n",
        ),
        // Names of outputs and bads never map; `=6` is a name like others.
        (
            WIDE,
            &[
                "aag 1 1 0 1 0 1\n2\n2\n2\no0 = 9\nb0 = \ni0 =6\n",
                "aag 3 3 0 0 0 1\n2\n4\n6\n6\ni2 =6\ni0 name\n",
            ],
            "aag 3 3 0 0 0 2 0 0 0\n2\n4\n6\n2\n6\ni0 = 2\ni1 = 4\ni2 w1:=6\n",
        ),
    ];
    for (model, witnesses, sections) in rows {
        let witnesses: Vec<&[u8]> = witnesses.iter().map(|text| text.as_bytes()).collect();
        printed(run, model, &witnesses, sections);
    }
}
