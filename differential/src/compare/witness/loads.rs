//! Words lent from none to more than needed.

use super::check::lent;
use super::circuits::{any_shape, make};
use super::pages::Page;
use super::random::add_names;
use super::{Group, Run, W};
use crate::compare::lent::Words;
use crate::compare::model::K;
use crate::compare::model::circuits::Operands;
use crate::reading::witness::sections;
use crate::subject::witness::{ROLES, Role};

pub const LENT: Group = Group {
    name: "witness: words around what is needed",
    run: lent_words,
};

fn lent_words(run: &mut Run) {
    let texts: [&[u8]; 21] = [
        W,
        K,
        b"aag 0 0 0 0 0\n",
        b"aag 0 0 0 2 0\n1\n0\n",
        b"aag 1 1 0 0 0\n2\n",
        b"aag 1 1 0 0 0\n2\ni0 \n",
        b"aag 1 0 1 0 0\n2 2\nl0 name with spaces \n",
        b"aag 2 2 0 0 0\n2\n4\ni1 b\ni0 a\n",
        b"aag 3 0 2 0 1\n2 6 1\n4 2\n6 2 4\nl1 = 4\nl0 = 2\n",
        b"aag 0 0 0 1 0 1 1\n1\n0\n1\nc\nMAPPING\n",
        // Refused for each reason, most of them late in the text.
        b"aag 1 1 0 0 0\n2\ni0 a",
        b"aag 1 1 0 0 0 0 0 0 0 0\n2\n",
        b"aag 2 1 0 0 0\n2\n4\n",
        b"aag 1 1 0 0 0 0 0 0 1\n2\n",
        b"aag 2 1 0 1 1\n2\n1\n4 2\n",
        b"aag 1 0 1 18446744073709551615 0\n2 2\n1\n1\n",
        b"aag 2 2 0 1 0\n2\n4\n1\ni0 a\ni1 b\ni0 a\n",
        b"aag 1 0 1 0 0\n2 2\nl0 a\nx\n",
        b"aag 1 0 1 1 0\n2 2\n1\nl0 a\nc\nMAPPING\n",
        b"aag 2 1 0 1 1\n2\n1\n4 2 4\ni0 a\n",
        b"aag 1 1 0 1 0\n2\n4\ni0 a\n",
    ];
    for text in texts {
        around(run, text);
    }
    for _ in 0..run.cases / 20 {
        let shape = any_shape(&mut run.random);
        let resets = run.random.once_in(2);
        let circuit = make(&mut run.random, &shape, Operands::Any, resets);
        let mut page = Page::of(&circuit);
        add_names(&mut run.random, &circuit, &mut page);
        if run.random.once_in(4) {
            page.damage(&mut run.random);
        }
        around(run, &page.plain());
    }
}

/// Every number of words up to a few more than needed; of many, only those around the number.
fn around(run: &mut Run, text: &[u8]) {
    let needed = sections(text, Role::Model).map_or(30, |sections| sections.words().len());
    for role in ROLES {
        for count in needed.saturating_sub(40)..needed + 4 {
            let words = Words::garbage(&mut run.random, count);
            lent(run, text, role, &words);
        }
        for count in [0, 1, needed / 2] {
            let words = Words::garbage(&mut run.random, count);
            lent(run, text, role, &words);
        }
    }
}
