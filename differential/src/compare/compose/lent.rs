//! Work words and room from none to more than needed.

use super::cases::Case;
use super::check::{Amount, Judged};
use super::circuits::{any_plan, model, witness};
use super::{FIRST, Group, MODEL, Run, SECOND};
use crate::compare::witness::pages::Page;
use crate::reading::compose::Due;

pub const AMOUNTS: Group = Group {
    name: "compose: work words and room around the needed",
    run: amounts,
};

fn amounts(run: &mut Run) {
    for case in cases() {
        around(run, &case);
    }
    for _ in 0..run.cases / 200 {
        let model = model(&mut run.random, 3);
        let witnesses = [(); 2].map(|()| {
            let plan = any_plan(&mut run.random);
            witness(&mut run.random, &model, plan).plain()
        });
        let case = Case::apart(&mut run.random, Page::of(&model).plain(), &witnesses);
        around(run, &case);
    }
}

/// Texts that are accepted, with each of M, O, B and C in the model and in the witnesses, and texts
/// that are refused for each reason.
fn cases() -> Vec<Case> {
    let listed = "aag 0 0 0 3 0 2 4\n1\n1\n1\n0\n0\n1\n1\n0\n0\n";
    let leaves = "aag 4 2 2 1 0\n2\n4\n6 6\n8 8\n2\n";
    let gates = "aag 3 0 0 0 3 1\n6\n2 0 1\n4 2 2\n6 4 3\n";
    let named = "aag 3 2 1 1 0\n2\n4\n6 6\n2\ni0 = 2\ni1 a name\nl0 \n";
    let first = std::str::from_utf8(FIRST).expect("ASCII");
    let second = std::str::from_utf8(SECOND).expect("ASCII");
    let model = std::str::from_utf8(MODEL).expect("ASCII");
    let accepted = [
        [model, first, second],
        [listed, first, second],
        [model, listed, second],
        [model, first, listed],
        [leaves, leaves, named],
        [gates, gates, first],
        [leaves, named, gates],
        ["aag 0 0 0 0 0\n", listed, listed],
    ];
    let refused = [
        [model, first, ""],
        ["aag 1 1 0 0\n2\n", first, second],
        [model, "aag 1 0 0 0 0\n", second],
        [model, first, "aag 0 0 0 1 0 0 0 1\n1\n"],
        ["aag 0 0 0 9223372036854775808 0\n", first, second],
        [
            model,
            "aag 0 0 0 0 0 18446744073709551615 18446744073709551615\n1\n",
            second,
        ],
        [model, "aag 1 0 1 1 0\n2\n2\n", second],
        [model, first, "aag 1 0 1 1 0\n2 2\n2\nl0 a\nl0 b\n"],
        [model, "aag 1 0 1 1 0\n2 2\n2\nc\nMAPPING\n", second],
        [model, first, "aag 1 0 1 1 0\n2 2\n4\n"],
        [model, first, "aag 1 0 1 1 0\n2 2\n2\nl0 = 4\n"],
        [model, first, "aag 1 0 1 1 0\n2 3\n2\n"],
        [model, "aag 1 0 1 0 0\n2 2\n", second],
    ];
    let texts = accepted.into_iter().chain(refused);
    let mut cases: Vec<Case> = texts
        .map(|[model, first, second]| Case::of(model, &[first, second]))
        .collect();
    let mut overlap = cases[0].clone();
    overlap.pairs[2] -= 1;
    cases.push(overlap);
    cases.push(Case::of(model, &[first]));
    cases.push(Case::of(model, &vec![first; 65]));
    cases
}

/// Every room up to a few bytes more than needed, and work words around the needed and the 1,024.
fn around(run: &mut Run, case: &Case) {
    let judged = Judged::of(case);
    let Amount { work, room } = judged.needed();
    for room in 0..room + 4 {
        judged.lent(run, Amount { work, room });
    }
    let accepted = matches!(judged.due, Ok(Due { text: Ok(_), .. }));
    let rooms = match accepted {
        true => vec![room, room - 1, room + 30],
        false => vec![0, 30],
    };
    let few = [0, 1, 2, 16, 1_023, 1_024, 1_025];
    for work in few.into_iter().chain(work.saturating_sub(18)..work + 18) {
        for &room in &rooms {
            judged.lent(run, Amount { work, room });
        }
    }
    judged.lent(
        run,
        Amount {
            work: 3 * work + 5_000,
            room: 2 * room + 100,
        },
    );
}
