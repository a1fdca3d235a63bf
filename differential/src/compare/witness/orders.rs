//! Several faults at once, so that the order of the numbers shows.

use super::check::text;
use super::{Group, Run};

pub const COMBINED: Group = Group {
    name: "witness: several faults at once",
    run: combined,
};

/// Parts of a text, one list for each reason: 3 at its end, 4 at the end of the header, 5 in M, 6,
/// 8 in the lines after the latches, 9 in symbols, 10 in comments, 11 in inputs and latches. The
/// first of each list has no fault. `é` is two bytes above 127.
const PARTS: [&[&str]; 8] = [
    &["\n", "", "\r\n", "é\n"],
    &["", " 0", " x", "\u{1c}"],
    &["4", "5", "2000001"],
    &["0 0", "1 0", "0 18446744073709551615", "+0 +00"],
    &[
        "6\n7\n1\n8 4 2\n",
        "6\n7\n\n8 4 2\n",
        "6\n7\n1\n8 4\n",
        "06\n7\n1\n8 4 2\n",
        "6\n7 7\n1\n8 4 2\n",
        "6\n7\n1\n",
    ],
    &[
        "i0 a\n",
        "x0 y\n",
        "\n",
        "i0 a\nl0 b\ni0 a\n",
        "l0 a\nl0 b\n",
        "i1 a\n",
    ],
    &[
        "c\nx",
        "c\nMAPPING",
        "c\nx\n INTERVENTION 1",
        "c\nx MAPPING",
    ],
    &[
        "2\n4 8\n6 9 9\n",
        "3\n4 8\n6 9 9\n",
        "2\n6 8\n4 9\n",
        "2\n4 8\n6 9 10\n",
        "2\n4 10\n6 9\n",
    ],
];

/// One input, two latches, an output, a bad, a constraint and a gate, with all choices of parts.
fn combined(run: &mut Run) {
    let choices: usize = PARTS.iter().map(|parts| parts.len()).product();
    for choice in 0..choices {
        let mut rest = choice;
        let [
            end,
            more,
            variables,
            liveness,
            sections,
            symbols,
            comments,
            literals,
        ] = PARTS.map(|parts| {
            let part = parts[rest % parts.len()];
            rest /= parts.len();
            part
        });
        let header = format!("aag {variables} 1 2 1 1 1 1 {liveness}{more}");
        let whole = format!("{header}\n{literals}{sections}{symbols}{comments}{end}");
        text(run, whole.as_bytes());
    }
}
