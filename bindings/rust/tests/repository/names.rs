//! Files and names that are cited exist.

use super::{append, assert_found, check, finds, passes, root, sample};

#[test]
fn files_that_are_cited_exist() {
    passes("cited");
}

#[test]
fn a_file_that_is_cited_and_is_not_there_is_found() {
    finds(
        "cited",
        "cited",
        "crates/lists/src/lib.rt",
        "// See `lists/specs/Absent.antt`.",
        "lists/specs/Absent.antt",
    );
}

#[test]
fn names_that_are_cited_exist() {
    passes("names");
}

#[test]
fn names_that_are_cited_and_are_not_there_are_found() {
    let Some(root) = root() else { return };
    let guide = "Of `next_line`, `text::next_line`, `Lines::Got`, `Lines.antt` and `line_lost`:\n\
                 `line-ends`,\n`line-less` (`text/proofs/Lines.antt`), `line-ends` of `text/proofs/Lines.antt`.\n\n\
                 ```\n`unseen`\n```\n";
    let edits = "- **Edits that must fail.** `went_first`,\n  `went_last` (`text`), `line_lost` (`text`).\n- **More.** None.\n";
    let files = [
        ("README.md", guide),
        ("docs/CHANGES.md", "`gone` is `next_line` now.\n"),
        ("docs/DECISIONS.md", edits),
        (
            "crates/text/src/lib.rt",
            "// As remarked.\npub fn next_line() -> Lines {\n    Lines::Got\n}\n",
        ),
        (
            "crates/text/proofs/Lines.antt",
            "line-ends = x -- as remarked\nline-less = line-ends\n",
        ),
        (
            "crates/text/must-fail/line_lost.edit",
            "As remarked.\nfile: src/lib.rt\nold: Got\nnew: Lost\n",
        ),
        ("crates/scan/src/lib.rt", "pub fn line_end() {}\n"),
        ("checks/some", "# As remarked.\necho some\n"),
    ];
    let before = check("names", &root, &sample("names", &files));
    assert!(before.status.success(), "{before:?}");
    for (file, line, fault) in [
        (
            "README.md",
            "See `absent-law`.",
            "README.md cites absent-law",
        ),
        (
            "docs/A.md",
            "See `two\nwords` and `absent`.",
            "docs/A.md cites absent,",
        ),
        ("README.md", "See `remarked`.", "README.md cites remarked"),
        ("README.md", "See `Line`.", "README.md cites Line,"),
        ("README.md", "See `gone`.", "README.md cites gone"),
        (
            "README.md",
            "See `scan::next_line`.",
            "scan has no next_line",
        ),
        ("README.md", "See `Lines::Ended`.", "has the name Ended"),
        (
            "README.md",
            "See `Absent.antt`.",
            "README.md cites Absent.antt",
        ),
        (
            "README.md",
            "See `line_end`, `line-less` (`text/proofs/Lines.antt`).",
            "cites line_end of text/proofs/Lines.antt",
        ),
        (
            "README.md",
            "See `line_end` of `text/proofs/Lines.antt`.",
            "cites line_end of text/proofs/Lines.antt",
        ),
        (
            "crates/scan/src/lib.rt",
            "    // See `next_line`, and\n    // `absent_name`.",
            "crates/scan/src/lib.rt cites absent_name",
        ),
        (
            "crates/text/proofs/Lines.antt",
            "-- See `absent-law`.",
            "crates/text/proofs/Lines.antt cites absent-law",
        ),
        (
            "crates/text/must-fail/line_lost.edit",
            "See `absent_name`.",
            "crates/text/must-fail/line_lost.edit cites absent_name",
        ),
        ("src/a.rs", "/// See `Absent`.", "src/a.rs cites Absent"),
        (
            "include/a.h",
            " * See `nit_absent`.",
            "include/a.h cites nit_absent",
        ),
        ("checks/some", "# See `absent`.", "checks/some cites absent"),
        (
            "docs/DECISIONS.md",
            "  `went_last` (`text`).",
            "cites went_last",
        ),
        (
            "README.md",
            "- **Edits that must fail.** `went_last` (`text`).",
            "cites went_last",
        ),
    ] {
        let folder = sample("names", &files);
        append(&folder.join(file), line);
        assert_found("names", &root, &folder, fault);
    }
}
