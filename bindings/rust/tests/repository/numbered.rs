//! Requirements and decisions have the numbers that are cited.

use super::{append, assert_found, check, passes, root, sample};

#[test]
fn numbers_are_in_order_and_those_cited_exist() {
    passes("numbered");
}

#[test]
fn wrong_numbers_are_found() {
    let Some(root) = root() else { return };
    let requirements = "## R1 Numbers\n\n- **R1.1** One, as D1 has it.\n- **R1.2** Two.\n\n\
                        ## R2 Rows\n\n| n | what |\n|---|---|\n| R2.1 | one |\n| **R2.2** | two |\n";
    let decisions =
        "## D1 Crates\n\n- **D1.1 One.** By R1.2, R2.1-R2.2 and (R2).\n- **D1.2 Two.** As D1.1.\n";
    let files = [
        ("docs/REQUIREMENTS.md", requirements),
        ("docs/DECISIONS.md", decisions),
        ("crates/a/src/lib.rt", "// By R1.1.\nlet x = R9;\n"),
    ];
    let before = check("numbered", &root, &sample("numbered", &files));
    assert!(before.status.success(), "{before:?}");
    for (file, line, fault) in [
        (
            "docs/DECISIONS.md",
            "- **D1.4 Four.**",
            "D1.4 comes where D1.3 is due",
        ),
        (
            "docs/DECISIONS.md",
            "- **D1.2 Again.**",
            "D1.2 has a place already",
        ),
        (
            "docs/REQUIREMENTS.md",
            "| R1.3 | three |",
            "R1.3 stands in section R2",
        ),
        (
            "docs/REQUIREMENTS.md",
            "## R2 Again",
            "R2 has a place already",
        ),
        ("docs/REQUIREMENTS.md", "## R1 Back", "R1 does not rise"),
        ("docs/PROVED.md", "By R2.3.", "docs/PROVED.md:1 cites R2.3"),
        ("README.md", "By D2.", "README.md:1 cites D2"),
        (
            "crates/a/src/lib.rt",
            "    // By R3.",
            "crates/a/src/lib.rt:3 cites R3",
        ),
        (
            "crates/a/specs/A.antt",
            "a = b -- by D1.9",
            "crates/a/specs/A.antt:1 cites D1.9",
        ),
        (
            "crates/a/must-fail/a.edit",
            "Against R1.7.",
            "crates/a/must-fail/a.edit:1 cites R1.7",
        ),
        ("src/a.rs", "/// By D7.", "src/a.rs:1 cites D7"),
        ("include/a.h", " * by R1.8", "include/a.h:1 cites R1.8"),
        ("checks/a", "# By R1.6.", "checks/a:1 cites R1.6"),
    ] {
        let folder = sample("numbered", &files);
        append(&folder.join(file), line);
        assert_found("numbered", &root, &folder, fault);
    }
    let folder = sample("unnumbered", &files[1..]);
    assert_found(
        "numbered",
        &root,
        &folder,
        "docs/REQUIREMENTS.md is not there",
    );
}
