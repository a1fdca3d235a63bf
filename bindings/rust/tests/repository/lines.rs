//! Lines of documents are short.

use super::{assert_found, check, passes, root, sample};

#[test]
fn lines_of_documents_are_short() {
    passes("lines");
}

#[test]
fn a_long_line_of_a_document_is_found() {
    let Some(root) = root() else { return };
    // Two bytes each.
    let (short, long) = ("ä".repeat(160), "ä".repeat(161));
    let allowed = [
        short.clone(),
        format!("| {long} |"),
        format!("```\n{long}\n```"),
        format!("Text:\n\n    {long}\n    {long}"),
        format!("1. Item:\n\n       {long}"),
    ];
    let found = [
        long.clone(),
        format!("# {long}"),
        format!("- {long}"),
        format!("Text:\n    {long}"),
        format!("- Item.\n\n    {long}"),
        format!("```\n```\n{long}"),
    ];
    for text in &allowed {
        let folder = sample("lines", &[("docs/A.md", text)]);
        let output = check("lines", &root, &folder);
        assert!(output.status.success(), "{text}: {output:?}");
    }
    for text in &found {
        let folder = sample("lines", &[("docs/A.md", text)]);
        assert_found("lines", &root, &folder, "docs/A.md:");
    }
}
