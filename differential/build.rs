//! Finds the published Rust files and the proved library.
//!
//! The published files are not part of this repository. Where they are present, each is
//! copied, text unchanged, with the access module of `access/` appended, so that its private
//! functions can be called. Where they are absent, the program is built without them and says so.

#[path = "../bindings/rust/build/found.rs"]
mod found;

/// A published file, and the name of its module in `oracle`.
const PUBLISHED: [(&str, &str); 2] = [
    ("aiger_obligation.rs", "aiger"),
    ("composed_witness.rs", "composed"),
];

fn main() {
    println!("cargo::rustc-check-cfg=cfg(published)");
    println!("cargo::rerun-if-changed=build.rs");
    let root = found::package().join("..");
    if !found::offer(&root, "oracle.rs", &PUBLISHED) {
        return;
    }
    println!("cargo::rustc-cfg=published");
    if std::env::var_os("CARGO_FEATURE_STAND_IN").is_none() {
        // The calls of the library, and the exports of its inner layers for this comparison alone.
        found::link(&root, &["nitrasovy", "probe"]);
    }
}
