//! Links the proved library, and finds the published Rust files for the tests.
//!
//! The published files are not part of this repository, and the crate does without them. Where
//! they are present, the tests compile them, text unchanged, with the access modules of the
//! comparison appended, so that private functions can be compared too.

#[path = "build/found.rs"]
mod found;

fn main() {
    println!("cargo::rerun-if-changed=build.rs");
    println!("cargo::rustc-check-cfg=cfg(published, published_user)");
    let root = found::package().join("../..");
    found::link(&root, &["nitrasovy"]);
    // Those that the library ports, and one that uses the first of them.
    let ported = [
        ("aiger_obligation.rs", "aiger_obligation"),
        ("composed_witness.rs", "composed_witness"),
    ];
    let user = [("controller_transducer.rs", "controller_transducer")];
    for (name, files) in [("published", &ported[..]), ("published_user", &user)] {
        if found::offer(&root, &format!("{name}.rs"), files) {
            println!("cargo::rustc-cfg={name}");
        }
    }
}
