//! What the build scripts of the crate and of the comparison in `differential/` find: the proved
//! library and the published Rust files. Relative folders count from the repository's root.

use std::env;
use std::fs;
use std::path::{Path, PathBuf};

const LIBRARY_VARIABLE: &str = "NITRASOVY_LIB";
/// Where `tools/archive` writes an archive, and where a package has it.
const LIBRARY_DEFAULTS: [&str; 2] = ["target/staticlib", "lib"];
const SOURCE_VARIABLE: &str = "NITRASOVY_RUST_SOURCE";
const SOURCE_DEFAULT: &str = "../shared/docs/src/src";
/// What is appended to a published file, under its name, so that its private functions can be called.
const ACCESS: &str = "differential/access";

/// The package's folder.
pub fn package() -> PathBuf {
    set_by_cargo("CARGO_MANIFEST_DIR")
}

/// The folder that the variable names.
fn named(root: &Path, variable: &str) -> Option<PathBuf> {
    println!("cargo::rerun-if-env-changed={variable}");
    let named = env::var_os(variable).filter(|named| !named.is_empty());
    named.map(|named| root.join(named))
}

/// The folder that the variable names, else the first default that has the file, else the first.
fn holder(root: &Path, file: &str) -> PathBuf {
    named(root, LIBRARY_VARIABLE).unwrap_or_else(|| {
        let defaults = LIBRARY_DEFAULTS.map(|folder| root.join(folder));
        let has = |folder: &&PathBuf| folder.join(file).is_file();
        defaults.iter().find(has).unwrap_or(&defaults[0]).clone()
    })
}

/// Links the archives of these names.
pub fn link(root: &Path, libraries: &[&str]) {
    for library in libraries {
        let file = format!("lib{library}.a");
        let folder = holder(root, &file);
        let archive = folder.join(&file);
        println!("cargo::rustc-link-search=native={}", folder.display());
        println!("cargo::rerun-if-changed={}", archive.display());
        if archive.is_file() {
            println!("cargo::rustc-link-lib=static={library}");
        } else {
            println!(
                "cargo::error={} is absent: make it with 'tools/archive {library}' at the repository's \
                 root, where a package has lib/{file} instead, or name the folder of {file} in \
                 {LIBRARY_VARIABLE}",
                archive.display()
            );
        }
    }
}

/// Writes a file of this name that declares published files, each with its access appended, as
/// modules; whether all of them are there.
pub fn offer(root: &Path, name: &str, published: &[(&str, &str)]) -> bool {
    let mut declarations = String::new();
    let mut all = true;
    for (file, module) in published {
        match copied(root, file) {
            Some(copy) => declarations.push_str(&declared(module, &copy)),
            None => all = false,
        }
    }
    if all {
        write(&set_by_cargo("OUT_DIR").join(name), &declarations);
    }
    all
}

fn declared(module: &str, copy: &Path) -> String {
    let copy = copy.display().to_string();
    format!("#[allow(dead_code, clippy::all)]\n#[path = {copy:?}]\npub mod {module};\n")
}

/// Copies a published file, text unchanged, and appends its access where there is one.
fn copied(root: &Path, file: &str) -> Option<PathBuf> {
    let folder = named(root, SOURCE_VARIABLE).unwrap_or_else(|| root.join(SOURCE_DEFAULT));
    let source = folder.join(file);
    let access = root.join(ACCESS);
    println!("cargo::rerun-if-changed={}", source.display());
    println!("cargo::rerun-if-changed={}", access.display());
    let text = fs::read_to_string(source).ok()?;
    let access = fs::read_to_string(access.join(file)).unwrap_or_default();
    let copy = set_by_cargo("OUT_DIR").join(format!("published_{file}"));
    write(&copy, &format!("{text}\n{access}"));
    Some(copy)
}

fn set_by_cargo(variable: &str) -> PathBuf {
    PathBuf::from(env::var_os(variable).expect("set by cargo"))
}

fn write(path: &Path, text: &str) {
    fs::write(path, text).unwrap_or_else(|error| panic!("{}: {error}", path.display()));
}
