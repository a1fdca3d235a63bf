//! Runs the repository's own text checks, and shows that each finds what it is there for.

#[path = "../apart/mod.rs"]
mod apart;
mod believed;
mod exports;
mod lines;
mod names;
mod numbered;

use apart::Apart;
use std::collections::BTreeSet;
use std::fs;
use std::path::{Path, PathBuf};
use std::process::{Command, Output};

/// The repository's root; a crate that stands by itself has none.
fn root() -> Option<PathBuf> {
    let root = Path::new(env!("CARGO_MANIFEST_DIR")).join("../..");
    root.join("crates.txt").is_file().then_some(root)
}

fn check(name: &str, root: &Path, of: &Path) -> Output {
    Command::new(root.join("checks").join(name))
        .arg(of)
        .output()
        .unwrap_or_else(|error| panic!("checks/{name}: {error}"))
}

/// A folder of its own for each trial, with the repository's files.
fn trial(root: &Path, name: &str) -> Apart {
    let trial = Apart::new(name);
    copy(root, &trial);
    trial
}

fn copy(from: &Path, to: &Path) {
    fs::create_dir_all(to).unwrap();
    for entry in fs::read_dir(from).unwrap() {
        let (from, name) = entry
            .map(|entry| (entry.path(), entry.file_name()))
            .unwrap();
        if name == "target" || name == "out" || name == ".git" {
            continue;
        }
        if from.is_dir() {
            copy(&from, &to.join(name));
        } else {
            fs::copy(&from, to.join(name)).unwrap();
        }
    }
}

/// Also makes the file where there is none.
fn append(file: &Path, line: &str) {
    fs::create_dir_all(file.parent().unwrap()).unwrap();
    let text = fs::read_to_string(file).unwrap_or_default();
    fs::write(file, format!("{text}{line}\n")).unwrap();
}

fn passes(name: &str) {
    let Some(root) = root() else { return };
    let output = check(name, &root, &root);
    let said = String::from_utf8_lossy(&output.stdout);
    assert!(output.status.success(), "{said}");
}

fn assert_found(name: &str, root: &Path, of: &Path, fault: &str) {
    let output = check(name, root, of);
    let said = String::from_utf8_lossy(&output.stdout);
    assert_eq!(output.status.code(), Some(1), "{fault}: {said}");
    assert!(said.contains(fault), "{fault}: {said}");
}

fn finds(name: &str, trial_name: &str, file: &str, line: &str, fault: &str) {
    let Some(root) = root() else { return };
    let trial = trial(&root, trial_name);
    assert!(check(name, &root, &trial).status.success());
    append(&trial.join(file), line);
    assert_found(name, &root, &trial, fault);
}

/// Of changes that are tried one after the other: the file, what stands in it, what stands there
/// then, and the fault.
fn finds_each(name: &str, trial_name: &str, changes: &[(&str, &str, &str, &str)]) {
    let Some(root) = root() else { return };
    let trial = trial(&root, trial_name);
    let before = check(name, &root, &trial);
    assert!(before.status.success(), "{before:?}");
    for (file, old, new, fault) in changes {
        let file = trial.join(file);
        let text = fs::read_to_string(&file).unwrap();
        assert!(text.contains(old), "{old}");
        fs::write(&file, text.replace(old, new)).unwrap();
        assert_found(name, &root, &trial, fault);
        fs::write(&file, text).unwrap();
    }
}

/// A folder with these files alone.
fn sample(name: &str, files: &[(&str, &str)]) -> Apart {
    let folder = Apart::new(name);
    for (file, text) in files {
        let file = folder.join(file);
        fs::create_dir_all(file.parent().unwrap()).unwrap();
        fs::write(file, text).unwrap();
    }
    folder
}

/// Each check has a test that runs it on the repository.
#[test]
fn each_check_is_run() {
    let Some(root) = root() else { return };
    let tests = [
        include_str!("believed.rs"),
        include_str!("exports.rs"),
        include_str!("lines.rs"),
        include_str!("names.rs"),
        include_str!("numbered.rs"),
    ];
    let run: BTreeSet<_> = tests
        .concat()
        .split("passes(\"")
        .skip(1)
        .filter_map(|after| after.split_once("\");").map(|(name, _)| name.to_string()))
        .collect();
    let there: BTreeSet<_> = fs::read_dir(root.join("checks"))
        .unwrap()
        .map(|entry| entry.unwrap().file_name().into_string().unwrap())
        .collect();
    assert_eq!(run, there);
}

/// What a check could not read is no pass.
#[cfg(unix)]
#[test]
fn without_awk_each_check_fails() {
    let Some(root) = root() else { return };
    let folder = sample("awk", &[("readme", "")]);
    std::os::unix::fs::symlink("/bin/false", folder.join("awk")).unwrap();
    let path = std::env::var_os("PATH").unwrap();
    let folders = [folder.to_path_buf()]
        .into_iter()
        .chain(std::env::split_paths(&path));
    let path = std::env::join_paths(folders).unwrap();
    for check in fs::read_dir(root.join("checks")).unwrap() {
        let check = check.unwrap().path();
        let output = Command::new(&check).env("PATH", &path).output().unwrap();
        assert!(!output.status.success(), "{}", check.display());
    }
}
