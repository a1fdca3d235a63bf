//! What is made at a start, and when it is made again.

use crate::trial::*;
use std::fs;
use std::fs::File;
use std::time::Duration;
use std::time::SystemTime;

#[test]
fn the_first_start_builds_and_the_second_does_not() {
    let Some(trial) = Trial::new("first") else {
        return;
    };
    let first = trial.start();
    assert_eq!(
        first.error,
        "nitrasovy: proving the library: from nothing ten to fifteen minutes; crates that are proved already are \
         not proved again\n  proved 2 of 4: model\n  proved 3 of 4: nitrasovy\n  proved 4 of 4: nitrasovy_c\n\
         nitrasovy: building the command: under a minute\n"
    );
    assert_eq!(first.ran(), "over lists\nmodel\n<> in its root\n");
    assert_eq!(trial.calls(), "RC");
    let second = trial.start();
    assert_eq!(second.error, "");
    assert_eq!(second.ran(), "over lists\nmodel\n<> in its root\n");
    assert_eq!(trial.calls(), "");
    for tool in ["rt", "cargo", "flock", "setsid"] {
        trial.without(tool);
    }
    assert_eq!(trial.start().error, "");
}

#[test]
fn what_the_library_rests_on_makes_it_stale() {
    let Some(trial) = Trial::new("edits") else {
        return;
    };
    trial.start().ran();
    trial.calls();
    let root = &trial.root;
    trial.write("crates/lists/src/lib.rt", "other\n");
    assert!(trial.start().ran().starts_with("over other\nmodel\n"));
    assert_eq!(trial.calls(), "RC");
    let edits: [&dyn Fn(); 7] = [
        &|| trial.write("crates/model/specs/Two.antt", "text\n"),
        &|| fs::remove_file(root.join("crates/model/specs/Two.antt")).unwrap(),
        &|| trial.write("crates/nitrasovy_c/src/lib.rt", "other\n"),
        &|| fs::remove_dir_all(root.join("crates/nitrasovy/proofs")).unwrap(),
        &|| trial.write("crates/nitrasovy/proofs/one.antt", "text\n"),
        &|| {
            trial.write(
                "crates.txt",
                "lists:\nmodel: lists\nnitrasovy: lists model\nnitrasovy_c staticlib: lists model nitrasovy\n",
            )
        },
        // As unpacked from an old archive.
        &|| {
            trial.write("crates/model/src/lib.rt", "older\n");
            let file = File::options()
                .append(true)
                .open(root.join("crates/model/src/lib.rt"));
            file.unwrap().set_modified(SystemTime::UNIX_EPOCH).unwrap();
        },
    ];
    for edit in edits {
        sleep_a_tick();
        edit();
        trial.start().ran();
        assert_eq!(trial.calls(), "RC");
        assert_eq!(trial.start().error, "");
    }
}

#[test]
fn what_it_does_not_rest_on_does_not() {
    let Some(trial) = Trial::new("unrelated") else {
        return;
    };
    trial.start().ran();
    trial.calls();
    for file in [
        "crates/probe/src/lib.rt",
        "crates/model/must-fail/one.edit",
        "crates/model/must-fail/two.edit",
        "crates/model/out/rlib/stamp",
        "README.md",
        "docs/PROVED.md",
        "bindings/rust/README.md",
        "bindings/rust/tests/all.rs",
    ] {
        trial.write(file, "other\n");
        assert_eq!(trial.start().error, "", "{file}");
    }
    assert_eq!(trial.calls(), "");
}

#[test]
fn the_commands_own_sources_make_it_stale() {
    let Some(trial) = Trial::new("sources") else {
        return;
    };
    trial.start().ran();
    trial.calls();
    for file in [
        "bindings/rust/src/other.rs",
        "bindings/rust/build/found.rs",
        "bindings/rust/build.rs",
        "bindings/rust/Cargo.lock",
        ".cargo/config.toml",
    ] {
        trial.write(file, "other\n");
        trial.start().ran();
        assert_eq!(trial.calls(), "C", "{file}");
    }
}

#[test]
fn an_edit_while_it_proves_counts() {
    let Some(trial) = Trial::new("meanwhile") else {
        return;
    };
    trial.start_with("TRIAL", "edit").ran();
    trial.calls();
    trial.start().ran();
    assert_eq!(trial.calls(), "RC");
}

#[test]
fn what_others_made_is_asked_after() {
    let Some(trial) = Trial::new("others") else {
        return;
    };
    trial.write("target/staticlib/libnitrasovy.a", "half");
    assert!(trial.start().ran().starts_with("over lists\n"));
    assert_eq!(trial.calls(), "RC");
    trial.write("target/staticlib/libnitrasovy.a", "half");
    assert!(trial.start().ran().starts_with("over lists\n"));
    assert_eq!(trial.calls(), "RC");
    trial.write("target/rust/release/nitrasovy", "half");
    assert!(trial.start().ran().starts_with("over lists\n"));
    assert_eq!(trial.calls(), "C");
}

#[test]
fn a_library_made_elsewhere_is_used() {
    let Some(trial) = Trial::new("elsewhere") else {
        return;
    };
    trial.without("rt");
    let elsewhere = trial.root.join("else where");
    trial.write("else where/libnitrasovy.a", "first");
    let named = elsewhere.to_str().unwrap();
    for folder in ["else where", named] {
        let shown = trial.start_with("NITRASOVY_LIB", folder);
        assert!(shown.ran().starts_with("over first\n"));
        assert_eq!(trial.calls(), "C");
        assert_eq!(trial.start_with("NITRASOVY_LIB", folder).error, "");
    }
    // As unpacked from an old archive; cargo is given one that has the time of now.
    trial.write("else where/libnitrasovy.a", "other");
    let archive = File::options()
        .append(true)
        .open(elsewhere.join("libnitrasovy.a"));
    archive
        .unwrap()
        .set_modified(SystemTime::UNIX_EPOCH)
        .unwrap();
    let shown = trial.start_with("NITRASOVY_LIB", named);
    assert!(shown.ran().starts_with("over other\n"));
    assert_eq!(trial.calls(), "C");
    let given = fs::read_to_string(trial.root.join("named")).unwrap();
    let given = trial.root.join(given.trim()).join("libnitrasovy.a");
    let given = fs::metadata(given).unwrap().modified().unwrap();
    assert!(given.elapsed().unwrap() < Duration::from_secs(60));
    let absent = trial.start_with("NITRASOVY_LIB", "nowhere");
    absent.stopped(&["NITRASOVY_LIB names nowhere"]);
    trial
        .start_with("NITRASOVY_LIB", "")
        .stopped(&["there is no rt"]);
}
