//! Starts that cannot be finished: each says why, and runs nothing.

use crate::trial::*;
use std::fs;

#[test]
fn what_is_not_proved_is_not_run() {
    let Some(trial) = Trial::new("unproved") else {
        return;
    };
    trial.start().ran();
    trial.write("crates/model/src/lib.rt", "wrong\n");
    for _ in 0..2 {
        let shown = trial.start_with("TRIAL", "fail");
        for part in ["lists", "model::first", "logic"] {
            assert!(!shown.error.contains(part), "{part}: {}", shown.error);
        }
        shown.stopped(&[
            "\nfn model::second: no proof: `search` did not prove `returns`\n\
             rattle build: nothing was built, since only a proved crate is built\n\
             rt: the library model did not build, so nothing above it was checked\n",
            "the library was not proved, and nothing was run",
            "its root/target/start/proving.log has all that rt said",
        ]);
    }
    let log = fs::read_to_string(trial.root.join("target/start/proving.log")).unwrap();
    let start = "rt: chose --jobs 2 for model\nfn model::first: proved\n";
    assert!(log.starts_with(start), "{log}");
    trial.calls();
    assert!(trial.start().ran().starts_with("over lists\nwrong\n"));
    assert_eq!(trial.calls(), "RC");
}

#[test]
fn what_cargo_refuses_is_shown() {
    let Some(trial) = Trial::new("unlinked") else {
        return;
    };
    trial.start().ran();
    trial.write("bindings/rust/src/lib.rs", "wrong\n");
    for _ in 0..2 {
        let parts = [
            "\nerror: linking failed\n",
            "the command was not built, and nothing was run",
        ];
        trial.start_with("TRIAL", "unlinked").stopped(&parts);
    }
    trial.calls();
    trial.start().ran();
    assert_eq!(trial.calls(), "C");
    // The last command is no answer to the next build.
    trial.write("bindings/rust/src/lib.rs", "other\n");
    let astray = trial.start_with("TRIAL", "astray");
    astray.stopped(&["\nFinished, elsewhere\n", "the command was not built"]);
}

#[test]
fn a_missing_tool_is_named_before_anything_is_proved() {
    let Some(trial) = Trial::new("toolless") else {
        return;
    };
    trial.without("cargo");
    trial
        .start()
        .stopped(&["there is no cargo on the path", "--package"]);
    trial.without("rt");
    trial.start().stopped(&[
        "there is no rt on the path",
        "proves the library",
        "NITRASOVY_LIB",
        "--package",
    ]);
    assert_eq!(trial.calls(), "");
}

#[test]
fn an_interrupted_start_is_gone_on_with() {
    let Some(trial) = Trial::new("interrupted") else {
        return;
    };
    for signal in ["TERM", "INT", "HUP"] {
        let shown = trial.interrupt("hang", signal);
        shown.stopped(&[
            "interrupted",
            "the next start goes on where this one stopped",
        ]);
    }
    trial.calls();
    assert!(trial.start().ran().starts_with("over lists\nmodel\n"));
    assert_eq!(trial.calls(), "RC");
    trial.write("bindings/rust/src/lib.rs", "other\n");
    trial.interrupt("half", "TERM").stopped(&["interrupted"]);
    trial.calls();
    trial.start().ran();
    assert_eq!(trial.calls(), "C");
    trial.without("setsid");
    trial.start().ran();
}

#[test]
fn a_folder_that_cannot_be_written_is_named() {
    let Some(trial) = Trial::new("unwritable") else {
        return;
    };
    trial.write("target", "no folder");
    let parts = [
        "something must be built",
        "its root/target/start cannot be written",
    ];
    trial.start().stopped(&parts);
    trial
        .script()
        .arg("--package")
        .output()
        .map(Shown::from)
        .unwrap()
        .stopped(&parts);
    assert_eq!(trial.calls(), "");
}

#[test]
fn a_second_start_waits_for_the_first() {
    let Some(trial) = Trial::new("twice") else {
        return;
    };
    if !trial.tools.join("flock").exists() {
        return;
    }
    let first = trial.script().env("TRIAL", "slow").spawn().unwrap();
    until(|| trial.root.join("calls").exists().then_some(()));
    let second = trial.start();
    assert_eq!(
        second.error,
        "nitrasovy: another start is building here: waiting for it\n"
    );
    let first: Shown = first.wait_with_output().unwrap().into();
    assert_eq!(first.ran(), second.ran());
    assert_eq!(trial.calls(), "RC");
}
