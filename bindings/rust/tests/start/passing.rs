//! What the command is given, and from where.

use crate::trial::*;
use std::fs;
use std::io::Write;
use std::os::unix::fs::symlink;
use std::process::Stdio;

#[test]
fn words_input_and_status_pass_through() {
    let Some(trial) = Trial::new("through") else {
        return;
    };
    for status in [0, 1, 2] {
        let mut script = trial.script();
        script.args(["row", "", "two words", "*", "--package"]);
        script
            .env("STATUS", status.to_string())
            .stdin(Stdio::piped());
        let mut child = script.spawn().unwrap();
        child
            .stdin
            .take()
            .unwrap()
            .write_all(b"a line\n\xffrest")
            .unwrap();
        let output = child.wait_with_output().unwrap();
        assert_eq!(output.status.code(), Some(status));
        let expected =
            b"over lists\nmodel\n<row><><two words><*><--package> in its root\na line\n\xffrest";
        assert_eq!(output.stdout, expected);
    }
    for words in [&["--help"][..], &["--package", "x"]] {
        let shown: Shown = trial.script().args(words).output().unwrap().into();
        assert!(shown.ran().contains(&format!("<{}>", words.join("><"))));
    }
    assert_eq!(trial.calls(), "RC");
}

#[test]
fn it_is_started_from_anywhere() {
    let Some(trial) = Trial::new("anywhere") else {
        return;
    };
    let folder = trial.root.join("one/two");
    fs::create_dir_all(&folder).unwrap();
    symlink("../its root/nitrasovy", trial.tools.join("link")).unwrap();
    symlink("link", trial.tools.join("nitrasovy")).unwrap();
    for program in ["../../nitrasovy", "../../../tools/link", "nitrasovy"] {
        let mut sh = trial.command("/bin/sh");
        let output = sh
            .args(["-c", "\"$0\"", program])
            .current_dir(&folder)
            .output();
        assert!(Shown::from(output.unwrap()).ran().ends_with("<> in two\n"));
    }
    let mut sh = trial.command("/bin/sh");
    assert!(
        Shown::from(sh.arg("nitrasovy").output().unwrap())
            .ran()
            .ends_with("in its root\n")
    );
    assert_eq!(trial.calls(), "RC");
}
