//! Inputs that cannot be read, command lines that say nothing, outputs that cannot be written.

use crate::desk::*;
use std::ffi::OsString;
use std::fs::File;
use std::os::unix::ffi::OsStringExt;

#[test]
fn files_that_cannot_be_read() {
    run(&["read", "no-such-file"]).trouble(&["no-such-file", "No such file", "name a file"]);
    run(&["row", env!("CARGO_TARGET_TMPDIR"), "0"]).trouble(&["is a directory"]);
    let model = file("trouble-model.aag", MODEL);
    run(&["compose", &model, "absent-1", "absent-2"]).trouble(&["absent-1"]);
    run(&["read", ""]).trouble(&["cannot read"]);
}

#[test]
fn texts_that_are_no_circuits() {
    let binary: Vec<u8> = (0..=255).collect();
    run(&["read", &file("binary", binary)]).refused(3);
    run(&["read", &file("empty", "")]).refused(4);
    run(&["read", "--witness", &file("empty-witness", "")]).refused(3);
    // A file of 8 GB, of which no more is read than shows that it is too long.
    let huge = place("huge");
    let made = File::create(&huge).and_then(|file| file.set_len(8 << 30));
    made.expect("a sparse file");
    let name = huge.to_str().expect("a name that is text");
    run(&["read", name]).refused(3);
    run(&["compose", name, name, name]).refused(3);
    std::fs::remove_file(&huge).expect("the file goes");
    run(&["read", "/dev/zero"]).refused(3);
}

#[test]
fn wrong_words() {
    let lock = file("wrong.aag", LOCK);
    let help = "--help says how it is used";
    run(&[]).trouble(&["a subcommand is missing", help]);
    run(&["check"]).trouble(&["'check' is not a subcommand", help]);
    run(&["help", "row"]).trouble(&["'row' is one word too many", help]);
    run(&["--version", "x"]).trouble(&["'x' is one word too many", help]);
    run(&["row"]).trouble(&["FILE is missing", "nitrasovy row --help"]);
    run(&["row", &lock]).trouble(&["SOURCE is missing"]);
    run(&["step", &lock, "0"]).trouble(&["INPUT is missing"]);
    run(&["step", &lock, "0", "0", "0"]).trouble(&["'0' is one word too many"]);
    run(&["row", &lock, "--quick", "0"]).trouble(&["'--quick' is not an option here"]);
    run(&["row", &lock, "-1"]).trouble(&["'-1' is not an option here", "negative"]);
    run(&["row", &lock, "0", "--plain", "--plain"]).trouble(&["--plain stands twice"]);
    run(&["row", &lock, "0", "--plain=yes"]).trouble(&["--plain takes no value"]);
    run(&["row", &lock, "0", "--when"]).trouble(&["a value is missing after --when"]);
    run(&["read", "--witness", "--model", &lock]).trouble(&["choose one"]);
    run(&["row", &lock, "\u{1b}[2J"]).trouble(&["?[2J"]);
}

#[test]
fn wrong_numbers() {
    let lock = file("numbers.aag", LOCK);
    let large = "18446744073709551616";
    run(&["row", &lock, large]).trouble(&["SOURCE is too large", large]);
    run(&["row", &lock, "0", large]).trouble(&["a target is too large"]);
    run(&["step", &lock, "0", large]).trouble(&["INPUT is too large"]);
    run(&["step", &lock, "0x0", "0"]).trouble(&["STATE is a decimal number"]);
    run(&["terminal", &lock, "x"]).trouble(&["BAD is a decimal number"]);
    run(&["row", &lock, "0", "1:0"]).trouble(&["needs --outputs"]);
    run(&["row", "--outputs", "0", &lock, "0", "1"]).trouble(&["TARGET:OUTPUTS"]);
    run(&["row", "--outputs", "", &lock, "0"]).trouble(&["an output of --outputs"]);
    for condition in ["", "0", "0=2", "0=1 and 1=0"] {
        run(&["row", "--when", condition, &lock, "0"])
            .trouble(&["a condition is INPUT=0 or INPUT=1"]);
    }
    run(&["step", &lock, "18446744073709551615", "0"]).refused(12);
}

#[test]
fn words_that_are_not_text() {
    let word = OsString::from_vec(b"x\xff".to_vec());
    let lock = OsString::from(file("words.aag", LOCK));
    let [row, zero] = ["row", "0"].map(OsString::from);
    run_on(b"", std::slice::from_ref(&word)).trouble(&["is not a subcommand"]);
    run_on(b"", &[row.clone(), lock.clone(), word.clone()]).trouble(&["is not text"]);
    run_on(b"", &[row.clone(), word, zero.clone()]).trouble(&["No such file"]);
    let option = OsString::from_vec(b"--when=\xff".to_vec());
    run_on(b"", &[row.clone(), lock, zero.clone(), option]).trouble(&["is not text"]);
    // A file may have such a name.
    let name = place("").join(OsString::from_vec(b"lock-\xff.aag".to_vec()));
    std::fs::write(&name, LOCK).expect("a file of such a name");
    let shown = run_on(b"", &[row, name.into_os_string(), zero]);
    assert!(shown.accepted().contains("row from state 0"));
}

#[test]
fn standard_input_named_twice() {
    let lock = file("twice.aag", LOCK);
    let twice = run_on(FIRST.as_bytes(), &["compose", &lock, "-", "-"]);
    twice.trouble(&["standard input (-) can stand for one text only"]);
    run_on(MODEL.as_bytes(), &["compose", "-", "-"]).trouble(&["one text only"]);
}

#[test]
fn outputs_that_cannot_be_written() {
    let lock = file("outputs.aag", LOCK);
    shell("\"$0\" row \"$1\" 1 1 > /dev/full", &lock)
        .trouble(&["standard output", "No space left"]);
    shell("\"$0\" --help > /dev/full", &lock).trouble(&["standard output", "No space left"]);
    let [model, first] = [("o0", MODEL), ("o1", FIRST)].map(|(name, text)| file(name, text));
    let compose = |output| run(&["compose", "--output", output, &model, &first, &first]);
    compose("/dev/full").trouble(&["/dev/full", "No space left"]);
    compose("no-such-folder/file").trouble(&["no-such-folder/file", "No such file"]);
}

/// A reader that goes, or was never there. Where standard output is closed, what is written there
/// is lost as in /dev/null.
#[test]
fn readers_that_go() {
    let lock = file("largest-piped.aag", largest_lock());
    let line = "{ \"$0\" row \"$1\" 1; echo \"status $?\" >&2; } | head -n 1";
    let shown = shell(line, &lock);
    assert!(shown.out.contains("row from state 1"), "{}", shown.out);
    assert_eq!(shown.error, "status 2\n");
    let closed = shell("\"$0\" row \"$1\" 1 >&-", &file("closed.aag", LOCK));
    assert_eq!(closed.accepted(), "");
}

/// Nothing can be said then, but the status is right.
#[test]
fn standard_error_that_cannot_be_written() {
    let lock = file("error.aag", LOCK);
    for (line, status) in [
        ("\"$0\" row \"$1\" 9 2> /dev/full", 1),
        ("\"$0\" row \"$1\" x 2> /dev/full", 2),
        ("\"$0\" row \"$1\" 9 2>&-", 1),
    ] {
        let shown = shell(line, &lock);
        assert_eq!((shown.status, &shown.out[..]), (Some(status), ""), "{line}");
    }
}
