//! Runs the gate, `.ci/run`, over an `rt`, a `cargo` and checks that only say what a trial asks for.

#![cfg(unix)]

mod apart;

use apart::Apart;
use std::fs;
use std::io::{BufRead, BufReader};
use std::os::unix::fs::{PermissionsExt, symlink};
use std::path::{Path, PathBuf};
use std::process::{Command, Stdio};
use std::sync::{Mutex, MutexGuard, PoisonError};

/// What the gate and the scripts of a trial may call besides: nothing else is on the path.
const TOOLS: [&str; 12] = [
    "bash", "sh", "cat", "cp", "dirname", "mkdir", "mktemp", "mv", "rm", "sleep", "tail", "tee",
];

/// What `rt ci` says before its last line where all is well.
const OK: &str = "rt: ok; handles allowed: none; must-fail edits: 55 refused, 10 of them only by a limit; \
                  every proof and must-fail edit was done in this run";

const RT: &str = r#"
[ -d .ci ] && folder=top || folder=${PWD##*/}
echo "rt $* in $folder" >>"$CALLS"
[ "$1" = lib ] && mkdir -p out && echo 'proved' >out/libnitrasovy_c.a && echo 'all is proved'
[ "$1" = ci ] && echo 'first line' && echo 'second line' >&2 && echo "$OK" && echo '91 passed, 0 failed'
exit 0"#;

const CARGO: &str = r#"
echo "cargo $* lib=${NITRASOVY_LIB-none}" >>"$CALLS"
echo 'test result: ok. 12 passed; 0 failed'"#;

const TESTS: &str =
    "cargo test --release --offline --no-fail-fast --manifest-path bindings/rust/Cargo.toml";

/// One trial at a time: a script that is being written while another test starts a program cannot be
/// run until that program has begun.
static TURN: Mutex<()> = Mutex::new(());

/// A repository with nothing but the gate, what it makes the archive by, and two checks.
struct Trial {
    folder: Apart,
    _turn: MutexGuard<'static, ()>,
}

struct Ran {
    code: Option<i32>,
    lines: Vec<String>,
    calls: String,
}

impl Trial {
    /// A crate that stands by itself has no gate.
    fn new(name: &str) -> Option<Self> {
        let root = Path::new(env!("CARGO_MANIFEST_DIR")).join("../..");
        if !root.join("crates.txt").is_file() {
            return None;
        }
        let turn = TURN.lock().unwrap_or_else(PoisonError::into_inner);
        let folder = Apart::new(&format!("gate {name}"));
        for part in ["bin", "elsewhere", "crates/nitrasovy_c/src"] {
            fs::create_dir_all(folder.join(part)).unwrap();
        }
        for part in [".ci", "checks", "tools"] {
            fs::create_dir(folder.join(part)).unwrap();
        }
        for script in [".ci/run", "tools/archive"] {
            fs::copy(root.join(script), folder.join(script)).unwrap();
        }
        for tool in TOOLS {
            symlink(found(tool), folder.join("bin").join(tool)).unwrap();
        }
        let trial = Self {
            folder,
            _turn: turn,
        };
        trial.script("bin/rt", RT);
        trial.script("bin/cargo", CARGO);
        trial.script("checks/first", "echo 'first ran'");
        trial.script("checks/second", "echo 'second ran'");
        Some(trial)
    }

    fn script(&self, name: &str, text: &str) {
        let file = self.folder.join(name);
        fs::write(&file, format!("#!/bin/sh\n{text}\n")).unwrap();
        fs::set_permissions(&file, fs::Permissions::from_mode(0o755)).unwrap();
    }

    fn gate(&self) -> Command {
        let mut gate = Command::new(self.folder.join(".ci/run"));
        gate.current_dir(self.folder.join("elsewhere"))
            .env("PATH", self.folder.join("bin"))
            .env("CALLS", self.folder.join("calls"))
            .env("OK", OK)
            .env("NITRASOVY_LIB", "another");
        gate
    }

    fn run(&self) -> Ran {
        let output = self.gate().output().unwrap();
        assert!(output.stderr.is_empty(), "{output:?}");
        let text = String::from_utf8(output.stdout).unwrap();
        Ran {
            code: output.status.code(),
            lines: text.lines().map(String::from).collect(),
            calls: fs::read_to_string(self.folder.join("calls")).unwrap_or_default(),
        }
    }
}

/// The first file of this name on the path.
fn found(tool: &str) -> PathBuf {
    let path = std::env::var_os("PATH").unwrap();
    let mut files = std::env::split_paths(&path).map(|folder| folder.join(tool));
    files
        .find(|file| file.is_file())
        .unwrap_or_else(|| panic!("no {tool}"))
}

impl Ran {
    fn ends(&self, code: i32, last: &str) {
        assert_eq!(self.code, Some(code), "{:#?}", self.lines);
        assert_eq!(
            self.lines.last().map(String::as_str),
            Some(last),
            "{:#?}",
            self.lines
        );
    }

    /// Says these lines in this order, possibly with others between them. A line that ends in `(`
    /// stands for those that begin so.
    fn says(&self, lines: &[&str]) {
        let mut said = self.lines.iter();
        for line in lines {
            let same =
                |said: &String| said == line || line.ends_with('(') && said.starts_with(line);
            assert!(said.any(same), "{line}: {:#?}", self.lines);
        }
    }
}

#[test]
fn all_steps_run_and_the_tally_is_the_last_line() {
    let Some(trial) = Trial::new("passes") else {
        return;
    };
    let ran = trial.run();
    ran.ends(0, "91 passed, 0 failed");
    assert_eq!(
        ran.lines[..4],
        ["first line", "second line", OK, "91 passed, 0 failed"]
    );
    ran.says(&[
        "host: tools/archive nitrasovy ..",
        "all is proved",
        "the archive is target/staticlib/libnitrasovy.a",
        "host: tools/archive nitrasovy passed (",
        "host: the tests of the Rust crate and the command ..",
        "test result: ok. 12 passed; 0 failed",
        "host: the tests of the Rust crate and the command passed (",
        "host: checks/first ..",
        "first ran",
        "host: checks/first passed (",
        "host: checks/second ..",
        "second ran",
        "host: checks/second passed (",
    ]);
    assert_eq!(
        ran.calls,
        format!("rt ci in top\nrt lib in nitrasovy_c\n{TESTS} lib=none\n")
    );
    let archive = trial.folder.join("target/staticlib/libnitrasovy.a");
    assert_eq!(fs::read_to_string(archive).unwrap(), "proved\n");
}

#[test]
fn a_refused_proof_ends_the_run() {
    let Some(trial) = Trial::new("refused") else {
        return;
    };
    let rt =
        "echo \"rt $*\" >>\"$CALLS\"\necho 'rt: FAILED: text'\necho '90 passed, 1 failed'\nexit 3";
    trial.script("bin/rt", rt);
    let ran = trial.run();
    ran.ends(3, "90 passed, 1 failed");
    assert_eq!(ran.lines.len(), 2);
    assert_eq!(ran.calls, "rt ci\n");
}

#[test]
fn what_the_proofs_say_is_shown_at_once() {
    let Some(trial) = Trial::new("stream") else {
        return;
    };
    // Waits for the reader of its first line, at most about ten seconds.
    let rt = "[ \"$1\" = ci ] || { mkdir out; echo proved >out/libnitrasovy_c.a; exit; }\n\
              echo 'first line'\nturns=0\nuntil [ -e \"$CALLS\" ] || [ $turns -ge 100 ]; do sleep 0.1; turns=$((turns + 1)); done\n\
              [ -e \"$CALLS\" ] || exit 4\necho \"$OK\"\necho '91 passed, 0 failed'";
    trial.script("bin/rt", rt);
    let mut gate = trial.gate().stdout(Stdio::piped()).spawn().unwrap();
    let mut lines = BufReader::new(gate.stdout.take().unwrap()).lines();
    assert_eq!(lines.next().unwrap().unwrap(), "first line");
    fs::write(trial.folder.join("calls"), "").unwrap();
    assert_eq!(
        lines.map(Result::unwrap).last().unwrap(),
        "91 passed, 0 failed"
    );
    assert_eq!(gate.wait().unwrap().code(), Some(0));
}

#[test]
fn another_last_line_is_no_pass() {
    for (name, said) in [
        ("none", ""),
        ("words", "all is proved"),
        ("failed", "90 passed, 1 failed"),
        ("nothing", "0 passed, 0 failed"),
        ("behind", "91 passed, 0 failed\nand more"),
        ("around", "of 91 passed, 0 failed"),
    ] {
        let Some(trial) = Trial::new(&format!("last-{name}")) else {
            return;
        };
        let rt = format!("echo \"rt $*\" >>\"$CALLS\"\nprintf '%s\\n' '{said}'");
        trial.script("bin/rt", &rt);
        let ran = trial.run();
        ran.ends(
            1,
            "gate: rt ci ended with status 0 and not in 'N passed, 0 failed'",
        );
        assert_eq!(ran.calls, "rt ci\n");
    }
}

/// An edit that cannot be applied or read shows nothing, and fails nothing in `rt ci`.
#[test]
fn a_bad_edit_fails_the_run() {
    let bad = "gate: rt ci has bad must-fail edits, which no contract refuses";
    let unread = "gate: rt ci ended with status 0 and has no line 'rt: ok', which tells of bad must-fail edits";
    for (name, ok, last) in [
        (
            "one",
            "rt: ok; handles allowed: none; must-fail edits: 54 refused, 1 bad; every proof",
            bad,
        ),
        (
            "many",
            "rt: ok; handles allowed: none; must-fail edits: 40 refused, 3 of them only by a limit, 15 bad; \
             done in this run: 2 of the 60 proofs (of crates and of their tests)",
            bad,
        ),
        (
            "all",
            "rt: ok; handles allowed: none; must-fail edits: 0 refused, 100 bad",
            bad,
        ),
        ("no-line", "rt: FAILED: text", unread),
    ] {
        let Some(trial) = Trial::new(&format!("bad {name}")) else {
            return;
        };
        let rt = format!("echo \"rt $*\" >>\"$CALLS\"\necho '{ok}'\necho '91 passed, 0 failed'");
        trial.script("bin/rt", &rt);
        let ran = trial.run();
        ran.ends(1, last);
        assert_eq!(ran.calls, "rt ci\n");
    }
}

#[test]
fn no_bad_edit_passes() {
    for (name, ok) in [
        (
            "none",
            "rt: ok; handles allowed: none; every proof was done in this run",
        ),
        (
            "zero",
            "rt: ok; handles allowed: none; must-fail edits: 55 refused, 0 bad; every proof was done in this run",
        ),
    ] {
        let Some(trial) = Trial::new(&format!("good {name}")) else {
            return;
        };
        trial.script("bin/rt", &RT.replace("\"$OK\"", &format!("'{ok}'")));
        trial.run().ends(0, "91 passed, 0 failed");
    }
}

#[test]
fn a_failing_rust_test_fails_the_run() {
    let Some(trial) = Trial::new("rust") else {
        return;
    };
    trial.script("bin/cargo", "echo 'test wrong ... FAILED'\nexit 101");
    let ran = trial.run();
    ran.ends(
        1,
        "host: the tests of the Rust crate and the command failed",
    );
    // What comes after runs nevertheless.
    ran.says(&[
        "test wrong ... FAILED",
        "host: the tests of the Rust crate and the command failed (",
        "first ran",
        "second ran",
    ]);
}

#[test]
fn without_cargo_the_run_fails() {
    let Some(trial) = Trial::new("cargo") else {
        return;
    };
    fs::remove_file(trial.folder.join("bin/cargo")).unwrap();
    let ran = trial.run();
    ran.ends(
        1,
        "host: the tests of the Rust crate and the command (no cargo on the path) failed",
    );
    ran.says(&["first ran", "second ran"]);
}

#[test]
fn without_the_archive_the_run_fails() {
    let Some(trial) = Trial::new("archive") else {
        return;
    };
    let rt = format!("[ \"$1\" = ci ] || exit 2\n{RT}");
    trial.script("bin/rt", &rt);
    let ran = trial.run();
    ran.ends(1, "host: tools/archive nitrasovy failed");
    ran.says(&[
        "host: the tests of the Rust crate and the command: not run, since there is no archive",
        "first ran",
        "second ran",
    ]);
    assert_eq!(ran.calls, "rt ci in top\n");
}

#[test]
fn a_failing_check_fails_the_run() {
    let Some(trial) = Trial::new("check") else {
        return;
    };
    trial.script("checks/first", "echo 'a wrong file'\nexit 1");
    let ran = trial.run();
    ran.ends(1, "host: checks/first failed");
    ran.says(&["a wrong file", "host: checks/first failed (", "second ran"]);
}

#[test]
fn each_failing_step_is_named() {
    let Some(trial) = Trial::new("several") else {
        return;
    };
    trial.script("bin/cargo", "exit 101");
    // A file that cannot be run is not passed over.
    let file = trial.folder.join("checks/second");
    fs::set_permissions(file, fs::Permissions::from_mode(0o644)).unwrap();
    trial.run().ends(
        1,
        "host: the tests of the Rust crate and the command, checks/second failed",
    );
}
