//! Runs the command, and the texts it is run on.

use std::ffi::OsStr;
use std::fs;
use std::io::Write;
use std::path::PathBuf;
use std::process::{Command, Output, Stdio};

pub const PROGRAM: &str = env!("CARGO_BIN_EXE_nitrasovy");

/// The requirements' model K, its row `1 1`, and their composing case.
pub const LOCK: &str = "aag 3 1 1 1 1\n2\n4 6\n6\n6 4 2\n";
pub const ROW: &str = "rows 5\n0 1 3\n1 2 3 4\n3 2 1 4\n5 3 0 2 5\n8 1 4\n";
pub const MODEL: &str = "aag 1 0 1 0 0\n2 2\n";
pub const FIRST: &str = "aag 1 0 1 1 0\n2 2\n2\n";
pub const SECOND: &str = "aag 1 0 1 1 0\n2 2\n3\n";
pub const COMPOSED: &str = "aag 1 0 1 0 0 2 0 0 0\n2 2 0\n2\n3\nl0 = 2\nc\n\
    GCC FM 2026 composed-witness baseline v1\n";

/// What a run showed.
#[derive(Debug, PartialEq)]
pub struct Shown {
    pub status: Option<i32>,
    pub out: String,
    pub error: String,
}

impl Shown {
    fn of(output: &Output) -> Self {
        let text = |bytes: &[u8]| String::from_utf8_lossy(bytes).into_owned();
        Self {
            status: output.status.code(),
            out: text(&output.stdout),
            error: text(&output.stderr),
        }
    }

    /// Accepted, with nothing on standard error; what was written.
    pub fn accepted(self) -> String {
        assert_eq!(
            (self.status, &self.error[..]),
            (Some(0), ""),
            "{}",
            self.out
        );
        self.out
    }

    /// Refused for this reason, with nothing on standard output.
    pub fn refused(self, number: u8) {
        assert_eq!(
            (self.status, &self.out[..]),
            (Some(1), ""),
            "{}",
            self.error
        );
        let start = format!("refused {number}: ");
        assert!(self.error.starts_with(&start), "{}", self.error);
        assert_eq!(self.error.lines().count(), 1, "{}", self.error);
    }

    /// Status 2 with nothing on standard output and a message that has these parts.
    pub fn trouble(self, parts: &[&str]) {
        assert_eq!(
            (self.status, &self.out[..]),
            (Some(2), ""),
            "{}",
            self.error
        );
        assert!(self.error.starts_with("nitrasovy: "), "{}", self.error);
        assert!(!self.error.contains("panicked"), "{}", self.error);
        for part in parts {
            assert!(
                self.error.contains(part),
                "'{part}' is not in: {}",
                self.error
            );
        }
    }
}

/// Runs with these words and this standard input.
pub fn run_on<W: AsRef<OsStr>>(input: &[u8], words: &[W]) -> Shown {
    let mut child = Command::new(PROGRAM)
        .args(words)
        .current_dir(place(""))
        .stdin(Stdio::piped())
        .stdout(Stdio::piped())
        .stderr(Stdio::piped())
        .spawn()
        .expect("the program starts");
    // A run that needs no more of its input closes it.
    let _ = child.stdin.take().expect("piped").write_all(input);
    Shown::of(&child.wait_with_output().expect("the program ends"))
}

pub fn run(words: &[&str]) -> Shown {
    run_on(b"", words)
}

/// Runs with the words of a line, in the folder of the files.
pub fn line(words: &str) -> Shown {
    run(&words.split(' ').collect::<Vec<_>>())
}

/// Runs a line of the shell, in which `$0` is the program and `$1` the file.
pub fn shell(line: &str, file: &str) -> Shown {
    let output = Command::new("sh")
        .args(["-c", line, PROGRAM, file])
        .stdin(Stdio::null())
        .output()
        .expect("a shell");
    Shown::of(&output)
}

/// A place for a file of a test.
pub fn place(name: &str) -> PathBuf {
    PathBuf::from(env!("CARGO_TARGET_TMPDIR")).join(name)
}

/// A file with this text; its name.
pub fn file(name: &str, text: impl AsRef<[u8]>) -> String {
    let path = place(name);
    fs::write(&path, text).expect("a file for a test");
    path.into_os_string()
        .into_string()
        .expect("a name that is text")
}

/// A lock that has as many variables as a lock may have.
pub fn largest_lock() -> String {
    let mut text = String::from("aag 1000000 0 1 1 999999\n2 2000000\n3\n");
    (2..=1_000_000).for_each(|gate| text.push_str(&format!("{} 2 3\n", 2 * gate)));
    text
}
