//! A small repository for each trial, with scripts in the place of `rt` and `cargo`.

use crate::apart::Apart;
use std::fs;
use std::os::unix::fs::{PermissionsExt, symlink};
use std::path::{Path, PathBuf};
use std::process::{Child, Command, Output, Stdio};
use std::sync::{Mutex, MutexGuard};
use std::thread::sleep;
use std::time::{Duration, Instant};

/// One test at a time: a process that another test starts while a script is written would have that
/// script open, and it could not be run.
static ALONE: Mutex<()> = Mutex::new(());

/// All that the script and the trial's own scripts call; there is nothing else on their path.
const TOOLS: &str = "sh sed find cat touch rm mkdir mkfifo flock setsid readlink tar gzip env cp mv \
                     dirname sleep chmod ls";

/// What `TRIAL` says decides what it does. Of `lists`, which is proved already, it says nothing. The
/// archive has the sources that it was made from.
const RT: &str = r#"#!/bin/sh
echo "rt $* in ${PWD##*/}" >>../../calls
cd ../..
archive=crates/nitrasovy_c/out/libnitrasovy_c.a
mkdir -p crates/nitrasovy_c/out
crate() {
    echo "rt: chose --jobs 2 for $1"
    echo "fn $1::first: proved"
}
proved() {
    echo "logic logic/antt-project.json: libraries=16 files=2756 sum=dac8208d"
    echo "statements core: modules loaded=222 checked=0"
    echo "library lists: modules loaded=25 checked=0"
    echo "crate $1: modules loaded=0 checked=71"
    echo "logic=proved functions=1 sum=dac8208d libraries-built=trusted"
}
crate model
case ${TRIAL:-} in
fail)
    echo "fn model::second: no proof: \`search\` did not prove \`returns\`"
    proved model | sed 's/^logic=proved .*/logic=not-proved/'
    echo "rattle build: nothing was built, since only a proved crate is built"
    echo "rt: the library model did not build, so nothing above it was checked" >&2
    exit 1 ;;
hang)
    echo half >$archive
    sh -c 'echo $$ >hanging; exec sleep 20' ;;
edit) sleep 0.05; echo "// meant otherwise" >>crates/lists/src/lib.rt ;;
slow) sleep 0.4 ;;
esac
proved model
for name in nitrasovy nitrasovy_c; do
    crate $name
    proved $name
done
cat crates/lists/src/lib.rt crates/model/src/lib.rt >$archive
"#;

/// The command that it makes tells the archive, its words, its folder and its standard input.
const CARGO: &str = r#"#!/bin/sh
echo "cargo $*" >>calls
command=target/rust/release/nitrasovy
mkdir -p target/rust/release
case ${TRIAL:-} in
astray) echo "Finished, elsewhere"; exit ;;
unlinked | half)
    echo half >$command
    chmod +x $command
    [ $TRIAL = half ] || { echo "error: linking failed"; exit 101; }
    sh -c 'echo $$ >hanging; exec sleep 20' ;;
esac
echo "${NITRASOVY_LIB:-none}" >named
{
    echo '#!/bin/sh'
    echo "echo 'over $(cat "${NITRASOVY_LIB:-target/staticlib}/libnitrasovy.a")'"
    echo 'printf "<%s>" "$@"'
    echo 'echo " in ${PWD##*/}"'
    echo 'cat'
    echo 'exit ${STATUS:-0}'
} >$command
chmod +x $command
"#;

/// What the script makes the archive by.
const ARCHIVE: &str = "tools/archive";
const CRATES: &str = "\
# All.
lists:
model: lists
nitrasovy: lists model
nitrasovy_c staticlib: lists model nitrasovy # exports
probe: lists model nitrasovy
";

pub const RT_CALL: &str = "rt lib in nitrasovy_c";
pub const CARGO_CALL: &str = "cargo build --release --offline --manifest-path bindings/rust/Cargo.toml --bin \
                          nitrasovy --target-dir target/rust";

pub struct Trial {
    pub root: PathBuf,
    pub tools: PathBuf,
    _place: Apart,
    _alone: MutexGuard<'static, ()>,
}

pub struct Shown {
    pub status: Option<i32>,
    pub out: String,
    pub error: String,
}

impl From<Output> for Shown {
    fn from(output: Output) -> Self {
        let text = |bytes: Vec<u8>| String::from_utf8(bytes).expect("text");
        Self {
            status: output.status.code(),
            out: text(output.stdout),
            error: text(output.stderr),
        }
    }
}

impl Shown {
    /// The command ran; what it wrote.
    pub fn ran(self) -> String {
        assert_eq!(self.status, Some(0), "{}", self.error);
        assert!(self.out.starts_with("over "), "{}", self.out);
        self.out
    }

    /// Nothing ran, and the last line says why.
    pub fn stopped(self, parts: &[&str]) {
        assert_eq!(
            (self.status, &self.out[..]),
            (Some(2), ""),
            "{}",
            self.error
        );
        let sentence = self.error.lines().last().unwrap_or_default();
        assert!(sentence.starts_with("nitrasovy: "), "{}", self.error);
        for part in parts {
            assert!(self.error.contains(part), "'{part}': {}", self.error);
        }
    }
}

impl Trial {
    /// A repository with a space in its name; none where the crate stands by itself.
    pub fn new(name: &str) -> Option<Self> {
        let script = Path::new(env!("CARGO_MANIFEST_DIR")).join("../../nitrasovy");
        let listed = script.with_file_name("crates.txt");
        listed.is_file().then(|| {
            let alone = ALONE
                .lock()
                .unwrap_or_else(|poisoned| poisoned.into_inner());
            let place = Apart::new(&format!("start {name}"));
            let trial = Self {
                root: place.join("its root"),
                tools: place.join("tools"),
                _place: place,
                _alone: alone,
            };
            trial.furnish(&script);
            trial
        })
    }

    pub fn furnish(&self, script: &Path) {
        fs::create_dir_all(&self.tools).unwrap();
        let path = std::env::var_os("PATH").unwrap_or_default();
        for tool in TOOLS.split_whitespace() {
            if let Some(found) = std::env::split_paths(&path)
                .map(|folder| folder.join(tool))
                .find(|found| found.is_file())
            {
                symlink(found, self.tools.join(tool)).unwrap();
            }
        }
        for (name, text) in [("rt", RT), ("cargo", CARGO)] {
            fs::write(self.tools.join(name), text).unwrap();
            fs::set_permissions(self.tools.join(name), fs::Permissions::from_mode(0o755)).unwrap();
        }
        self.put("README.md", "Read me.\n");
        fs::copy(script, self.root.join("nitrasovy")).unwrap();
        self.put(ARCHIVE, "");
        fs::copy(script.with_file_name(ARCHIVE), self.root.join(ARCHIVE)).unwrap();
        self.put("crates.txt", CRATES);
        for name in ["lists", "model", "nitrasovy", "nitrasovy_c", "probe"] {
            self.put(&format!("crates/{name}/src/lib.rt"), &format!("{name}\n"));
            for part in ["specs/One.antt", "proofs/one.antt", "must-fail/one.edit"] {
                self.put(&format!("crates/{name}/{part}"), "text\n");
            }
        }
        self.put(
            "bindings/rust/Cargo.toml",
            "[package]\nname = \"nitrasovy\"\nversion = \"1.2.3\"\nrust-version = \"1.95\"\n",
        );
        for file in [
            ".cargo/config.toml",
            "NOTICE",
            "bindings/rust/Cargo.lock",
            "bindings/rust/README.md",
            "bindings/rust/build.rs",
            "bindings/rust/build/found.rs",
            "bindings/rust/src/lib.rs",
            "bindings/rust/tests/all.rs",
            "bindings/rust/target/made",
            "docs/REQUIREMENTS.md",
            "docs/PROVED.md",
            "examples/bolus.aag",
            "include/nitrasovy.h",
        ] {
            self.put(file, "text\n");
        }
    }

    /// An edit, at another time than all before it.
    pub fn write(&self, file: &str, text: &str) {
        sleep_a_tick();
        self.put(file, text);
    }

    pub fn put(&self, file: &str, text: &str) {
        let file = self.root.join(file);
        fs::create_dir_all(file.parent().unwrap()).unwrap();
        fs::write(file, text).unwrap();
    }

    pub fn command(&self, program: impl AsRef<Path>) -> Command {
        let mut command = Command::new(program.as_ref());
        command
            .env_clear()
            .env("PATH", &self.tools)
            .current_dir(&self.root)
            .stdin(Stdio::null())
            .stdout(Stdio::piped())
            .stderr(Stdio::piped());
        command
    }

    pub fn script(&self) -> Command {
        self.command(self.root.join("nitrasovy"))
    }

    pub fn start(&self) -> Shown {
        self.script().output().expect("it starts").into()
    }

    pub fn start_with(&self, variable: &str, value: &str) -> Shown {
        let mut script = self.script();
        script
            .env(variable, value)
            .output()
            .expect("it starts")
            .into()
    }

    /// The calls since the last time, R for rt and C for cargo.
    pub fn calls(&self) -> String {
        let file = self.root.join("calls");
        let calls = fs::read_to_string(&file).unwrap_or_default();
        let _ = fs::remove_file(file);
        let letter = |call| match call {
            RT_CALL => 'R',
            CARGO_CALL => 'C',
            other => panic!("{other}"),
        };
        calls.lines().map(letter).collect()
    }

    pub fn without(&self, tool: &str) {
        fs::remove_file(self.tools.join(tool)).unwrap();
    }

    /// Starts a build that hangs, and sends this signal to the script alone; all has ended after it.
    pub fn interrupt(&self, trial: &str, signal: &str) -> Shown {
        let hanging = self.root.join("hanging");
        let _ = fs::remove_file(&hanging);
        let child = self.script().env("TRIAL", trial).spawn().unwrap();
        let hangs = until(|| {
            fs::read_to_string(&hanging)
                .ok()
                .filter(|id| id.ends_with('\n'))
        });
        let sent = Instant::now();
        send(&child, signal);
        let shown = child.wait_with_output().unwrap().into();
        assert!(sent.elapsed() < Duration::from_secs(10), "it went on");
        // One that has ended may still be listed, as a zombie.
        let stat = Path::new("/proc").join(hangs.trim()).join("stat");
        until(|| match fs::read_to_string(&stat) {
            Ok(stat) => stat.contains(") Z ").then_some(()),
            Err(_) => Some(()),
        });
        shown
    }
}

pub fn sleep_a_tick() {
    sleep(Duration::from_millis(12));
}

pub fn until<T>(found: impl Fn() -> Option<T>) -> T {
    let began = Instant::now();
    loop {
        if let Some(it) = found() {
            return it;
        }
        assert!(began.elapsed() < Duration::from_secs(10), "waited in vain");
        sleep(Duration::from_millis(5));
    }
}

/// Several times, as when the process and its group are sent it.
pub fn send(child: &Child, signal: &str) {
    let id = child.id().to_string();
    let mut kill = Command::new("sh");
    let line = "for i in 1 2 3 4 5 6 7 8; do kill -s \"$0\" \"$1\" 2>/dev/null; done; true";
    kill.args(["-c", line, signal, &id]);
    assert!(kill.status().unwrap().success());
}
