//! The file for users without the tools.

use crate::trial::*;
use std::fs;
use std::path::Path;
use std::thread::sleep;
use std::time::Duration;

#[test]
fn the_package_has_what_a_user_needs() {
    let Some(trial) = Trial::new("package") else {
        return;
    };
    let pack = || -> Shown { trial.script().arg("--package").output().unwrap().into() };
    let file = trial
        .root
        .join("target/nitrasovy-1.2.3-x86_64-linux.tar.gz");
    let packed = pack();
    assert_eq!(
        packed.out,
        format!("{}\n", file.display()),
        "{}",
        packed.error
    );
    assert_eq!(trial.calls(), "RC");
    let bytes = fs::read(&file).unwrap();
    // In another second, with files of another time.
    sleep(Duration::from_millis(1100));
    trial.write("examples/bolus.aag", "text\n");
    assert_eq!(pack().error, "");
    assert!(bytes == fs::read(&file).unwrap(), "two packings differ");
    assert_eq!(trial.calls(), "");

    let unpacked = trial.root.with_file_name("unpacked");
    fs::create_dir(&unpacked).unwrap();
    let mut tar = trial.command(trial.tools.join("tar"));
    let tar = tar.arg("-xzf").arg(&file).current_dir(&unpacked).output();
    assert!(tar.unwrap().status.success());
    let mut files = Vec::new();
    list(&unpacked, &unpacked, &mut files);
    files.sort();
    let expected = "\
        .cargo/config.toml NOTICE README.md bindings/rust/Cargo.lock bindings/rust/Cargo.toml \
        bindings/rust/README.md bindings/rust/build.rs bindings/rust/build/found.rs bindings/rust/src/lib.rs \
        bindings/rust/tests/all.rs docs/REQUIREMENTS.md examples/bolus.aag include/nitrasovy.h \
        lib/libnitrasovy.a nitrasovy";
    let expected = expected.split_whitespace();
    let expected: Vec<_> = expected
        .map(|file| format!("nitrasovy-1.2.3/{file}"))
        .collect();
    assert_eq!(files, expected);
    let command = trial
        .command(unpacked.join("nitrasovy-1.2.3/nitrasovy"))
        .output();
    assert!(
        Shown::from(command.unwrap())
            .ran()
            .starts_with("over lists\n")
    );

    // What cannot be packed leaves the last package as it was.
    fs::remove_file(trial.root.join("NOTICE")).unwrap();
    pack().stopped(&["the package was not written"]);
    assert!(bytes == fs::read(&file).unwrap());
    trial.write("NOTICE", "text\n");
    trial.write("elsewhere/libnitrasovy.a", "elsewhere");
    let mut elsewhere = trial.script();
    elsewhere.arg("--package").env("NITRASOVY_LIB", "elsewhere");
    assert_eq!(elsewhere.output().unwrap().status.code(), Some(0));
    assert!(bytes != fs::read(&file).unwrap());
}

fn list(root: &Path, folder: &Path, files: &mut Vec<String>) {
    for entry in fs::read_dir(folder).unwrap() {
        let path = entry.unwrap().path();
        if path.is_dir() {
            list(root, &path, files);
        } else {
            files.push(
                path.strip_prefix(root)
                    .unwrap()
                    .to_str()
                    .unwrap()
                    .to_owned(),
            );
        }
    }
}
