//! Compares the proved library with the published Rust that it ports.

use std::process::ExitCode;

#[cfg(published)]
fn main() -> ExitCode {
    use differential::{arguments, sample};
    let arguments = match arguments::read(std::env::args().skip(1)) {
        Ok(arguments) => arguments,
        Err(error) => {
            eprintln!("{error}\n{}", arguments::USAGE);
            return ExitCode::from(2);
        }
    };
    let good = if arguments.sample {
        sample::run(arguments.self_test)
    } else if arguments.self_test {
        arguments.layer.self_test(&arguments.settings)
    } else {
        arguments.layer.compare(&arguments.settings)
    };
    if good {
        ExitCode::SUCCESS
    } else {
        ExitCode::FAILURE
    }
}

#[cfg(not(published))]
fn main() -> ExitCode {
    println!("the published Rust files are absent: nothing was compared");
    ExitCode::SUCCESS
}
