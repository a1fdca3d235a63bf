//! A line on the screen for work that takes over a second.

use std::io::{IsTerminal, Write};
use std::sync::mpsc::{Receiver, RecvTimeoutError, channel};
use std::thread::{Builder, scope};
use std::time::{Duration, Instant};

const PERIOD: Duration = Duration::from_secs(1);

/// Does the work; where standard error is a terminal, a line there says every second that it goes
/// on, and is gone at the end.
pub fn shown<T>(what: &str, work: impl FnOnce() -> T) -> T {
    let screen = std::io::stderr();
    if screen.is_terminal() {
        watched(what, PERIOD, screen, work)
    } else {
        work()
    }
}

fn watched<T>(
    what: &str,
    period: Duration,
    screen: impl Write + Send,
    work: impl FnOnce() -> T,
) -> T {
    let (working, ended) = channel();
    scope(|scope| {
        // Without a thread there is no line; the work is what counts.
        let _ = Builder::new().spawn_scoped(scope, move || show(what, period, screen, &ended));
        let result = work();
        drop(working);
        result
    })
}

fn show(what: &str, period: Duration, mut screen: impl Write, ended: &Receiver<()>) {
    let start = Instant::now();
    let mut shown = false;
    while ended.recv_timeout(period) == Err(RecvTimeoutError::Timeout) {
        let seconds = start.elapsed().as_secs();
        let _ = write!(screen, "\rnitrasovy: {what}, {seconds} s").and_then(|()| screen.flush());
        shown = true;
    }
    if shown {
        let _ = write!(screen, "\r\x1b[K").and_then(|()| screen.flush());
    }
}

#[cfg(test)]
mod tests {
    use super::*;
    use std::thread::sleep;

    fn screen_after(work: Duration, period: Duration) -> String {
        let mut screen = Vec::new();
        assert_eq!(
            watched("reading", period, &mut screen, || {
                sleep(work);
                7
            }),
            7
        );
        String::from_utf8(screen).expect("text")
    }

    #[test]
    fn short_work_shows_nothing() {
        assert_eq!(screen_after(Duration::ZERO, Duration::from_secs(60)), "");
    }

    #[test]
    fn long_work_shows_a_line_and_takes_it_away() {
        let screen = screen_after(Duration::from_millis(300), Duration::from_millis(20));
        assert!(
            screen.starts_with("\rnitrasovy: reading, 0 s"),
            "{screen:?}"
        );
        assert!(screen.ends_with("\r\x1b[K"), "{screen:?}");
    }
}
