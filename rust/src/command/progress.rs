//! A line on standard error that shows that long work goes on.

use std::io::{self, IsTerminal, Write};
use std::sync::mpsc::{self, RecvTimeoutError};
use std::thread;
use std::time::{Duration, Instant};

/// How often the line is written; shorter work shows none.
const EVERY: Duration = Duration::from_millis(500);

/// Does the work. Meanwhile, if standard error is a terminal, a line there says what is done and how long it has
/// taken; not if standard output is one too, since the two would mix.
pub fn shown<T>(what: impl Fn() -> String + Send, work: impl FnOnce() -> T) -> T {
    if !io::stderr().is_terminal() || io::stdout().is_terminal() {
        return work();
    }
    let start = Instant::now();
    let (finished, waiting) = mpsc::channel::<()>();
    thread::scope(|scope| {
        scope.spawn(move || {
            let mut written = false;
            // the other end is dropped when the work is done
            while let Err(RecvTimeoutError::Timeout) = waiting.recv_timeout(EVERY) {
                let seconds = start.elapsed().as_secs();
                let _ = write!(io::stderr(), "\r{}, {seconds} s", what());
                written = true;
            }
            if written {
                // back to the line's start, and the rest of it away
                let _ = write!(io::stderr(), "\r\x1b[K");
            }
        });
        let result = work();
        drop(finished);
        result
    })
}
