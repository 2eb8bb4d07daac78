//! A line on a terminal that says how far long work is.
use std::{
    io::{IsTerminal, Write, stderr},
    sync::mpsc::{RecvTimeoutError, channel},
    thread,
    time::{Duration, Instant},
};

const FIRST: Duration = Duration::from_millis(800);
const EVERY: Duration = Duration::from_millis(200);

/// Shows nothing where the error output is no terminal.
pub struct Progress {
    terminal: bool,
    next: Instant,
    shown: bool,
}

impl Progress {
    pub fn new() -> Self {
        Progress { terminal: stderr().is_terminal(), next: Instant::now() + FIRST, shown: false }
    }

    /// Shows a line, if it is time for one.
    pub fn show(&mut self, text: impl FnOnce() -> String) {
        if self.terminal && Instant::now() >= self.next {
            let _ = write!(stderr(), "\r\x1b[K{}", text());
            self.next = Instant::now() + EVERY;
            self.shown = true;
        }
    }
}

impl Drop for Progress {
    fn drop(&mut self) {
        if self.shown {
            let _ = write!(stderr(), "\r\x1b[K");
        }
    }
}

/// Does long work, and shows meanwhile how many seconds it has taken: the library says nothing before it is done.
pub fn during<T>(what: &str, work: impl FnOnce() -> T) -> T {
    if !stderr().is_terminal() {
        return work();
    }
    let (done, end) = channel::<()>();
    thread::scope(|scope| {
        scope.spawn(move || {
            let (mut progress, begun) = (Progress::new(), Instant::now());
            while end.recv_timeout(EVERY) == Err(RecvTimeoutError::Timeout) {
                progress.show(|| format!("{what}: {} s", begun.elapsed().as_secs()));
            }
        });
        let result = work();
        drop(done);
        result
    })
}
