//! A sign of life for work that takes longer than a second, on a terminal only.
use std::io::{self, IsTerminal, Write};
use std::sync::mpsc::{self, Receiver, RecvTimeoutError};
use std::thread;
use std::time::Duration;

/// Carries work out, and tells a terminal on standard error each second that it goes on.
pub fn watched<T>(what: &str, work: impl FnOnce() -> T) -> T {
    if !io::stderr().is_terminal() {
        return work();
    }
    let (done, ended) = mpsc::channel();
    thread::scope(|scope| {
        scope.spawn(move || tell(what, &ended, &mut io::stderr(), Duration::from_secs(1)));
        let result = work();
        drop(done);
        result
    })
}

/// A line that is written over each time, and taken away at the end. Nobody is left to tell if standard error is gone.
fn tell(what: &str, ended: &Receiver<()>, errors: &mut impl Write, every: Duration) {
    let (mut turns, mut width) = (0u64, 0);
    while ended.recv_timeout(every) == Err(RecvTimeoutError::Timeout) {
        turns += 1;
        let line = format!("{what}: {turns} s");
        width = line.len();
        let _ = write!(errors, "\r{line}").and_then(|()| errors.flush());
    }
    if turns > 0 {
        let _ = write!(errors, "\r{:width$}\r", "").and_then(|()| errors.flush());
    }
}

#[cfg(test)]
mod tests {
    use super::*;

    #[test]
    fn short_work_is_not_told() {
        let (done, ended) = mpsc::channel();
        drop(done);
        let mut told = Vec::new();
        tell("judging", &ended, &mut told, Duration::from_secs(1));
        assert_eq!(told, b"");
    }

    /// The sender goes as soon as the second line is there.
    #[test]
    fn long_work_is_told_and_the_line_taken_away() {
        struct Line(Vec<u8>, Option<mpsc::Sender<()>>);
        impl Write for Line {
            fn write(&mut self, bytes: &[u8]) -> io::Result<usize> {
                self.0.extend(bytes);
                if self.0.ends_with(b"2 s") {
                    self.1 = None;
                }
                Ok(bytes.len())
            }
            fn flush(&mut self) -> io::Result<()> {
                Ok(())
            }
        }
        let (done, ended) = mpsc::channel();
        let mut line = Line(Vec::new(), Some(done));
        tell("judging", &ended, &mut line, Duration::from_millis(1));
        assert_eq!(line.0, b"\rjudging: 1 s\rjudging: 2 s\r            \r");
    }
}
