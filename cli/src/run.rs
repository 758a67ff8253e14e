//! A run: lines in, output out; what a line prints is sent off before the next line is read.
use crate::dialogue::Dialogue;
use crate::options::Manner;
use std::fs::File;
use std::io::{self, BufRead, BufReader, ErrorKind, IsTerminal, Write};
use std::ops::ControlFlow;
use std::path::Path;

/// How a run ended that went to the end of its lines.
#[derive(Clone, Copy, Debug, PartialEq, Eq)]
pub enum End {
    Well,
    /// What was expected wasn't printed, or nothing was expected of a script that is a test.
    Unmet,
    /// Some lines couldn't be carried out.
    Unreadable,
}

/// Plays a file, or standard input; at a terminal a slip doesn't end the run. `Err` is the message that does.
pub fn play(file: Option<&Path>, manner: Manner) -> Result<End, String> {
    let (output, errors) = (&mut io::stdout().lock(), &mut io::stderr());
    match file {
        None => {
            let keep_going = manner.keep_going || io::stdin().is_terminal();
            let manner = Manner { keep_going, ..manner };
            play_lines(io::stdin().lock(), "standard input", output, errors, manner)
        }
        Some(path) => {
            let name = path.display().to_string();
            let file = File::open(path).map_err(|error| format!("{name}: {error}"))?;
            play_lines(BufReader::new(file), &name, output, errors, manner)
        }
    }
}

fn play_lines(
    mut input: impl BufRead,
    name: &str,
    output: &mut impl Write,
    errors: &mut impl Write,
    manner: Manner,
) -> Result<End, String> {
    let mut dialogue = Dialogue::new(manner.explain, manner.check);
    let (mut line, mut unreadable, mut heard) = (Vec::new(), false, true);
    for number in 1u64.. {
        line.clear();
        if input.read_until(b'\n', &mut line).map_err(|error| format!("{name}: {error}"))? == 0 {
            break;
        }
        let message = match dialogue.take(&line) {
            Ok(turn) => {
                heard = heard && send(output, &turn.printed)?.is_continue();
                turn.unmet
            }
            Err(message) if manner.keep_going => {
                unreadable = true;
                Some(message)
            }
            Err(message) => return Err(format!("line {number}: {message}")),
        };
        if let Some(message) = message {
            tell(errors, &format!("line {number}: {message}"));
        }
        // A test goes on though nobody reads what it prints.
        if !heard && !manner.check {
            break;
        }
    }
    Ok(if unreadable { End::Unreadable } else { judged(&dialogue, manner, errors) })
}

/// Of a script that is a test: whether what was expected was printed. One that expects nothing tests nothing.
fn judged(dialogue: &Dialogue, manner: Manner, errors: &mut impl Write) -> End {
    match (dialogue.expected, dialogue.unmet) {
        _ if !manner.check => return End::Well,
        (0, _) => tell(errors, "no line expects anything"),
        (_, 0) => return End::Well,
        (expected, unmet) => tell(errors, &format!("{unmet} of {expected} lines that expect aren't met")),
    }
    End::Unmet
}

/// Tells of trouble. Nobody is left to tell if standard error is gone too.
pub fn tell(errors: &mut impl Write, message: &str) {
    let _ = writeln!(errors, "hawsermole: {message}");
}

/// Sends text off. `Break` says that nobody reads on, which is no trouble of ours.
pub fn send(output: &mut impl Write, text: &str) -> Result<ControlFlow<()>, String> {
    match output.write_all(text.as_bytes()).and_then(|()| output.flush()) {
        Ok(()) => Ok(ControlFlow::Continue(())),
        Err(error) if error.kind() == ErrorKind::BrokenPipe => Ok(ControlFlow::Break(())),
        Err(error) => Err(format!("standard output: {error}")),
    }
}

#[cfg(test)]
mod tests {
    use super::*;

    const PLAIN: Manner = Manner { explain: false, keep_going: false, check: false };

    /// The output, what is told on standard error, and the end.
    fn played_so(script: &[u8], manner: Manner) -> (String, String, Result<End, String>) {
        let (mut output, mut errors) = (Vec::new(), Vec::new());
        let result = play_lines(script, "here", &mut output, &mut errors, manner);
        (String::from_utf8(output).unwrap(), String::from_utf8(errors).unwrap(), result)
    }

    fn played(script: &[u8]) -> (String, Result<End, String>) {
        let (output, errors, result) = played_so(script, PLAIN);
        assert_eq!(errors, "");
        (output, result)
    }

    /// An output that takes some writes and then fails.
    struct Failing(usize, ErrorKind);

    impl Write for Failing {
        fn write(&mut self, bytes: &[u8]) -> io::Result<usize> {
            match self.0 {
                0 => Err(self.1.into()),
                _ => {
                    self.0 -= 1;
                    Ok(bytes.len())
                }
            }
        }

        fn flush(&mut self) -> io::Result<()> {
            Ok(())
        }
    }

    /// An input that fails after its lines.
    struct Torn;

    impl io::Read for Torn {
        fn read(&mut self, _: &mut [u8]) -> io::Result<usize> {
            Err(ErrorKind::ConnectionReset.into())
        }
    }

    #[test]
    fn a_last_line_without_an_end_is_played() {
        assert_eq!(played(b"setup 1 0\nLoadStart 1"), ("setup 0\n0  1 1 1>3\n".into(), Ok(End::Well)));
    }

    #[test]
    fn what_was_printed_stays_when_a_line_cannot_be_read() {
        let (output, result) = played(b"setup 1 0\n\n# next\nwhat\nsetup 1 0\n");
        assert_eq!(output, "setup 0\n");
        assert!(result.unwrap_err().starts_with("line 4: unknown word 'what'"));
    }

    #[test]
    fn a_closed_output_ends_the_run_quietly() {
        let mut output = Failing(1, ErrorKind::BrokenPipe);
        let result =
            play_lines(&b"dump\ndump\nnever read\n"[..], "here", &mut output, &mut Vec::new(), PLAIN);
        assert_eq!(result, Ok(End::Well));
    }

    #[test]
    fn a_slip_costs_nothing_where_the_run_keeps_going() {
        let keep_going = Manner { keep_going: true, ..PLAIN };
        let script = b"setup 1 0\nLoadStart\nload /no/where\nLoadStart 1\n";
        let (output, errors, result) = played_so(script, keep_going);
        assert_eq!((output.as_str(), result), ("setup 0\n0  1 1 1>3\n", Ok(End::Unreadable)));
        let told: Vec<&str> = errors.lines().collect();
        assert_eq!(told[0], "hawsermole: line 2: port missing: expected LoadStart PORT [START]");
        assert!(told[1].starts_with("hawsermole: line 3: /no/where: ") && told.len() == 2, "{errors}");
        assert_eq!(played_so(b"setup 1 0\n", keep_going).2, Ok(End::Well));
    }

    const CHECK: Manner = Manner { check: true, ..PLAIN };

    #[test]
    fn a_script_is_a_test() {
        let script = b"setup 1 0\nexpect setup 0\nLoadDone 1\nexpect 5 none\nLoadStart 1\nexpect 0 ..\n";
        assert_eq!(played_so(script, CHECK).1, "");
        assert_eq!(played_so(script, CHECK).2, Ok(End::Well));
        let script = b"setup 1 0\nexpect setup 1\nLoadDone 1\nexpect 5 none\n";
        let (output, errors, result) = played_so(script, CHECK);
        assert_eq!((output.as_str(), result), ("setup 0\n5  none\n", Ok(End::Unmet)));
        let told = "hawsermole: line 2: expected 'setup 1', printed 'setup 0'\n\
                    hawsermole: 1 of 2 lines that expect aren't met\n";
        assert_eq!(errors, told);
        assert_eq!(played(script).1, Ok(End::Well));
    }

    #[test]
    fn a_script_that_expects_nothing_is_no_test() {
        let (_, errors, result) = played_so(b"setup 1 0\n", CHECK);
        assert_eq!((errors.as_str(), result), ("hawsermole: no line expects anything\n", Ok(End::Unmet)));
    }

    /// It is judged to its end.
    #[test]
    fn a_test_goes_on_where_nobody_reads() {
        let (mut output, mut errors) = (Failing(1, ErrorKind::BrokenPipe), Vec::new());
        let script = &b"dump\nexpect end\ndump\nexpect never\n"[..];
        assert_eq!(play_lines(script, "here", &mut output, &mut errors, CHECK), Ok(End::Unmet));
        assert!(errors.starts_with(b"hawsermole: line 4: expected 'never', printed 'end'\n"));
    }

    #[test]
    fn other_trouble_is_told() {
        let mut output = Failing(1, ErrorKind::StorageFull);
        let mut errors = Vec::new();
        let result = play_lines(&b"dump\ndump\n"[..], "here", &mut output, &mut errors, PLAIN);
        assert!(result.unwrap_err().starts_with("standard output: "));
        let torn = BufReader::new(io::Read::chain(&b"dump\n"[..], Torn));
        let mut output = Vec::new();
        let result = play_lines(torn, "here", &mut output, &mut errors, PLAIN);
        assert!(result.unwrap_err().starts_with("here: "));
        assert_eq!(output, b"end\n");
    }
}
