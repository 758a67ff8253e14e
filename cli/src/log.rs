//! `log`: writes the log of a script, as document 01 answers it.
use crate::entry::{self, misfit, of_document_01};
use crate::numbers::row;
use crate::print::{self, Answer};
use crate::script::{self, Command, Sent, SetUp};
use crate::values::{self, Words};
use hawsermole::{judge, Model, Parts, Refusal, Report, Row, Tool, Verdict};
use std::fs;
use std::io::{self, ErrorKind, IsTerminal, Read, Write};
use std::path::Path;

/// What a script asks of a log: P, B and the inputs.
#[derive(Debug, PartialEq, Eq)]
struct Run {
    ports: u8,
    places: u8,
    inputs: Vec<Sent>,
}

/// Writes the log of a script to a file, and gives what is printed of it; or to standard output, and gives nothing.
pub fn write(script: Option<&Path>, file: Option<&Path>) -> Result<String, String> {
    if file.is_none() && io::stdout().is_terminal() {
        return Err("a log is bytes, not text: name a FILE to write it to".into());
    }
    let run = read(&text(script)?)?;
    let log = log_of(&run);
    match file {
        Some(path) => {
            fs::write(path, &log).map_err(|error| format!("{}: {error}", path.display()))?;
            Ok(format!("log {} {}\n", run.inputs.len(), log.len()))
        }
        None => match io::stdout().lock().write_all(&log) {
            Err(error) if error.kind() != ErrorKind::BrokenPipe => Err(format!("standard output: {error}")),
            _ => Ok(String::new()),
        },
    }
}

fn text(script: Option<&Path>) -> Result<Vec<u8>, String> {
    match script {
        Some(path) => fs::read(path).map_err(|error| format!("{}: {error}", path.display())),
        None => {
            let mut bytes = Vec::new();
            let read = io::stdin().lock().read_to_end(&mut bytes);
            read.map(|_| bytes).map_err(|error| format!("standard input: {error}"))
        }
    }
}

/// A script of a set-up and inputs alone. `Err` names the first line that a log can't hold.
fn read(script: &[u8]) -> Result<Run, String> {
    let mut run = None;
    for (number, line) in (1u64..).zip(script.split(|&byte| byte == b'\n')) {
        take(&mut run, line).map_err(|message| format!("line {number}: {message}"))?;
    }
    run.ok_or_else(|| "no set-up: a log begins with setup P B".into())
}

fn take(run: &mut Option<Run>, line: &[u8]) -> Result<(), String> {
    let sent = match (script::read(line)?, &run) {
        (Command::Nothing, _) => return Ok(()),
        (Command::Setup(_), Some(_)) => return Err("a log has one set-up".into()),
        (Command::Setup(numbers), None) => {
            *run = Some(set_up(numbers)?);
            return Ok(());
        }
        (Command::Named(sent), _) if sent.number > row::LAST_OF_01 => return Err(requested(&sent)),
        (Command::In(sent) | Command::Named(sent), _) => sent,
        _ => {
            let word = Words::of(line).next().unwrap_or_default();
            let word = values::shown(word);
            return Err(format!("'{word}' is no input: a log holds a set-up and inputs alone"));
        }
    };
    let run = run.as_mut().ok_or("no set-up before it: a log begins with setup P B")?;
    match misfit(&sent) {
        Some(why) => Err(why),
        None => {
            run.inputs.push(sent);
            Ok(())
        }
    }
}

/// An input of a request: a script of them is another run than document 01's, and is not taken for it. By its number it
/// is an entry as of any number that has no row.
fn requested(sent: &Sent) -> String {
    let name = Row::numbered(sent.number).map_or("", |row| row.name);
    let instead = match sent.number {
        ..=row::CANCEL_ALL_CARRIER_OUT => "whose CarrierOut moves the carrier at once",
        row::CONTINUE => "which holds no pod",
        _ => "which has no predictions",
    };
    format!(
        "'{name}' is no input of document 01, {instead}: leave it out, \
         or write in {} .., which is answered 1",
        sent.number
    )
}

fn set_up(SetUp { ports, places, setting, timeout }: SetUp) -> Result<Run, String> {
    match (ports, places, setting, timeout) {
        (1..=4, 0..=16, 0, 0) => Ok(Run { ports: ports as u8, places: places as u8, inputs: Vec::new() }),
        (1..=4, 0..=16, ..) => {
            Err("setting time or timeout: a log has none, since document 01 has no predictions".into())
        }
        _ => Err("set-up is refused: ports are 1 to 4 and buffer places 0 to 16".into()),
    }
}

/// The log that document 01 gives. Each entry is first written by what the whole tool answers; the judge names the
/// first that isn't document 01's, and what it should show, and from there on it is done again. So what comes out is
/// what the judge agrees with, and mostly at the first try.
fn log_of(run: &Run) -> Vec<u8> {
    let mut log = entry::head(run.ports, run.places);
    let mut left = run.inputs.iter();
    let mut judged = Tool::none();
    judge(&log, &mut judged);
    loop {
        write_guesses(&mut log, judged.clone(), left);
        let Verdict::Disagrees { entry, at, given } = judge(&log, &mut judged) else { return log };
        left = correct(&mut log, run, entry as usize, at, &given);
    }
}

fn write_guesses<'a>(log: &mut Vec<u8>, mut tool: Tool, inputs: impl Iterator<Item = &'a Sent>) {
    for sent in inputs {
        let (answer, reports) = guess(&mut tool, sent);
        entry::write(log, sent, answer, &reports);
    }
}

/// What document 01 will give, by the whole tool: its answer but for CarrierOut, and 1 to the rows of requests; no
/// models 8 and 9. Who starts to load or unload is whom the port is for, as document 01 doesn't ask.
fn guess(tool: &mut Tool, sent: &Sent) -> (u8, Vec<Report>) {
    let given = match sent.number {
        row::CARRIER_OUT => return moved(tool, sent),
        number if number > row::LAST_OF_01 => Err(Refusal::OutOfRange),
        row::LOAD_START | row::UNLOAD_START => {
            let access =
                tool.ports().find(|port| u32::from(port.number) == sent.port).map(|port| port.access);
            tool.step_parts(&Parts { value: access.unwrap_or_default().into(), ..sent.parts() })
        }
        _ => tool.step_parts(&sent.parts()),
    };
    shown(&given)
}

fn shown(given: &Answer) -> (u8, Vec<Report>) {
    (print::answer(given), print::reports(given).filter(of_document_01).collect())
}

/// CarrierOut as document 01 has it is three inputs here, of which the first that is refused refuses it. The
/// reservation between them isn't seen.
fn moved(tool: &mut Tool, sent: &Sent) -> (u8, Vec<Report>) {
    let mut after = tool.clone();
    let port = |number| Parts { number, port: sent.port, ..Parts::default() };
    let steps = [sent.parts(), port(row::OUT_START), port(row::OUT_DONE)];
    let given: Result<Vec<_>, Refusal> = steps.iter().map(|parts| after.step_parts(parts)).collect();
    match given {
        Err(refusal) => (refusal.number(), Vec::new()),
        Ok(mut given) => {
            *tool = after;
            let last = given.pop().unwrap_or_default();
            (0, last.filter(|report| report.model != Model::Reservation).collect())
        }
    }
}

/// The log up to an entry, which shows what document 01 gives, and the inputs after it.
fn correct<'a>(
    log: &mut Vec<u8>,
    run: &'a Run,
    number: usize,
    at: usize,
    given: &Answer,
) -> std::slice::Iter<'a, Sent> {
    log.truncate(at);
    let (answer, reports) = shown(given);
    entry::write(log, &run.inputs[number], answer, &reports);
    run.inputs[number + 1..].iter()
}

#[cfg(test)]
pub mod tests {
    use super::*;

    /// The log of a script.
    pub fn log(script: &str) -> Vec<u8> {
        log_of(&read(script.as_bytes()).unwrap())
    }

    fn error(script: &str) -> String {
        read(script.as_bytes()).unwrap_err()
    }

    #[test]
    fn logs_of_scripts() {
        assert_eq!(log("# none\n\nsetup 4 16\n"), b"CMT\0\x01\x04\x10");
        let started = b"CMT\0\x01\x01\0\x0D\x01\0\0\0\x01\x01\x01\x01\x03";
        assert_eq!(log("setup 1 0\nLoadStart 1"), started);
        assert_eq!(log("setup 1 0\r\nin 13 1 0 - -\r\n"), started);
    }

    /// Reports of model 8 are left out, and set-up and inputs have no times.
    #[test]
    fn no_prediction_reaches_a_log() {
        let script =
            "setup 1 0 0\nCarrierNotification A\nin 3 0 0 4220 -\nLoadStart 1\nLoadDone 1\nIdRead 1 A\n\
                      Open A\nin 20 0 0 41 03030303030303030303030303030303030303030303030303\n\
                      ProceedWithCarrier A 1\nAccessStart A\nin 31 0 0 - -\nAccessEnd A 0\nClose A";
        let written = log(script);
        assert_eq!(judge(&written, &mut Tool::none()), Verdict::Agrees { entries: 12 });
        assert!(written.ends_with(b"\x17\0\0\x01A\0\x01\x01\x01\x03\x02"), "{written:?}");
        assert!(error("setup 1 0 60").starts_with("line 1: setting time or timeout: a log has none"));
        assert!(
            error("setup 1 0\nin 31 0 0 - - 9").starts_with("line 2: clock, time or wafers: a log has none")
        );
        let clock = "line 2: 'Clock' is no input of document 01, which has no predictions: leave it out, \
                     or write in 31 .., which is answered 1";
        assert_eq!(error("setup 1 0\nClock 9"), clock);
    }

    /// P4 would take the padded name for AB, and no request is part of document 01: each such entry is corrected.
    #[test]
    fn no_request_reaches_a_log() {
        let padded = log("setup 1 0\nin 3 0 0 414220 -\nCarrierNotification AB\nin 4 0 0 414220 -\nOpen AB");
        let refused = b"CMT\0\x01\x01\0\x03\0\0\x03AB \x01\0\x03\0\0\x02AB\0\x03";
        assert_eq!(&padded[..refused.len()], refused);
        assert_eq!(judge(&padded, &mut Tool::none()), Verdict::Agrees { entries: 4 });
        let many = format!("setup 1 0\n{}LoadStart 1", "in 3 0 0 414220 -\n".repeat(100));
        assert_eq!(judge(&log(&many), &mut Tool::none()), Verdict::Agrees { entries: 101 });
    }

    /// Who starts is written as it is sent, and nobody asks: no alarm, no held pod, no refusal; and at the first try.
    #[test]
    fn no_hands_reach_a_log() {
        let unload = "LoadStart 1 manual\nLoadDone 1\nIdRead 1 A\nCancelCarrier A 1\nUnloadStart 1 manual\n\
                      UnloadFail 1\nUnloadStart 1 automatic\nUnloadDone 1\n";
        let script = format!(
            "setup 1 0\nLoadStart 1 automatic\nLoadFail 1\nin 13 1 255 - -\nLoadFail 1\nChangeAccess 1 1\n{unload}"
        );
        let written = log(&script);
        assert!(written.starts_with(b"CMT\0\x01\x01\0\x0D\x01\x01\0\0\x01\x01\x01\x01\x03"), "{written:?}");
        assert!(holds(&written, b"\x0D\x01\xFF\0\0\x01\x01\x01\x01\x03"), "{written:?}");
        assert_eq!(judge(&written, &mut Tool::none()), Verdict::Agrees { entries: 13 });
        let run = read(script.as_bytes()).unwrap();
        let mut guessed = entry::head(1, 0);
        write_guesses(&mut guessed, Tool::setup(1, 0).unwrap(), run.inputs.iter());
        assert_eq!(guessed, written);
        let told = "line 2: 'Continue' is no input of document 01, which holds no pod: leave it out, \
                    or write in 36 .., which is answered 1";
        assert_eq!(error("setup 1 0\nContinue 1"), told);
        assert!(log("setup 1 0\nin 36 1 0 - -").ends_with(b"\x24\x01\0\0\x01\0"));
    }

    const STORED: &str =
        "setup 2 2\nLoadStart 1\nLoadDone 1\nIdRead 1 A\nProceedWithCarrier A 0\nMoveIn 1 1\n";

    fn holds(log: &[u8], entry: &[u8]) -> bool {
        log.windows(entry.len()).any(|part| part == entry)
    }

    /// No queue: CarrierOut moves the carrier at once, and is refused where the port is taken.
    #[test]
    fn carriers_come_out_at_once() {
        let outs = log(&format!("{STORED}CarrierOut A 2\nCarrierIn A\nCarrierOut A 1\nUnloadStart 2"));
        let moved = b"\x07\x02\0\x01A\0\x02\x01\x02\x01\x02\x04\x02\0\x01";
        assert!(holds(&outs, moved), "{outs:?}");
        assert_eq!(judge(&outs, &mut Tool::none()), Verdict::Agrees { entries: 9 });
        let busy =
            log(&format!("{STORED}LoadStart 2\nCarrierOut A 2\nReserveAtPort 1\nCarrierOut A 1\nOpen A"));
        assert!(holds(&busy, b"\x07\x02\0\x01A\x05\0") && holds(&busy, b"\x07\x01\0\x01A\x04\0"), "{busy:?}");
        assert_eq!(judge(&busy, &mut Tool::none()), Verdict::Agrees { entries: 10 });
    }

    /// A long log with many CarrierOuts would take long if each were corrected.
    #[test]
    fn carriers_come_out_at_the_first_try() {
        let outs =
            "CarrierOut A 2\nCarrierIn A\nMoveIn 2 1\nReserveAtPort 1\nCarrierOut A 1\nin 30 0 0 - -\n\
                    CancelReservationAtPort 1\n";
        let run = read(format!("{STORED}{}", outs.repeat(3)).as_bytes()).unwrap();
        let mut log = entry::head(2, 2);
        write_guesses(&mut log, Tool::setup(2, 2).unwrap(), run.inputs.iter());
        assert_eq!(judge(&log, &mut Tool::none()), Verdict::Agrees { entries: 26 });
    }

    /// By their numbers the inputs of requests are entries, which document 01 answers 1.
    #[test]
    fn inputs_of_requests_are_named() {
        let told = error("setup 1 1\nOutStart 1");
        let expected =
            "line 2: 'OutStart' is no input of document 01, whose CarrierOut moves the carrier at once: \
                        leave it out, or write in 27 .., which is answered 1";
        assert_eq!(told, expected);
        for line in ["OutDone 1", "CancelCarrierOut A", "CancelAllCarrierOut"] {
            assert!(
                error(&format!("setup 1 1\n{line}")).contains("' is no input of document 01, "),
                "{line}"
            );
        }
        let numbered = log(&format!("{STORED}in 27 1 0 - -\nin 30 0 0 - -\nin 31 0 0 - -"));
        assert_eq!(numbered[numbered.len() - 18..], *b"\x1B\x01\0\0\x01\0\x1E\0\0\0\x01\0\x1F\0\0\0\x01\0");
        assert_eq!(judge(&numbered, &mut Tool::none()), Verdict::Agrees { entries: 8 });
    }

    #[test]
    fn inputs_without_a_row() {
        assert_eq!(log("setup 1 0\nin 255 0 0 - -")[7..], [255, 0, 0, 0, 1, 0]);
    }

    #[test]
    fn what_no_log_holds() {
        assert_eq!(error(""), "no set-up: a log begins with setup P B");
        assert_eq!(error("\nOpen A"), "line 2: no set-up before it: a log begins with setup P B");
        assert_eq!(error("setup 1 0\nsetup 1 0"), "line 2: a log has one set-up");
        let refused = "line 1: set-up is refused: ports are 1 to 4 and buffer places 0 to 16";
        assert_eq!(error("setup 257 0"), refused);
        for word in ["dump", "state", "waiting", "secs 00", "undo", "expect 0", "save a", "load a"] {
            let word_alone = word.split(' ').next().unwrap();
            let told = format!("line 2: '{word_alone}' is no input: a log holds a set-up and inputs alone");
            assert_eq!(error(&format!("setup 1 0\n{word}")), told);
        }
        assert_eq!(error("setup 1 0\nLoadStart 256"), "line 2: port 256: a log has one byte for it");
        assert_eq!(error("setup 1 0\nLoadStart"), "line 2: port missing: expected LoadStart PORT [START]");
    }
}
