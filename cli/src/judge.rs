//! `judge`: what a log's entry shows beside what document 01 gives, and the verdict as the last line.
use crate::entry::{self, About, Entry, Told, HEAD_BYTES};
use crate::explain::{counted, tool_kind};
use crate::grounds;
use crate::numbers::row;
use crate::print::{self, Answer};
use crate::progress;
use crate::run;
use crate::values::cut;
use hawsermole::{judge, LogRefusal, Model, Parts, Refusal, Row, Tool, Verdict};
use std::fs;
use std::io::{self, Read, Write};
use std::path::Path;

/// What is printed of a log, and the exit status: 0 it agrees, 1 an entry disagrees, 2 it is refused.
#[derive(Debug, PartialEq, Eq)]
pub struct Judged {
    pub printed: String,
    pub status: u8,
}

/// Judges a file, or standard input, and prints. `Err` is the message of a file that can't be read.
pub fn judge_file(file: Option<&Path>, output: &mut impl Write) -> Result<u8, String> {
    let name = file.map_or("standard input".into(), |path| path.display().to_string());
    let log = progress::watched(&format!("reading {name}"), || read(file));
    let log = log.map_err(|error| format!("{name}: {error}"))?;
    let judged = progress::watched(&format!("judging {name}, {} bytes", log.len()), || judged(&log));
    // The status tells, though nobody reads on.
    let _ = run::send(output, &judged.printed)?;
    Ok(judged.status)
}

fn read(file: Option<&Path>) -> io::Result<Vec<u8>> {
    match file {
        Some(path) => fs::read(path),
        None => {
            let mut bytes = Vec::new();
            io::stdin().lock().read_to_end(&mut bytes).map(|_| bytes)
        }
    }
}

fn judged(log: &[u8]) -> Judged {
    let mut tool = Tool::none();
    match judge(log, &mut tool) {
        Verdict::Agrees { entries } => {
            let told = agreeing(&tool, entries);
            Judged { printed: told + "agrees\n", status: 0 }
        }
        Verdict::Disagrees { entry, at, given } => {
            let told = beside(&tool, entry, at, &log[at..], &given);
            Judged { printed: format!("{told}entry {entry}\n"), status: 1 }
        }
        Verdict::Refused { refusal, entries, at } => {
            let told = refused(&tool, log, refusal, entries, at);
            Judged { printed: format!("{told}refused {}\n", refusal.number()), status: 2 }
        }
    }
}

/// The tool, and how many entries agree.
fn agreeing(tool: &Tool, entries: u64) -> String {
    let agree = if entries == 1 { "agrees" } else { "agree" };
    format!("{}: {} {agree}\n", tool_kind(tool), counted(entries as usize, "entry"))
}

/// What is wrong with the file, and where.
fn refused(tool: &Tool, log: &[u8], refusal: LogRefusal, entries: u64, at: usize) -> String {
    let found = log.get(at).copied().unwrap_or_default();
    let (length, end) = (log.len(), "the file ends at byte");
    match (refusal, at) {
        (LogRefusal::MarkOrVersion, 0..=2) => {
            format!("byte {at} is {found:#04x}: a log begins with the mark CMT, 0x43 0x4d 0x54\n")
        }
        (LogRefusal::MarkOrVersion, _) => {
            format!("byte {at} is {found:#04x}: bytes 3 and 4 are the version, 0x00 0x01\n")
        }
        (LogRefusal::SetUp, 5) => format!("byte 5 is {found}: P is 1 to 4, the ports of a tool\n"),
        (LogRefusal::SetUp, _) => {
            format!("byte {at} is {found}: B is 0 to 16, the buffer places of a tool\n")
        }
        (LogRefusal::CutShort, 0..HEAD_BYTES) => format!("{end} {length}, inside its head of {HEAD_BYTES}\n"),
        (LogRefusal::CutShort, _) => {
            let part = entry::read(&log[at..]).err().unwrap_or_default();
            let before = agreeing(tool, entries);
            format!("{before}entry {entries} at byte {at}: {end} {length}, {part}\n")
        }
    }
}

/// The entry's input, and two columns: what it shows, and what document 01 gives.
fn beside(tool: &Tool, number: u64, at: usize, bytes: &[u8], given: &Answer) -> String {
    let before = agreeing(tool, number);
    let Ok(entry) = entry::read(bytes) else { return before };
    let (input, text) = of_document_01(&entry.input);
    let input = format!("entry {number} at byte {at}: {}, {text}\n\n", cut(&input));
    let head = columns(' ', "the log shows", "document 01 gives");
    let rows: String = rows(&entry, given).iter().map(|(shown, given)| compared(shown, given)).collect();
    before + &input + &head + &rows + "\n" + &causes(tool, &entry.input, given)
}

/// An input and what it means, as document 01 has it: without the rows of requests and their CarrierOut.
fn of_document_01(input: &Parts) -> (String, &'static str) {
    match Row::numbered(input.number) {
        Some(row) if row.number == row::CARRIER_OUT => {
            (input.to_string(), "a carrier comes from the buffer to a port")
        }
        // who starts is request P9's
        Some(row) if [row::LOAD_START, row::UNLOAD_START].contains(&row.number) => {
            (format!("{}({})", row.name, input.port), row.text)
        }
        Some(row) if row.number <= row::LAST_OF_01 => (input.to_string(), row.text),
        _ => (input.number.to_string(), "no input of document 01 has this number"),
    }
}

/// The most reports of an entry that are shown: more than any input gives.
const REPORTS_SHOWN: usize = 16;

/// Answer, report count and reports, the log's and document 01's.
fn rows(entry: &Entry, given: &Answer) -> Vec<(String, String)> {
    let told: Vec<Told> = print::reports(given).map(Told::from).collect();
    let (shown, count) = (&entry.reports, counted(told.len(), "report"));
    let mut rows =
        vec![(answer(entry.answer), answer(print::answer(given))), (counted(shown.len(), "report"), count)];
    let text = |reports: &[Told], place: usize| reports.get(place).map_or(String::new(), of_report);
    let most = shown.len().max(told.len()).min(REPORTS_SHOWN);
    rows.extend((0..most).map(|place| (text(shown, place), text(&told, place))));
    if shown.len() > REPORTS_SHOWN {
        rows.push((format!(".. and {} more", shown.len() - REPORTS_SHOWN), String::new()));
    }
    rows
}

fn answer(number: u8) -> String {
    let text = match number {
        0 => "accepted",
        _ => Refusal::from_number(number.into())
            .filter(|&refusal| refusal <= Refusal::PlaceOrOpenerTaken)
            .map_or("no answer of document 01", Refusal::text),
    };
    format!("answer {number}: {text}")
}

/// `port 1: READY TO LOAD to TRANSFER BLOCKED`, `carrier AB: record made, ID NOT READ`; also of numbers without a word.
fn of_report(told: &Told) -> String {
    let subject = match &told.about {
        About::Port(port) => format!("port {port}"),
        About::Name(name) => format!("carrier {}", cut(&name.escape_ascii().to_string())),
    };
    let Some(model) = Model::from_number(told.model).filter(|model| *model <= Model::Accessing) else {
        return format!("{subject}: model {}, {} to {}", told.model, told.old, told.new);
    };
    let (was, is) = (state(model, told.old), state(model, told.new));
    match (&told.about, told.old, told.new) {
        (About::Port(_), old, new) if model == Model::Tie && old == new => {
            format!("{subject}: {is}, now with another carrier")
        }
        (About::Name(_), 0, _) => format!("{subject}: record made, {is}"),
        (About::Name(_), _, 0) => format!("{subject}: record gone, was {was}"),
        _ => format!("{subject}: {was} to {is}"),
    }
}

fn state(model: Model, number: u8) -> String {
    match model.state(number) {
        "out of range" => format!("{model} {number}, out of range"),
        word => word.into(),
    }
}

/// Why document 01 refuses the input, where that is known: a request may have taken a cause away.
fn causes(tool: &Tool, input: &Parts, given: &Answer) -> String {
    let causes = |refusal: Refusal| {
        let grounds = grounds::lowest_by_01(tool, input).into_iter();
        grounds.filter(move |ground| ground.cause.refusal() == refusal).map(|ground| {
            let detail =
                if ground.detail.is_empty() { String::new() } else { format!(": {}", ground.detail) };
            format!("document 01 refuses it because {}{detail}\n", ground.cause.text())
        })
    };
    given.as_ref().err().map_or(String::new(), |&refusal| causes(refusal).collect())
}

const COLUMN: usize = 46;

/// Two columns, marked where they differ.
fn compared(shown: &str, given: &str) -> String {
    columns(if shown == given { ' ' } else { '*' }, shown, given)
}

fn columns(mark: char, left: &str, right: &str) -> String {
    let (left, right) = (wrapped(left), wrapped(right));
    let line = |lines: &[String], place: usize| lines.get(place).cloned().unwrap_or_default();
    let mut text = String::new();
    for place in 0..left.len().max(right.len()) {
        let both = format!("{mark} {:COLUMN$}  {}", line(&left, place), line(&right, place));
        text += both.trim_end();
        text.push('\n');
    }
    text
}

/// Lines of at most a column's width, broken between words; what is longer than a line is broken where it must.
fn wrapped(text: &str) -> Vec<String> {
    let mut lines = vec![String::new()];
    for word in text.split(' ') {
        let mut word = word;
        let last = lines.last_mut().expect("there is a line");
        if !last.is_empty() && last.len() + 1 + word.len() <= COLUMN {
            *last += &format!(" {word}");
            continue;
        }
        while word.len() > COLUMN {
            let (part, rest) = word.split_at(COLUMN);
            lines.push(part.into());
            word = rest;
        }
        lines.push(word.into());
    }
    lines.retain(|line| !line.is_empty());
    lines
}

#[cfg(test)]
mod tests {
    use super::*;
    use crate::log::tests::log;

    fn last(log: &[u8]) -> (String, u8) {
        let Judged { printed, status } = judged(log);
        (printed.lines().last().unwrap().into(), status)
    }

    #[test]
    fn logs_that_agree() {
        let told = |script| judged(&log(script)).printed;
        assert_eq!(told("setup 2 0"), "fixed buffer tool, 2 ports: 0 entries agree\nagrees\n");
        let one = "internal buffer tool, 1 port, 3 buffer places: 1 entry agrees\nagrees\n";
        assert_eq!(told("setup 1 3\nLoadStart 1"), one);
        assert_eq!(judged(&log("setup 1 0")).status, 0);
    }

    #[test]
    fn an_answer_beside_another() {
        let mut log = log("setup 1 0\nLoadStart 1\nLoadStart 1");
        log[21] = 0;
        let expected = "fixed buffer tool, 1 port: 1 entry agrees\n\
                        entry 1 at byte 17: LoadStart(1), a pod starts to arrive\n\n  \
                        the log shows                                   document 01 gives\n\
                        * answer 0: accepted                              \
                        answer 5: the row's conditions on state don't\n\
                        *                                                 hold\n  \
                        0 reports                                       0 reports\n\n\
                        document 01 refuses it because the port isn't READY TO LOAD: \
                        port 1 is TRANSFER BLOCKED, loading\n\
                        entry 1\n";
        assert_eq!(judged(&log), Judged { printed: expected.into(), status: 1 });
    }

    fn row(model: u8, about: About, old: u8, new: u8) -> String {
        of_report(&Told { model, about, old, new })
    }

    #[test]
    fn reports_of_any_numbers() {
        let name = || About::Name(b"A\xff".into());
        assert_eq!(row(1, About::Port(1), 1, 3), "port 1: READY TO LOAD to TRANSFER BLOCKED");
        assert_eq!(row(4, About::Port(1), 1, 1), "port 1: ASSOCIATED, now with another carrier");
        assert_eq!(row(1, About::Port(9), 1, 7), "port 9: READY TO LOAD to transfer state 7, out of range");
        assert_eq!(row(8, About::Port(1), 0, 2), "port 1: model 8, 0 to 2");
        assert_eq!(row(9, About::Port(1), 0, 1), "port 1: model 9, 0 to 1");
        assert_eq!(row(5, name(), 0, 1), "carrier A\\xff: record made, ID NOT READ");
        assert_eq!(row(7, name(), 2, 0), "carrier A\\xff: record gone, was IN ACCESS");
        assert_eq!(answer(9), "answer 9: no answer of document 01");
        assert_eq!(answer(13), "answer 13: no answer of document 01");
        assert_eq!(answer(14), "answer 14: no answer of document 01");
        assert_eq!(answer(20), "answer 20: no answer of document 01");
    }

    /// CarrierOut, LoadStart and UnloadStart are told as document 01 has them, and so is a number that a request has
    /// given a row.
    #[test]
    fn inputs_are_document_01s() {
        let told = |script: &str| {
            let mut log = log(&format!("setup 2 1\nLoadStart 1\nLoadDone 1\nIdRead 1 A\n{script}"));
            let answer = log.len() - 2;
            log[answer] = 0;
            judged(&log).printed
        };
        let stored = "ProceedWithCarrier A 0\nMoveIn 1 1\nReserveAtPort 2\nCarrierOut A 2";
        let out = told(stored);
        assert!(out.contains(": CarrierOut(A, 2), a carrier comes from the buffer to a port\n"), "{out}");
        assert!(out.contains("\ndocument 01 refuses it because the port is reserved: port 2\n"), "{out}");
        let busy = told(&stored.replace("ReserveAtPort", "LoadStart"));
        assert!(busy.contains("because the port isn't READY TO LOAD: port 2 is TRANSFER BLOCKED"), "{busy}");
        let busy = told("LoadStart 1 automatic");
        assert!(busy.contains(": LoadStart(1), a pod starts to arrive\n"), "{busy}");
        assert!(busy.contains("because the port isn't READY TO LOAD: port 1 is TRANSFER BLOCKED"), "{busy}");
        let early = told("in 24 1 255 - -");
        assert!(early.contains(": UnloadStart(1), a pod starts to leave\n"), "{early}");
        assert!(early.contains("because the port isn't READY TO UNLOAD: port 1 is"), "{early}");
        let requested = told("in 27 1 0 - -");
        assert!(requested.contains(": 27, no input of document 01 has this number\n"), "{requested}");
        let because = "because no input has this number: 27; inputs are 1 to 26\n";
        assert!(requested.contains(because), "{requested}");
    }

    /// 255 reports are read; the first of them are shown.
    #[test]
    fn many_reports_are_cut() {
        let mut log = log("setup 1 0");
        log.extend([13, 1, 0, 0, 0, 255]);
        log.extend([1, 1, 1, 3].repeat(255));
        let printed = judged(&log).printed;
        assert!(
            printed.contains("* 255 reports                                     1 report\n"),
            "{printed}"
        );
        assert!(printed.contains("\n* .. and 239 more\n"), "{printed}");
        assert_eq!(printed.lines().filter(|line| line.starts_with("* port 1")).count(), 15);
    }

    #[test]
    fn heads_that_are_refused() {
        let first = |log: &[u8]| judged(log).printed.lines().next().unwrap().to_string();
        assert_eq!(first(b"cmt"), "byte 0 is 0x63: a log begins with the mark CMT, 0x43 0x4d 0x54");
        assert_eq!(first(b"CMT\x01"), "byte 3 is 0x01: bytes 3 and 4 are the version, 0x00 0x01");
        assert_eq!(first(b"CMT\0\x01\0"), "byte 5 is 0: P is 1 to 4, the ports of a tool");
        assert_eq!(first(b"CMT\0\x01\x01\x11"), "byte 6 is 17: B is 0 to 16, the buffer places of a tool");
        assert_eq!(first(b"CM"), "the file ends at byte 2, inside its head of 7");
        assert_eq!(last(b"CX"), ("refused 27".into(), 2));
        assert_eq!(last(b"CMT\0\x01\x05"), ("refused 28".into(), 2));
        assert_eq!(last(b""), ("refused 29".into(), 2));
    }

    #[test]
    fn an_entry_that_is_cut_short() {
        let log = log("setup 1 0\nLoadStart 1\nLoadDone 1");
        let told = "entry 1 at byte 17: the file ends at byte 21, before the answer\nrefused 29\n";
        assert!(judged(&log[..21]).printed.ends_with(told), "{}", judged(&log[..21]).printed);
    }

    /// Cut anywhere, or with any byte changed, the last line and the status belong together.
    #[test]
    fn the_status_is_that_of_the_last_line() {
        let whole = log("setup 1 2\nBind 1 A\nLoadStart 1\nSlotMap A 3333333333333333333333333\nOpen A");
        let mut met = [0; 3];
        let mut check = |log: &[u8]| {
            let (line, status) = last(log);
            let word = line.split(' ').next().unwrap();
            assert_eq!(
                Some(usize::from(status)),
                ["agrees", "entry", "refused"].iter().position(|&is| is == word)
            );
            met[usize::from(status)] += 1;
        };
        (0..=whole.len()).for_each(|length| check(&whole[..length]));
        for place in 0..whole.len() {
            for change in [1, 2, 4, 8, 16, 32, 64, 128, 255] {
                let mut log = whole.clone();
                log[place] ^= change;
                check(&log);
            }
        }
        assert!(met.iter().all(|&count| count > 20), "{met:?}");
    }
}
