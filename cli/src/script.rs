//! The reader of lines: what each line of a script asks for.
use crate::values::{self, shown, Words, NONE};
use hawsermole::{Argument, Parts, Row, Wafer, ROWS};
use std::ffi::OsStr;
use std::os::unix::ffi::OsStrExt;
use std::path::PathBuf;

/// What a line asks for.
#[derive(Debug, PartialEq, Eq)]
pub enum Command {
    /// A blank line or a comment.
    Nothing,
    Setup(SetUp),
    /// An input by number.
    In(Sent),
    /// An input by name.
    Named(Sent),
    /// A message from the host bridge.
    Secs(Vec<u8>),
    /// A message, and room for its reply.
    Exchange {
        message: Vec<u8>,
        room: usize,
    },
    /// The reply to an answer.
    Reply {
        number: u32,
        room: usize,
    },
    Dump,
    State,
    /// Is anyone waiting?
    Waiting,
    /// Pods in, pods out.
    Pods,
    /// Of the dialogue around the tool: its bytes to a file and from one, a change taken back, what was printed.
    Save(PathBuf),
    Load(PathBuf),
    Undo,
    Expect(Vec<String>),
}

/// The numbers of a set-up; times that are left out are 0.
#[derive(Clone, Copy, Debug, Default, PartialEq, Eq)]
pub struct SetUp {
    pub ports: u32,
    pub places: u32,
    pub setting: u32,
    pub timeout: u32,
}

/// An input as it was written, ready to be sent.
#[derive(Clone, Debug, Default, PartialEq, Eq)]
pub struct Sent {
    pub number: u32,
    pub port: u32,
    pub value: u32,
    pub name: Vec<u8>,
    pub codes: Vec<u8>,
    pub clock: u32,
    pub time: u32,
    pub wafers: Vec<Wafer>,
}

impl Sent {
    /// The input as the machine takes it.
    pub fn parts(&self) -> Parts<'_> {
        let Sent { number, port, value, clock, time, .. } = *self;
        let (name, codes, wafers) = (&self.name, &self.codes, &self.wafers);
        Parts { number, port, value, name, codes, clock, time, wafers }
    }
}

const COMMANDS: [&str; 13] = [
    "setup", "in", "secs", "exchange", "reply", "dump", "state", "waiting", "pods", "save", "load", "undo",
    "expect",
];
const SETUP: &str = "setup P B [SETTING TIMEOUT]";
const IN: &str = "in NUMBER PORT VALUE NAME CODES [CLOCK TIME WAFERS]";
const SECS: &str = "secs HEX";
const EXCHANGE: &str = "exchange HEX ROOM";
const REPLY: &str = "reply NUMBER ROOM";
const DUMP: &str = "dump";
const STATE: &str = "state";
const WAITING: &str = "waiting";
const PODS: &str = "pods";
const SAVE: &str = "save FILE";
const LOAD: &str = "load FILE";
const UNDO: &str = "undo";
const EXPECT: &str = "expect WORD..";

/// Reads a line, with or without its end. `Err` says what is wrong with it.
pub fn read(line: &[u8]) -> Result<Command, String> {
    let mut words = Words::of(line);
    match words.next() {
        None => Ok(Command::Nothing),
        Some([b'#', ..]) => Ok(Command::Nothing),
        Some(b"setup") => read_setup(words),
        Some(b"in") => read_in(words),
        Some(b"secs") => read_secs(words),
        Some(b"exchange") => read_exchange(words),
        Some(b"reply") => read_reply(words),
        Some(b"dump") => words.end(DUMP).map(|()| Command::Dump),
        Some(b"state") => words.end(STATE).map(|()| Command::State),
        Some(b"waiting") => words.end(WAITING).map(|()| Command::Waiting),
        Some(b"pods") => words.end(PODS).map(|()| Command::Pods),
        Some(b"save") => read_file(words, SAVE).map(Command::Save),
        Some(b"load") => read_file(words, LOAD).map(Command::Load),
        Some(b"undo") => words.end(UNDO).map(|()| Command::Undo),
        Some(b"expect") => read_expect(words),
        Some(first) => read_named(first, words),
    }
}

fn read_setup(mut words: Words) -> Result<Command, String> {
    let ports = values::number("ports", words.argument("number of ports", SETUP)?)?;
    let places = values::number("places", words.argument("number of buffer places", SETUP)?)?;
    let (setting, timeout) = (optional("setting", &mut words)?, optional("timeout", &mut words)?);
    words.end(SETUP)?;
    Ok(Command::Setup(SetUp { ports, places, setting, timeout }))
}

/// A number that may be left out at the end of a line, for 0.
fn optional(what: &str, words: &mut Words) -> Result<u32, String> {
    words.next().map_or(Ok(0), |word| values::number(what, word))
}

fn read_in(mut words: Words) -> Result<Command, String> {
    let sent = Sent {
        number: values::number("number", words.argument("number", IN)?)?,
        port: values::number("port", words.argument("port", IN)?)?,
        value: values::number("value", words.argument("value", IN)?)?,
        name: values::hex("name", words.argument("name", IN)?)?,
        codes: values::hex("codes", words.argument("codes", IN)?)?,
        clock: optional("clock", &mut words)?,
        time: optional("time", &mut words)?,
        wafers: words.next().map_or(Ok(Vec::new()), |word| values::wafers("wafers", word))?,
    };
    words.end(IN)?;
    Ok(Command::In(sent))
}

fn read_secs(mut words: Words) -> Result<Command, String> {
    let message = values::hex("message", words.argument("message", SECS)?)?;
    words.end(SECS)?;
    Ok(Command::Secs(message))
}

fn read_file(mut words: Words, usage: &str) -> Result<PathBuf, String> {
    let file = words.argument("file", usage)?;
    words.end(usage)?;
    Ok(OsStr::from_bytes(file).into())
}

/// Words of bytes that aren't UTF-8 are met by nothing that is printed.
fn read_expect(mut words: Words) -> Result<Command, String> {
    let first = words.argument("word", EXPECT)?;
    let every = std::iter::once(first).chain(words);
    Ok(Command::Expect(every.map(|word| String::from_utf8_lossy(word).into()).collect()))
}

fn read_exchange(mut words: Words) -> Result<Command, String> {
    let message = values::hex("message", words.argument("message", EXCHANGE)?)?;
    let room = values::room("room", words.argument("room", EXCHANGE)?)?;
    words.end(EXCHANGE)?;
    Ok(Command::Exchange { message, room })
}

fn read_reply(mut words: Words) -> Result<Command, String> {
    let number = values::number("number", words.argument("number", REPLY)?)?;
    let room = values::room("room", words.argument("room", REPLY)?)?;
    words.end(REPLY)?;
    Ok(Command::Reply { number, room })
}

/// Who starts where a line doesn't say it: what 0 is, too.
const MANUAL: &[u8] = b"manual";

fn read_named(first: &[u8], mut words: Words) -> Result<Command, String> {
    let row = ROWS.iter().find(|row| row.name.as_bytes() == first).ok_or_else(|| unknown(first))?;
    let usage = usage(row);
    let mut sent = Sent { number: row.number, ..Sent::default() };
    for argument in row.arguments {
        let what = argument.name();
        let word = match (argument, words.next()) {
            (_, Some(word)) => word,
            (Argument::MapOrNone | Argument::Wafers, None) => NONE,
            (Argument::Start, None) => MANUAL,
            (_, None) => return Err(values::missing(what, &usage)),
        };
        match argument {
            Argument::Port | Argument::PortOrNone => sent.port = values::number(what, word)?,
            Argument::Name | Argument::NameOrNone => sent.name = values::text(word),
            Argument::Codes | Argument::MapOrNone => sent.codes = values::codes(what, word)?,
            Argument::Access | Argument::Service | Argument::Place | Argument::End => {
                sent.value = values::number(what, word)?
            }
            Argument::Start => sent.value = values::start(what, word)?,
            Argument::Clock => sent.clock = values::number(what, word)?,
            Argument::Tp | Argument::Te => sent.time = values::number(what, word)?,
            Argument::Wafers => sent.wafers = read_wafers(word, &mut words)?,
        }
    }
    words.end(&usage)?;
    Ok(Command::Named(sent))
}

/// All wafers that a line has, a word each; `-` as the first is none.
fn read_wafers<'a>(first: &'a [u8], words: &mut Words<'a>) -> Result<Vec<Wafer>, String> {
    match first {
        NONE => Ok(Vec::new()),
        _ => std::iter::once(first).chain(words).map(|word| values::wafer("wafer", word)).collect(),
    }
}

/// How a named input is written: `MoveIn PORT PLACE`, `Bind PORT NAME [MAP]`, `LoadStart PORT [START]`,
/// `Wafers CLOCK NAME [WAFER..]`.
pub fn usage(row: &Row) -> String {
    let mut usage = String::from(row.name);
    for argument in row.arguments {
        let word = argument.name().to_uppercase();
        usage += &match argument {
            Argument::MapOrNone | Argument::Start => format!(" [{word}]"),
            Argument::Wafers => " [WAFER..]".into(),
            _ => format!(" {word}"),
        };
    }
    usage
}

fn unknown(word: &[u8]) -> String {
    let mut known = COMMANDS.into_iter().chain(ROWS.iter().map(|row| row.name));
    match known.find(|known| known.as_bytes().eq_ignore_ascii_case(word)) {
        Some(near) => format!("unknown word '{}': it is written {near}", shown(word)),
        None => format!(
            "unknown word '{}': expected an input's name such as Bind, or another command (--help lists them)",
            shown(word)
        ),
    }
}

#[cfg(test)]
mod tests {
    use super::*;

    fn sent(number: u32, port: u32, value: u32, name: &[u8], codes: &[u8]) -> Sent {
        Sent { number, port, value, name: name.into(), codes: codes.into(), ..Sent::default() }
    }

    fn timed(number: u32, clock: u32, name: &[u8], time: u32) -> Sent {
        Sent { number, clock, name: name.into(), time, ..Sent::default() }
    }

    fn named(line: &str) -> Sent {
        match read(line.as_bytes()) {
            Ok(Command::Named(sent)) => sent,
            other => panic!("{line}: {other:?}"),
        }
    }

    fn error(line: &str) -> String {
        read(line.as_bytes()).unwrap_err()
    }

    #[test]
    fn blank_lines_and_comments_ask_for_nothing() {
        for line in ["", "\n", "\r\n", "  \t \n", "# Bind 1", "#", "#Bind 1 AB\n", "  # indented\n"] {
            assert_eq!(read(line.as_bytes()), Ok(Command::Nothing), "{line:?}");
        }
    }

    #[test]
    fn commands() {
        let set_up =
            |ports, places, setting, timeout| Ok(Command::Setup(SetUp { ports, places, setting, timeout }));
        assert_eq!(read(b"setup 2 16\n"), set_up(2, 16, 0, 0));
        assert_eq!(read(b"setup 0 4294967295"), set_up(0, u32::MAX, 0, 0));
        assert_eq!(read(b"setup 2 0 60"), set_up(2, 0, 60, 0));
        assert_eq!(read(b"setup 2 0 60 4294967295"), set_up(2, 0, 60, u32::MAX));
        assert_eq!(read(b"dump\r\n"), Ok(Command::Dump));
        assert_eq!(read(b"\tstate "), Ok(Command::State));
        assert_eq!(read(b"waiting\n"), Ok(Command::Waiting));
        assert_eq!(read(b" pods"), Ok(Command::Pods));
        assert_eq!(read(b"save a/b.tool\n"), Ok(Command::Save("a/b.tool".into())));
        assert_eq!(read(b"load -"), Ok(Command::Load("-".into())));
        assert_eq!(read(b"undo"), Ok(Command::Undo));
        assert_eq!(read(b"expect 0  none\n"), Ok(Command::Expect(vec!["0".into(), "none".into()])));
        assert_eq!(read(b"secs 0100"), Ok(Command::Secs(vec![1, 0])));
        assert_eq!(read(b"secs -"), Ok(Command::Secs(vec![])));
        assert_eq!(read(b"exchange 0100 95"), Ok(Command::Exchange { message: vec![1, 0], room: 95 }));
        assert_eq!(read(b"exchange - 65536"), Ok(Command::Exchange { message: vec![], room: 65_536 }));
        assert_eq!(read(b"reply 4294967295 0"), Ok(Command::Reply { number: u32::MAX, room: 0 }));
        assert_eq!(read(b"in 20 1 2 4142 0305"), Ok(Command::In(sent(20, 1, 2, b"AB", &[3, 5]))));
        assert_eq!(read(b"in 4294967295 0 0 - -"), Ok(Command::In(sent(u32::MAX, 0, 0, b"", b""))));
        assert_eq!(read(b"in 31 0 0 - - 9"), Ok(Command::In(timed(31, 9, b"", 0))));
        assert_eq!(read(b"in 32 0 0 4142 - 9 4294967295"), Ok(Command::In(timed(32, 9, b"AB", u32::MAX))));
        assert_eq!(read(b"in 35 0 0 4142 - 9 7 -"), Ok(Command::In(timed(35, 9, b"AB", 7))));
        let wafers = vec![Wafer { process: 90.5, handling: 12.25 }; 2];
        let line = [&b"in 35 0 0 4142 - 9 0 "[..], &b"4056a000000000004028800000000000".repeat(2)].concat();
        assert_eq!(read(&line), Ok(Command::In(Sent { wafers, ..timed(35, 9, b"AB", 0) })));
    }

    /// Each named input with its arguments in the documents' order.
    #[test]
    #[rustfmt::skip]
    fn every_named_input() {
        assert_eq!(named("Bind 1 AB"), sent(1, 1, 0, b"AB", b""));
        assert_eq!(named("Bind 1 AB -"), sent(1, 1, 0, b"AB", b""));
        assert_eq!(named("Bind 1 AB 1111111111111111111111111"), sent(1, 1, 0, b"AB", &[1; 25]));
        assert_eq!(named("CancelBind 0 AB"), sent(2, 0, 0, b"AB", b""));
        assert_eq!(named("CancelBind 1 -"), sent(2, 1, 0, b"", b""));
        assert_eq!(named("CarrierNotification AB"), sent(3, 0, 0, b"AB", b""));
        assert_eq!(named("CarrierNotification AB 0103"), sent(3, 0, 0, b"AB", &[1, 3]));
        assert_eq!(named("CancelCarrierNotification AB"), sent(4, 0, 0, b"AB", b""));
        assert_eq!(named("ProceedWithCarrier AB 1"), sent(5, 1, 0, b"AB", b""));
        assert_eq!(named("CancelCarrier AB 1"), sent(6, 1, 0, b"AB", b""));
        assert_eq!(named("CarrierOut AB 1"), sent(7, 1, 0, b"AB", b""));
        assert_eq!(named("CarrierIn AB"), sent(8, 0, 0, b"AB", b""));
        assert_eq!(named("ChangeAccess 1 2"), sent(9, 1, 2, b"", b""));
        assert_eq!(named("ChangeServiceStatus 1 2"), sent(10, 1, 2, b"", b""));
        assert_eq!(named("ReserveAtPort 1"), sent(11, 1, 0, b"", b""));
        assert_eq!(named("CancelReservationAtPort 1"), sent(12, 1, 0, b"", b""));
        assert_eq!(named("LoadStart 1"), sent(13, 1, 0, b"", b""));
        assert_eq!(named("LoadStart 1 manual"), sent(13, 1, 0, b"", b""));
        assert_eq!(named("LoadStart 1 automatic"), sent(13, 1, 1, b"", b""));
        assert_eq!(named("LoadStart 1 2"), sent(13, 1, 2, b"", b""));
        assert_eq!(named("LoadDone 1"), sent(14, 1, 0, b"", b""));
        assert_eq!(named("LoadFail 1"), sent(15, 1, 0, b"", b""));
        assert_eq!(named("IdRead 1 AB"), sent(16, 1, 0, b"AB", b""));
        assert_eq!(named("IdReadFailed 1"), sent(17, 1, 0, b"", b""));
        assert_eq!(named("MoveIn 1 2"), sent(18, 1, 2, b"", b""));
        assert_eq!(named("Open AB"), sent(19, 0, 0, b"AB", b""));
        assert_eq!(named("SlotMap AB 3333333333333333333333333"), sent(20, 0, 0, b"AB", &[3; 25]));
        assert_eq!(named("AccessStart AB"), sent(21, 0, 0, b"AB", b""));
        assert_eq!(named("AccessEnd AB 1"), sent(22, 0, 1, b"AB", b""));
        assert_eq!(named("Close AB"), sent(23, 0, 0, b"AB", b""));
        assert_eq!(named("UnloadStart 1"), sent(24, 1, 0, b"", b""));
        assert_eq!(named("UnloadStart 1 automatic"), sent(24, 1, 1, b"", b""));
        assert_eq!(named("UnloadDone 1"), sent(25, 1, 0, b"", b""));
        assert_eq!(named("UnloadFail 1"), sent(26, 1, 0, b"", b""));
        assert_eq!(named("OutStart 1"), sent(27, 1, 0, b"", b""));
        assert_eq!(named("OutDone 1"), sent(28, 1, 0, b"", b""));
        assert_eq!(named("CancelCarrierOut AB"), sent(29, 0, 0, b"AB", b""));
        assert_eq!(named("CancelAllCarrierOut"), sent(30, 0, 0, b"", b""));
        assert_eq!(named("Clock 9"), timed(31, 9, b"", 0));
        assert_eq!(named("PredictedTime 9 AB 69"), timed(32, 9, b"AB", 69));
        assert_eq!(named("Estimate 9 AB 69"), timed(33, 9, b"AB", 69));
        assert_eq!(named("NoPrediction 9 AB"), timed(34, 9, b"AB", 0));
        assert_eq!(named("Wafers 9 AB"), timed(35, 9, b"AB", 0));
        assert_eq!(named("Wafers 9 AB -"), timed(35, 9, b"AB", 0));
        assert_eq!(named("Continue 1"), sent(36, 1, 0, b"", b""));
        let wafers = vec![Wafer { process: 90.5, handling: 12.25 }, Wafer { process: 0.0, handling: -1.0 }];
        assert_eq!(named("Wafers 9 AB 90.5+12.25 0+-1"), Sent { wafers, ..timed(35, 9, b"AB", 0) });
    }

    #[test]
    fn a_name_that_looks_like_something_else_is_a_name() {
        assert_eq!(named("Open #1").name, b"#1");
        assert_eq!(named("Open setup").name, b"setup");
        assert_eq!(named("Open 4142").name, b"4142");
    }

    #[test]
    fn unknown_words() {
        let expected = "expected an input's name such as Bind, or another command (--help lists them)";
        assert_eq!(error("Frobnicate 1"), format!("unknown word 'Frobnicate': {expected}"));
        assert_eq!(read(b"\xfe\xff").unwrap_err(), format!("unknown word '\\xfe\\xff': {expected}"));
        assert_eq!(error("bind 1 AB"), "unknown word 'bind': it is written Bind");
        assert_eq!(error("SETUP 1 0"), "unknown word 'SETUP': it is written setup");
        assert_eq!(error("Waiting"), "unknown word 'Waiting': it is written waiting");
        assert_eq!(error("UNDO"), "unknown word 'UNDO': it is written undo");
    }

    #[test]
    fn missing_words() {
        assert_eq!(error("Bind 1"), "name missing: expected Bind PORT NAME [MAP]");
        assert_eq!(error("Bind"), "port missing: expected Bind PORT NAME [MAP]");
        assert_eq!(error("SlotMap AB"), "codes missing: expected SlotMap NAME CODES");
        assert_eq!(error("secs"), "message missing: expected secs HEX");
        assert_eq!(error("save"), "file missing: expected save FILE");
        assert_eq!(error("expect"), "word missing: expected expect WORD..");
        assert_eq!(error("exchange 01"), "room missing: expected exchange HEX ROOM");
        assert_eq!(error("reply 1"), "room missing: expected reply NUMBER ROOM");
        assert_eq!(error("setup 1"), "number of buffer places missing: expected setup P B [SETTING TIMEOUT]");
        assert_eq!(
            error("in 1 1 0 4142"),
            "codes missing: expected in NUMBER PORT VALUE NAME CODES [CLOCK TIME WAFERS]"
        );
        assert_eq!(error("Clock"), "clock missing: expected Clock CLOCK");
        assert_eq!(error("PredictedTime 9 AB"), "tp missing: expected PredictedTime CLOCK NAME TP");
        assert_eq!(error("LoadStart"), "port missing: expected LoadStart PORT [START]");
        assert_eq!(error("Continue"), "port missing: expected Continue PORT");
        assert_eq!(error("Wafers 9"), "name missing: expected Wafers CLOCK NAME [WAFER..]");
    }

    #[test]
    fn words_too_many() {
        assert_eq!(error("CancelAllCarrierOut 1"), "'1' is one word too many: expected CancelAllCarrierOut");
        assert_eq!(error("Open AB # now"), "'#' is one word too many: expected Open NAME");
        assert_eq!(error("Bind 1 AB - -"), "'-' is one word too many: expected Bind PORT NAME [MAP]");
        assert_eq!(
            error("LoadStart 1 manual 1"),
            "'1' is one word too many: expected LoadStart PORT [START]"
        );
        assert_eq!(error("Continue 1 1"), "'1' is one word too many: expected Continue PORT");
        assert_eq!(error("secs 01 00"), "'00' is one word too many: expected secs HEX");
        assert_eq!(error("exchange 01 9 9"), "'9' is one word too many: expected exchange HEX ROOM");
        assert_eq!(error("reply 1 9 9"), "'9' is one word too many: expected reply NUMBER ROOM");
        assert_eq!(error("dump 1"), "'1' is one word too many: expected dump");
        assert_eq!(error("waiting 1"), "'1' is one word too many: expected waiting");
        assert_eq!(error("load a b"), "'b' is one word too many: expected load FILE");
        assert_eq!(error("undo 2"), "'2' is one word too many: expected undo");
        assert_eq!(
            error("setup 1 0 0 0 0"),
            "'0' is one word too many: expected setup P B [SETTING TIMEOUT]"
        );
        assert_eq!(
            error("in 1 1 0 - - 0 0 - -"),
            "'-' is one word too many: expected in NUMBER PORT VALUE NAME CODES [CLOCK TIME WAFERS]"
        );
    }

    #[test]
    fn wrong_values_are_named() {
        assert_eq!(error("Bind AB 1"), "port: 'AB' is not a number from 0 to 4294967295");
        assert_eq!(error("setup two 0"), "ports: 'two' is not a number from 0 to 4294967295");
        assert_eq!(error("setup 2 0 1m"), "setting: '1m' is not a number from 0 to 4294967295");
        assert_eq!(error("setup 2 0 60 -"), "timeout: '-' is not a number from 0 to 4294967295");
        assert_eq!(error("in 31 0 0 - - -"), "clock: '-' is not a number from 0 to 4294967295");
        assert_eq!(error("Clock 4294967296"), "clock: '4294967296' is not a number from 0 to 4294967295");
        assert_eq!(error("Estimate 9 AB -1"), "te: '-1' is not a number from 0 to 4294967295");
        assert_eq!(error("ChangeAccess 1 AUTO"), "access: 'AUTO' is not a number from 0 to 4294967295");
        let start = "is not manual or automatic, or a number from 0 to 4294967295";
        assert_eq!(error("UnloadStart 1 AUTO"), format!("start: 'AUTO' {start}"));
        assert_eq!(error("in 1 1 0 AB1 -"), "name: 'AB1' is not pairs of hex digits, or - for none");
        assert_eq!(error("secs 010"), "message: '010' is not pairs of hex digits, or - for none");
        assert_eq!(error("reply -1 9"), "number: '-1' is not a number from 0 to 4294967295");
        assert_eq!(error("reply 1 65537"), "room: '65537' is not a number from 0 to 65536");
        let wafers = "is not whole wafers of 32 hex digits each, or - for none";
        assert_eq!(error("in 35 0 0 - - 0 0 00"), format!("wafers: '00' {wafers}"));
        let wafer = "is not PROCESS+HANDLING, both in decimal seconds, such as 90.5+12.25";
        assert_eq!(error("Wafers 9 AB 90.5"), format!("wafer: '90.5' {wafer}"));
        assert_eq!(error("Wafers 9 AB 1+1 -"), format!("wafer: '-' {wafer}"));
        assert!(error("Wafers 9 AB - 1+1").starts_with("'1+1' is one word too many: expected Wafers"));
        assert!(error("SlotMap AB 333").starts_with("codes: '333' is not 25 digits, one for each slot, or"));
        assert!(error("Bind 1 AB 333").starts_with("map: '333' is not 25 digits, one for each slot, or"));
    }
}
