//! What the command line asks for.
use crate::{script, values};
use hawsermole::{LogRefusal, Refusal, ROWS};
use std::ffi::OsString;
use std::path::PathBuf;

/// One line on how to call the program.
pub const USAGE: &str =
    "usage: hawsermole [--explain] [--keep-going] [--check] [FILE]   (hawsermole --help says more)";
/// How the two words are called that judge and write logs.
const JUDGE: &str = "judge FILE";
const LOG: &str = "log SCRIPT [FILE]";

/// What to do.
#[derive(Debug, PartialEq, Eq)]
pub enum Options {
    Help,
    Version,
    /// No file is standard input.
    Play {
        file: Option<PathBuf>,
        manner: Manner,
    },
    /// No file is standard input.
    Judge {
        file: Option<PathBuf>,
    },
    /// No script is standard input, no file standard output.
    Log {
        script: Option<PathBuf>,
        file: Option<PathBuf>,
    },
}

/// How a script is played.
#[derive(Clone, Copy, Debug, Default, PartialEq, Eq)]
pub struct Manner {
    /// Lines in E87's words below each answer.
    pub explain: bool,
    /// A line that can't be carried out is told, and the run goes on.
    pub keep_going: bool,
    /// What is printed is held to the lines that `expect` it.
    pub check: bool,
}

/// Reads the arguments; `Err` says what is wrong with them.
pub fn read(arguments: impl Iterator<Item = OsString>) -> Result<Options, String> {
    let (mut files, mut word, mut manner, mut only_files) = (Vec::new(), None, Manner::default(), false);
    for argument in arguments {
        let dashed = argument.as_encoded_bytes().starts_with(b"-") && argument != "-";
        if !only_files && files.is_empty() && word.is_none() && (argument == "judge" || argument == "log") {
            word = Some(argument);
            continue;
        }
        if only_files || !dashed {
            files.push(argument);
            continue;
        }
        match argument.to_str() {
            Some("--help" | "-h") => return Ok(Options::Help),
            Some("--version") => return Ok(Options::Version),
            Some("--explain") => manner.explain = true,
            Some("--keep-going") => manner.keep_going = true,
            Some("--check") => manner.check = true,
            Some("--") => only_files = true,
            _ => return Err(format!("unknown option '{}'", values::shown(argument.as_encoded_bytes()))),
        }
    }
    let mut files = files.into_iter().map(|file| (file != "-").then(|| PathBuf::from(file)));
    match word {
        None if files.len() > 1 => Err("more than one FILE".into()),
        None => Ok(Options::Play { file: files.next().flatten(), manner }),
        Some(word) if manner != Manner::default() => {
            Err(format!("'{}' goes with no option", values::shown(word.as_encoded_bytes())))
        }
        Some(word) if word == "judge" => match (files.next(), files.next()) {
            (Some(file), None) => Ok(Options::Judge { file }),
            _ => Err(format!("expected {JUDGE}")),
        },
        Some(_) => match (files.next(), files.next(), files.next()) {
            (Some(script), file, None) => Ok(Options::Log { script, file: file.flatten() }),
            _ => Err(format!("expected {LOG}")),
        },
    }
}

/// The text of `--help`.
pub fn help() -> String {
    let mut text = String::from(HELP);
    for row in &ROWS {
        text += &format!("  {:<35}{}\n", script::usage(row), row.text);
    }
    for (word, meaning) in [
        ("ACCESS", "0 MANUAL, 1 AUTO"),
        ("SERVICE", "0 out of service, 1 in service"),
        ("END", "0 complete, 1 stopped"),
        (
            "START",
            "who moves the pod: manual, a hand, or automatic, a vehicle; left out, it is manual, as 0 is",
        ),
        ("CODES", values::CODES),
        ("MAP", "the slot map that the host expects, as CODES, each 1 or 3; may be left out"),
        ("CLOCK", "the time in seconds, never earlier than the last that was accepted"),
        ("TP, TE", "the time in seconds at which the carrier will be ready to unload"),
        ("WAFER", values::WAFER),
    ] {
        text += &format!("\n  {word:<10}{meaning}");
    }
    text += HELP_END;
    for refusal in Refusal::ALL {
        text += &format!("  {:>2}  {refusal}\n", refusal.number());
    }
    text += "\nA log is refused with the first that is met in the order of the file:\n\n";
    for refusal in LogRefusal::ALL {
        text += &format!("  {:>2}  {refusal}\n", refusal.number());
    }
    text
}

const HELP: &str = "\
usage: hawsermole [--explain] [--keep-going] [--check] [FILE]
       hawsermole judge FILE
       hawsermole log SCRIPT [FILE]

Plays a script of SEMI E87 inputs on the proved machine, line by line as it comes, from FILE or
standard input (no FILE, or -).

  --explain     adds lines in E87's words to each answer and report, the cause of a refusal and what to
                do, the name used for a padded one, and the items of a message and of a reply
  --keep-going  tells of a line that can't be carried out and goes on, as at a terminal
  --check       ends with status 1 unless every line that expect names was printed
  --help, -h    prints this
  --version     prints the version

judge judges FILE, the log of another maker's tool, by document 01 before any request. Its last line is
agrees, entry K, the first that disagrees, from 0, or refused N; the status is 0, 1 or 2. Before it stand,
side by side, what that entry shows and what document 01 gives. log writes such a log of SCRIPT, a set-up
and document 01's inputs alone, with its answers (CarrierOut moves the carrier at once, and nobody asks
who starts to load), to FILE or standard output. A file whose name is one of these two words is played
as ./judge or after --.

A script has one command on each line, its words apart by spaces or tabs. An empty line, and one that
begins with #, prints nothing.

  setup P B [SETTING TIMEOUT]       a tool of P ports (1 to 4) and B buffer places (0 to 16); setting time
                                    and timeout of predictions in seconds (0 to 86400), 0 where left out
  in NUMBER PORT VALUE NAME CODES [CLOCK TIME WAFERS]
                                    an input by number; NAME and CODES in hex, - for none; CLOCK and TIME
                                    in seconds, 0 where left out; WAFERS in hex, 16 bytes each, process
                                    and handling as the bits of an f64, high byte first, - where left out
  secs HEX                          a message from the host bridge: the text of an S3F17 in hex
  exchange HEX ROOM                 the same, and its reply, the text of an S3F18, in ROOM bytes of room
  reply NUMBER ROOM                 the reply to an answer, which may be any number
  dump                              the whole state, for programs
  state                             the same, for people
  waiting                           the first carrier that waits for the host
  pods                              the pods that came in and went out since the set-up, and those here
  save FILE                         the tool's bytes to a file
  load FILE                         the tool from such a file, sound or not
  undo                              takes back the last line that changed the tool, up to 1000 of them,
                                    and the count of its pods with it
  expect WORD..                     what the line before must have printed; a last word .. stands for any
                                    more. Of several such lines each is held to one line that was printed

Inputs by name, with names as text:

";

const HELP_END: &str = "

There are none to 25 wafers, and each of their times is a whole multiple of 1/1024, from 0 to less than
1048576; a decimal is taken for the f64 that is nearest to it.

A PORT of 0 and a NAME of - mean \"not given\". Names may be any text: the machine drops blanks at the
end, up to 32 bytes in all, and refuses what no carrier can be called. A name that holds a blank, or is
a single -, is sent with in.

setup prints   setup ANSWER
in prints      ANSWER COUNT [MODEL SUBJECT OLD NEW; ..]   with names in hex
a name prints  ANSWER  MODEL SUBJECT OLD>NEW; ..          or none
secs prints    secs REFUSAL ITEMS   REFUSAL is 0, or 20 to 26 and the tool got no input;
               where it is 0, the answer of its input follows as in prints it
exchange prints exchange ANSWER ITEMS REPLY   REPLY in hex; where the tool got an input, its answer
               follows as in prints it; ANSWER 14 and REPLY - where the reply is longer than ROOM (0 to
               65536), and the tool got no input
reply prints   reply 0 REPLY, or reply 14 -
dump prints    port I TRANSFER ACCESS RESERVED TIE MOVEMENT POD TAG
               rec NAME PLACE SPOT PORT OPEN CANCELLED CAME-OUT CODES ID SLOT ACCESSING
               map NAME CODES   for each record with an expected map
               out NAME PORT STARTED   for each CarrierOut that is queued, the oldest first
               time CLOCK SETTING TIMEOUT   CLOCK is the last that was accepted
               predict NAME STATE TP TE   for each record where B is 0; - for no time
               alarm PORT ALARM HELD   for each port: its AccessModeViolation alarm, and a pod held there
               end
waiting prints waiting POSITION READ, or waiting none READ   the place of the first record, from 0,
               whose carrier waits for the host, and how many records were read to know
pods prints    pods IN OUT PORTS BUFFER   IN: LoadDone without those that were held, and Continue; OUT:
               UnloadDone; - and - for a tool that was loaded. IN less OUT is PORTS, the pods at ports,
               plus BUFFER, the carriers in the buffer; a run in which it isn't ends with status 2
save prints    save BYTES
load prints    load sound; load unsound and which clause fails; or load none, for a file of zeros
undo prints    undo LINE, the line that is taken back, or undo none
expect prints  nothing

Before a set-up, and after one that was refused, there is no tool: every input is answered 1, and a
message is read all the same. A line that can't be carried out is named on standard error, the tool stays
as it is, and the run ends with status 2: at once, or with --keep-going or at a terminal after the last line.

ANSWER is 0, accepted, or why it was refused (the lowest number that applies); REFUSAL 20 to 26 is the
first that was met, and the lowest at one item:

";

#[cfg(test)]
mod tests {
    use super::*;

    fn asked(arguments: &[&str]) -> Result<Options, String> {
        read(arguments.iter().map(OsString::from))
    }

    fn play(file: Option<&str>, explain: bool) -> Result<Options, String> {
        Ok(Options::Play { file: file.map(PathBuf::from), manner: Manner { explain, ..Manner::default() } })
    }

    #[test]
    fn files_and_standard_input() {
        assert_eq!(asked(&[]), play(None, false));
        assert_eq!(asked(&["-"]), play(None, false));
        assert_eq!(asked(&["a"]), play(Some("a"), false));
        assert_eq!(asked(&["--", "--explain"]), play(Some("--explain"), false));
        assert_eq!(asked(&["a", "b"]), Err("more than one FILE".into()));
        assert_eq!(asked(&["-", "-"]), Err("more than one FILE".into()));
    }

    #[test]
    fn options_stand_anywhere() {
        assert_eq!(asked(&["--explain", "a"]), play(Some("a"), true));
        assert_eq!(asked(&["a", "--explain"]), play(Some("a"), true));
        assert_eq!(asked(&["--help", "--nonsense"]), Ok(Options::Help));
        assert_eq!(asked(&["-h"]), Ok(Options::Help));
        assert_eq!(asked(&["--version"]), Ok(Options::Version));
    }

    #[test]
    fn logs_are_judged_and_written() {
        let path = |file: &str| Some(PathBuf::from(file));
        let written = |script, file| Ok(Options::Log { script, file });
        assert_eq!(asked(&["judge", "a"]), Ok(Options::Judge { file: path("a") }));
        assert_eq!(asked(&["judge", "judge"]), Ok(Options::Judge { file: path("judge") }));
        assert_eq!(asked(&["judge", "-"]), Ok(Options::Judge { file: None }));
        assert_eq!(asked(&["judge", "--", "--explain"]), Ok(Options::Judge { file: path("--explain") }));
        assert_eq!(asked(&["log", "a"]), written(path("a"), None));
        assert_eq!(asked(&["log", "a", "b"]), written(path("a"), path("b")));
        assert_eq!(asked(&["log", "-", "-"]), written(None, None));
        assert_eq!(asked(&["--", "judge"]), play(Some("judge"), false));
        assert_eq!(asked(&["./log"]), play(Some("./log"), false));
        assert_eq!(asked(&["judge", "--help"]), Ok(Options::Help));
    }

    #[test]
    fn logs_need_their_files() {
        assert_eq!(asked(&["judge"]), Err("expected judge FILE".into()));
        assert_eq!(asked(&["judge", "a", "b"]), Err("expected judge FILE".into()));
        assert_eq!(asked(&["log"]), Err("expected log SCRIPT [FILE]".into()));
        assert_eq!(asked(&["log", "a", "b", "c"]), Err("expected log SCRIPT [FILE]".into()));
        assert_eq!(asked(&["--check", "judge", "a"]), Err("'judge' goes with no option".into()));
    }

    #[test]
    fn each_option_sets_its_own() {
        let manner = |argument| match asked(&[argument]) {
            Ok(Options::Play { file: None, manner }) => (manner.explain, manner.keep_going, manner.check),
            other => panic!("{other:?}"),
        };
        assert_eq!(manner("--explain"), (true, false, false));
        assert_eq!(manner("--keep-going"), (false, true, false));
        assert_eq!(manner("--check"), (false, false, true));
    }

    #[test]
    fn unknown_options_are_named() {
        assert_eq!(asked(&["--expl"]), Err("unknown option '--expl'".into()));
        assert_eq!(asked(&["-x"]), Err("unknown option '-x'".into()));
        assert_eq!(asked(&["-x", "--help"]), Err("unknown option '-x'".into()));
    }

    #[test]
    fn help_names_every_input_and_refusal() {
        let help = help();
        assert!(ROWS.iter().all(|row| help.contains(&format!("  {} ", row.name))));
        assert!(help.contains("\n   8  the buffer place is taken, or the opener is in use\n"));
        assert!(help.contains("\n  11  the clock is earlier than the last accepted\n"));
        assert!(help.contains("\n  pods  ") && help.contains("\npods prints    pods IN OUT PORTS BUFFER "));
        assert!(help.contains("\n  PredictedTime CLOCK NAME TP "));
        assert!(help.contains("\n  Wafers CLOCK NAME [WAFER..] "));
        assert!(help.contains("\n  12  a wafer's time or the predicted time is out of range\n"));
        assert!(help.contains("\n  26  another shape or action\n"));
        assert!(help.ends_with("\n  29  the log is cut short\n"));
    }
}
