//! `hawsermole [FILE]` plays a script of E87 inputs on the proved machine, line by line as it comes;
//! `hawsermole judge FILE` judges a log by document 01, `hawsermole log SCRIPT [FILE]` writes one.
#![forbid(unsafe_code)]

mod causes;
mod dialogue;
mod entry;
mod explain;
mod fields;
mod grounds;
mod hands;
mod items;
mod judge;
mod log;
mod message;
mod numbers;
mod options;
mod people;
mod player;
mod pods;
mod predictions;
mod print;
mod progress;
mod queue;
mod reply;
mod run;
#[cfg(test)]
mod runs;
mod script;
mod soundness;
mod standing;
mod values;
mod wafers;

use options::Options;
use run::End;
use std::io;
use std::process::ExitCode;

/// What was expected wasn't printed.
const UNMET: u8 = 1;
/// Everything else that goes wrong.
const TROUBLE: u8 = 2;

fn main() -> ExitCode {
    match options::read(std::env::args_os().skip(1)) {
        Ok(Options::Help) => say(&options::help()),
        Ok(Options::Version) => say(&format!("hawsermole {}\n", env!("CARGO_PKG_VERSION"))),
        Ok(Options::Play { file, manner }) => match run::play(file.as_deref(), manner) {
            Ok(End::Well) => ExitCode::SUCCESS,
            Ok(End::Unmet) => ExitCode::from(UNMET),
            Ok(End::Unreadable) => ExitCode::from(TROUBLE),
            Err(message) => fail(&message),
        },
        Ok(Options::Judge { file }) => match judge::judge_file(file.as_deref(), &mut io::stdout()) {
            Ok(status) => ExitCode::from(status),
            Err(message) => fail(&message),
        },
        Ok(Options::Log { script, file }) => match log::write(script.as_deref(), file.as_deref()) {
            Ok(printed) => say(&printed),
            Err(message) => fail(&message),
        },
        Err(message) => fail(&format!("{message}\n{}", options::USAGE)),
    }
}

fn say(text: &str) -> ExitCode {
    match run::send(&mut io::stdout(), text) {
        Ok(_) => ExitCode::SUCCESS,
        Err(message) => fail(&message),
    }
}

fn fail(message: &str) -> ExitCode {
    run::tell(&mut io::stderr(), message);
    ExitCode::from(TROUBLE)
}
