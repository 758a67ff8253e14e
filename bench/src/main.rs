//! The figures: time per input of the proved machine and of the independent program, and inputs whose instructions are
//! counted.

mod frame;
mod logs;
mod machine;
mod messages;
mod mix;
mod play;
mod states;
mod time;

use std::process::ExitCode;

const USAGE: &str = "\
usage: bench time [N [ROUNDS]]         time per message and frame, entries of a log of N a second, and time per input of
                                       N mixed inputs; the last line is the ratio of the inputs
       bench play N CARRIERS           plays N mixed inputs near so many live carriers to the proved machine
       bench play N CARRIERS INPUT     plays one input, by its document 01 name or number, from N prepared states
       bench search N CARRIERS         plays every row in turn, accepted and refused, from N prepared states
       bench timed N CARRIERS          plays the inputs that bring the clock in turn, from N prepared states
       bench wafers N CARRIERS         plays wafers from N prepared states
       bench unsound N CARRIERS        plays every row in turn from N states that aren't sound
       bench names                     gives texts of some lengths to the name check
       bench frame                     asks whether anyone waits, of 36 records: none does, and the first does
       bench messages                  gives messages of some kinds to the bridge
N and ROUNDS from 1, CARRIERS from 0 to 36";

fn number(word: &str, from: usize, to: usize) -> Option<usize> {
    word.parse().ok().filter(|n| (from..=to).contains(n))
}

/// Nothing where the words can't be read.
fn run(words: &[&str]) -> Option<Result<(), String>> {
    let count = |word: &str| number(word, 1, usize::MAX);
    let carriers = |word: &str| number(word, 0, independent::MAX_CARRIERS);
    match words {
        ["time"] => return Some(time::time(1_000_000, 7)),
        ["time", n] => return Some(time::time(count(n)?, 7)),
        ["time", n, rounds] => return Some(time::time(count(n)?, count(rounds)?)),
        ["play", n, c] => play::mix(count(n)?, carriers(c)?),
        ["play", n, c, input] => play::one_row(play::row_of(input)?, count(n)?, carriers(c)?),
        ["search", n, c] => play::search(count(n)?, carriers(c)?),
        ["timed", n, c] => play::timed(count(n)?, carriers(c)?),
        ["wafers", n, c] => play::wafers(count(n)?, carriers(c)?),
        ["names"] => play::names(),
        ["messages"] => messages::play(),
        ["unsound", n, c] => play::unsound(count(n)?, carriers(c)?),
        ["frame"] => frame::play(),
        _ => return None,
    }
    Some(Ok(()))
}

fn main() -> ExitCode {
    if !hawsermole::raw::sizes_agree() {
        eprintln!("bench: the archive has other sizes than the structs that are lent to it");
        return ExitCode::FAILURE;
    }
    let words: Vec<String> = std::env::args().skip(1).collect();
    let words: Vec<&str> = words.iter().map(String::as_str).collect();
    match run(&words) {
        Some(Ok(())) => ExitCode::SUCCESS,
        Some(Err(why)) => {
            eprintln!("bench: {why}");
            ExitCode::FAILURE
        }
        None => {
            eprintln!("{USAGE}");
            ExitCode::from(2)
        }
    }
}
