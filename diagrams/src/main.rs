//! `diagrams DIR` writes the pictures; `diagrams --check DIR` compares them with those that are there.
#![forbid(unsafe_code)]

use diagrams::explore::{explore, explore_from, explore_predictions, Found, NAMES};
use diagrams::walk::walk;
use diagrams::{made, pictures};
use hawsermole::EVENTS;
use std::ffi::OsString;
use std::fs;
use std::path::Path;
use std::process::ExitCode;

const USAGE: &str = "\
usage: diagrams DIR            writes the pictures of the state models, of a CarrierOut request and of time to DIR
       diagrams --check DIR    status 1 unless DIR holds just the pictures that would be written
       diagrams --events ROOT  writes the card and what is made from ROOT/docs/events.tsv; status 1 unless that has
                               every report that a run gives
       diagrams --check-events ROOT
                               status 1 unless these files are there already
       diagrams --walk FILE    plays a script of the command line and prints it as a table
       diagrams --list         prints the transitions and what causes them
       diagrams --wide         searches more ports, places and names; status 1 if that finds anything else
";

fn main() -> ExitCode {
    let arguments: Vec<OsString> = std::env::args_os().skip(1).collect();
    let done = match arguments.iter().map(|argument| argument.to_str()).collect::<Vec<_>>()[..] {
        [Some("--help")] => say(USAGE),
        [Some("--list")] => say(&list(&explore())),
        [Some("--wide")] => wide(),
        [Some("--walk"), _] => walked(Path::new(&arguments[1])),
        [Some("--check"), _] => check(Path::new(&arguments[1])),
        [Some("--events"), _] => write_events(Path::new(&arguments[1])),
        [Some("--check-events"), _] => check_events(Path::new(&arguments[1])),
        [Some(option)] if option.starts_with('-') => Err(format!("unknown arguments\n{USAGE}")),
        [_] => write(Path::new(&arguments[0])),
        _ => Err(format!("unknown arguments\n{USAGE}")),
    };
    match done {
        Ok(()) => ExitCode::SUCCESS,
        Err(message) => {
            eprintln!("diagrams: {}", message.trim_end());
            ExitCode::FAILURE
        }
    }
}

fn say(text: &str) -> Result<(), String> {
    print!("{text}");
    Ok(())
}

fn walked(file: &Path) -> Result<(), String> {
    let script = fs::read_to_string(file).map_err(|error| format!("{}: {error}", file.display()))?;
    let rows = walk(&script).map_err(|message| format!("{}: {message}", file.display()))?;
    say(&(rows.join("\n") + "\n"))
}

fn write(folder: &Path) -> Result<(), String> {
    for (file, text) in pictures(&explore())? {
        let path = folder.join(file);
        fs::write(&path, text).map_err(|error| format!("{}: {error}", path.display()))?;
    }
    Ok(())
}

fn write_events(root: &Path) -> Result<(), String> {
    for (file, text) in made(root, &explore())? {
        fs::write(root.join(file), text).map_err(|error| format!("{file}: {error}"))?;
    }
    Ok(())
}

fn check_events(root: &Path) -> Result<(), String> {
    let files = made(root, &explore())?;
    for (file, text) in &files {
        let there = fs::read_to_string(root.join(file)).map_err(|error| format!("{file}: {error}"))?;
        if there != *text {
            return Err(format!("{file} is not what would be made now: make diagrams"));
        }
    }
    say(&format!(
        "diagrams: {} reports of inputs have their events, {} files: as checked in\n",
        EVENTS.len(),
        files.len()
    ))
}

/// A picture that is there and wouldn't be written is a difference too.
fn check(folder: &Path) -> Result<(), String> {
    let found = explore();
    let pictures = pictures(&found)?;
    for (file, text) in &pictures {
        let path = folder.join(file);
        let there = fs::read(&path).map_err(|error| format!("{}: {error}", path.display()))?;
        if there != text.as_bytes() {
            return Err(format!("{} is not what the machine does now", path.display()));
        }
    }
    let told = |error| format!("{}: {error}", folder.display());
    for entry in fs::read_dir(folder).map_err(told)? {
        let path = entry.map_err(told)?.path();
        let known = pictures.iter().any(|(file, _)| path.ends_with(file));
        if !known && path.extension().is_some_and(|end| end == "svg") {
            return Err(format!("{} is no picture that would be written", path.display()));
        }
    }
    let edges = found.edges.len();
    say(&format!(
        "diagrams: {} pictures, {edges} transitions in {} tools: as checked in\n",
        pictures.len(),
        found.tools
    ))
}

fn list(found: &Found) -> String {
    let mut text = String::new();
    for (edge, causes) in &found.edges {
        let causes: Vec<String> =
            causes.iter().map(|(&cause, &kinds)| diagrams::text::cause(*edge, cause, kinds)).collect();
        text += &format!("{} {}>{}  {}\n", edge.of.short(), edge.old, edge.new, causes.join(", "));
    }
    text
}

/// Each wider search takes a minute or so; together they hold what the bounds of `explore` leave out.
fn wide() -> Result<(), String> {
    let narrow = list(&explore());
    let three: [&[u8]; 3] = [NAMES[0], NAMES[1], b"C"];
    let mut found = Found::default();
    for (ports, places, names) in [(1, 0, &three[..]), (1, 1, &three), (1, 2, &NAMES), (2, 0, &NAMES)] {
        explore_from(ports, places, names, &mut found);
        println!("ports {ports}, places {places}, names {}: {} tools so far", names.len(), found.tools);
    }
    explore_predictions(&NAMES, &mut found);
    match list(&found) == narrow {
        true => say("diagrams: nothing else\n"),
        false => Err(format!("the wider search found\n{}and the pictures have\n{narrow}", list(&found))),
    }
}
