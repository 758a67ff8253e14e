//! The table of events has every report that a run gives, and what is made from it is there; a table that lacks one,
//! has one too many or forgets a transition is told.
use diagrams::events::{check, read, Line};
use diagrams::explore::{explore, Found};
use diagrams::made;
use hawsermole::{Model, EVENTS};
use std::fs;
use std::path::{Path, PathBuf};
use std::sync::LazyLock;

static FOUND: LazyLock<Found> = LazyLock::new(explore);

fn root() -> PathBuf {
    Path::new(env!("CARGO_MANIFEST_DIR")).join("..")
}

fn lines() -> Vec<Line> {
    read(&fs::read_to_string(root().join("docs/events.tsv")).unwrap()).unwrap()
}

#[test]
fn every_report_has_its_line() {
    assert_eq!(check(&lines(), &FOUND), Ok(()));
    for (file, text) in made(&root(), &FOUND).unwrap() {
        assert!(fs::read_to_string(root().join(file)).unwrap() == text, "{file}");
    }
}

#[test]
fn the_crate_has_the_table() {
    let same = |(line, event): (&Line, &hawsermole::Event)| {
        let key = (event.input, event.model, event.old, event.new);
        assert_eq!((line.input, line.model, line.old, line.new), key);
        assert_eq!((&line.passed[..], &line.events[..]), (event.passed, event.events));
        assert_eq!(line.note, event.note);
    };
    assert_eq!(lines().len(), EVENTS.len());
    lines().iter().zip(&EVENTS).for_each(same);
}

/// Each label of NARROWINGS that the page cites has its line there.
#[test]
fn labels_are_there() {
    let read = |file| fs::read_to_string(root().join(file)).unwrap();
    let (page, narrowings) = (read("docs/EVENTS.md"), read("docs/NARROWINGS.md"));
    let words = page.split(|letter: char| !letter.is_ascii_alphanumeric());
    let number = |word: &&str| word.strip_prefix('N').is_some_and(|rest| rest.parse::<u8>().is_ok());
    let labels: Vec<&str> = words.filter(number).collect();
    assert!(labels.len() > 8);
    for label in labels {
        assert!(narrowings.contains(&format!("\n| {label} |")), "{label}");
    }
}

#[test]
fn a_table_that_is_wrong_is_told() {
    let told = |change: fn(&mut Vec<Line>)| {
        let mut lines = lines();
        change(&mut lines);
        check(&lines, &FOUND).unwrap_err()
    };
    let place = |lines: &[Line], input| lines.iter().position(|line| line.input == input).unwrap();
    let lacks = told(|lines| lines.retain(|line| (line.input, line.model, line.new) != (20, Model::Slot, 3)));
    assert_eq!(lacks, "events.tsv: input 20, report 6 1>3 is given by a run and has no line");
    let too_many = told(|lines| lines[0].input = 14);
    assert_eq!(too_many, "events.tsv: input 1, report 3 0>1 is given by a run and has no line");
    let extra = told(|lines| lines.push(Line { input: 14, ..lines[0].clone() }));
    assert_eq!(extra, "events.tsv: input 14, report 3 0>1 has a line, and no run gives it");
    let twice = told(|lines| lines.push(lines[0].clone()));
    assert_eq!(twice, "events.tsv: two lines for one report of an input");
    let mut wrong = lines();
    let access = place(&wrong, 9);
    wrong[access].passed = vec![1];
    assert_eq!(check(&wrong, &FOUND).unwrap_err(), "Table 9 #1 is shown by a report and listed as unseen");
    wrong[access].passed = vec![3];
    assert_eq!(check(&wrong, &FOUND).unwrap_err(), "Table 9 #2 is shown by no report, and no word why");
}
