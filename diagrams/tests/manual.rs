//! What docs/MANUAL.md quotes, cites and claims.
use diagrams::explore::{each_step, each_timed_step, Step, NAMES};
use diagrams::walk::walk;
use std::collections::HashSet;
use std::fs;
use std::path::PathBuf;

fn root() -> PathBuf {
    PathBuf::from(env!("CARGO_MANIFEST_DIR")).join("..")
}

fn read(file: &str) -> String {
    fs::read_to_string(root().join(file)).unwrap_or_else(|error| panic!("{file}: {error}"))
}

/// The text between each pair of marks.
fn between<'a>(text: &'a str, open: &str, close: &str) -> Vec<&'a str> {
    text.split(open).skip(1).map(|rest| rest.split(close).next().unwrap_or(rest)).collect()
}

const TRIPS: [&str; 2] = ["examples/fixed_buffer_round_trip", "examples/internal_buffer_round_trip"];

#[test]
fn round_trips_are_those_of_the_examples() {
    let manual = read("docs/MANUAL.md");
    let head = "| Input | Answer, reports | After it |\n|---|---|---|\n";
    let written: Vec<&str> = between(&manual, head, "\n\n").iter().flat_map(|table| table.lines()).collect();
    let played = TRIPS.map(|trip| walk(&read(&format!("{trip}.script"))).unwrap()).concat();
    assert_eq!(written, played);
}

/// The gate plays the scripts on the command line and compares with these files.
#[test]
fn answers_are_those_of_the_command_line() {
    for trip in TRIPS {
        let rows = walk(&read(&format!("{trip}.script"))).unwrap();
        let answers: Vec<&str> = rows.iter().flat_map(|row| between(row, "| `", "` |")).collect();
        let expected = read(&format!("{trip}.expected"));
        let answered = |line: &&str| line.as_bytes()[0].is_ascii_digit();
        assert_eq!(answers, expected.lines().filter(answered).collect::<Vec<_>>());
    }
}

#[test]
fn what_the_firmware_prints_is_quoted_as_it_is() {
    let manual = read("docs/MANUAL.md");
    let quoted = between(&manual, "```text\n", "```");
    assert_eq!(quoted.len(), 1);
    assert!(read("tests/c/firmware.txt").contains(quoted[0]));
}

/// A heading's link: small letters, hyphens for blanks, no other signs.
fn anchors(page: &str) -> HashSet<String> {
    let headings =
        page.lines().filter(|line| line.starts_with('#')).map(|line| line.trim_start_matches('#').trim());
    let letter = |letter: char| match letter {
        ' ' | '-' => Some('-'),
        _ => letter.is_alphanumeric().then(|| letter.to_ascii_lowercase()),
    };
    headings.map(|heading| heading.chars().filter_map(letter).collect()).collect()
}

#[test]
fn links_lead_somewhere() {
    let manual = read("docs/MANUAL.md");
    let links = between(&manual, "](", ")");
    assert!(links.len() > 30);
    for link in links {
        let (file, anchor) = link.split_once('#').unwrap_or((link, ""));
        let file = if file.is_empty() { "MANUAL.md" } else { file };
        let page = read(&format!("docs/{file}"));
        assert!(anchor.is_empty() || anchors(&page).contains(anchor), "{link}");
    }
}

/// One heading is one page, and the contents name each with its number; they are the first page.
#[test]
fn contents_have_every_page() {
    let manual = read("docs/MANUAL.md");
    let headings = manual.lines().filter_map(|line| line.strip_prefix("## "));
    let pages: Vec<String> =
        headings.zip(2..).map(|(heading, page)| format!("| {page} | [{heading}](")).collect();
    let contents = between(&manual, "| Page | | For |\n|---|---|---|\n", "\n\n")[0];
    assert_eq!(contents.lines().count(), pages.len());
    for (line, page) in contents.lines().zip(pages) {
        assert!(line.starts_with(&page), "{line}");
    }
}

#[test]
fn labels_and_scripts_are_there() {
    let (manual, narrowings) = (read("docs/MANUAL.md"), read("docs/NARROWINGS.md"));
    let words = manual.split(|letter: char| !letter.is_ascii_alphanumeric());
    let number = |word: &&str| word.strip_prefix('N').is_some_and(|rest| rest.parse::<u8>().is_ok());
    let labels: HashSet<&str> = words.filter(number).collect();
    assert!(labels.len() > 30);
    for label in labels {
        assert!(narrowings.contains(&format!("\n| {label} |")), "{label}");
    }
    let folder = fs::read_dir(root().join("tests/scenarios")).unwrap();
    let there: Vec<String> = folder.map(|entry| entry.unwrap().file_name().into_string().unwrap()).collect();
    let mut cited = between(&manual, "`", "`");
    cited.retain(|word| ["r1_2_", "r3_4_", "narrowings_"].iter().any(|start| word.starts_with(start)));
    assert!(cited.len() > 10);
    for script in cited {
        assert!(there.iter().any(|file| file.starts_with(script)), "{script}");
    }
}

/// "Send it again. If it was in, it is now refused or changes nothing": tried after every accepted input within
/// the bounds of the search, and of the one with clocks and times.
#[test]
fn an_input_sent_twice_does_no_more_than_once() {
    let mut tried = 0;
    let mut twice = |step: Step<'_>| {
        let mut again = step.after.clone();
        assert!(again.step(step.input).map_or(true, |reports| reports.len() == 0), "{}", step.input);
        assert!(again == *step.after, "{}", step.input);
        tried += 1;
    };
    for places in [0, 1] {
        each_step(1, places, &NAMES, &mut twice);
    }
    each_timed_step(&NAMES[..1], &mut twice);
    assert!(tried > 30_000, "{tried}");
}
