//! From a report to the standard's events: reads `docs/events.tsv`, holds it to what the search found, and makes of it
//! what other languages read.
use crate::explore::{Cause, Edge, Found, Kinds};
use crate::subject::Subject;
use hawsermole::{Model, Row};
use std::collections::{BTreeMap, BTreeSet};

/// A line of the table: a report that an input gives, and the transitions that it stands for.
#[derive(Clone, Debug, PartialEq, Eq)]
pub struct Line {
    pub input: u32,
    pub model: Model,
    pub old: u8,
    pub new: u8,
    /// Transitions in the order in which they are passed; none where the standard has no such transition.
    pub passed: Vec<u8>,
    /// Those of them that want a collection event.
    pub events: Vec<u8>,
    pub note: String,
}

/// Transitions of the standard's tables that no report shows, and why.
pub const UNSEEN: [(u8, &[u8], &str); 6] = [
    (5, &[1], "set-up gives READY TO LOAD, and no report (N11)"),
    (
        7,
        &[10, 11],
        "there is no reader that is out of service or missing: the equipment sends IdReadFailed (N39)",
    ),
    (7, &[22], "document 000 has #23 to #29 of it, which are model 8's"),
    (9, &[1], "set-up gives MANUAL, and no report (N45)"),
    (10, &[1], "set-up gives NOT RESERVED; no event is required"),
    (11, &[1], "set-up gives NOT ASSOCIATED; no event is required"),
];

/// How many transitions each table has; Table 7 with those of document 000, which revises E87-0921.
pub const TABLES: [(u8, u8); 5] = [(5, 10), (7, 29), (9, 3), (10, 3), (11, 4)];

/// Reads the table; `Err` tells the line that can't be read.
pub fn read(text: &str) -> Result<Vec<Line>, String> {
    let told = |place: usize, what: &str| format!("events.tsv, line {}: {what}", place + 1);
    let mut lines = Vec::new();
    for (place, line) in text.lines().enumerate().filter(|(_, line)| !line.starts_with('#')) {
        let fields: Vec<&str> = line.split('\t').collect();
        let [input, name, model, old, new, table, passed, events, note] = fields[..] else {
            return Err(told(place, "not nine fields"));
        };
        let number = |field: &str| field.parse::<u8>().map_err(|_| told(place, "not a number"));
        let numbers = |field: &str| match field {
            "-" => Ok(Vec::new()),
            _ => field.split(' ').map(number).collect::<Result<Vec<u8>, String>>(),
        };
        let model = Model::from_number(number(model)?).ok_or_else(|| told(place, "not a model"))?;
        let line = Line {
            input: number(input)?.into(),
            model,
            old: number(old)?,
            new: number(new)?,
            passed: numbers(passed)?,
            events: numbers(events)?,
            note: if note == "-" { String::new() } else { note.into() },
        };
        check_line(&line, name, number(table)?).map_err(|what| told(place, what))?;
        lines.push(line);
    }
    Ok(lines)
}

fn check_line(line: &Line, name: &str, table: u8) -> Result<(), &'static str> {
    let transitions = TABLES.iter().find(|(known, _)| *known == table).map_or(0, |(_, count)| *count);
    let known = |number: &u8| (1..=transitions).contains(number);
    match () {
        _ if Row::numbered(line.input).is_none_or(|row| row.name != name) => {
            Err("another name than the input's")
        }
        _ if line.model.table() != table => Err("another table than the model's"),
        _ if !line.passed.iter().all(known) => Err("a transition that the table doesn't have"),
        _ if !line.events.iter().all(|event| line.passed.contains(event)) => {
            Err("an event that isn't passed")
        }
        _ if line.passed.len() > 3 => Err("more than three transitions"),
        _ if line.events != line.passed && line.note.is_empty() => Err("no event, and no word why"),
        _ if line.passed.is_empty() && line.note.is_empty() => Err("no number, and no word why"),
        _ => Ok(()),
    }
}

/// The table has just the reports that the search found, each once, and between it and [`UNSEEN`] every transition of
/// the standard's tables.
pub fn check(lines: &[Line], found: &Found) -> Result<(), String> {
    let written: BTreeSet<_> =
        lines.iter().map(|line| (line.input, line.model, line.old, line.new)).collect();
    let run: BTreeSet<_> = found.edges.iter().flat_map(reported).collect();
    let told = |(input, model, old, new): &(u32, Model, u8, u8), what: &str| {
        Err(format!("events.tsv: input {input}, report {} {old}>{new} {what}", model.number()))
    };
    if let Some(key) = run.difference(&written).next() {
        return told(key, "is given by a run and has no line");
    }
    if let Some(key) = written.difference(&run).next() {
        return told(key, "has a line, and no run gives it");
    }
    if written.len() != lines.len() {
        return Err("events.tsv: two lines for one report of an input".into());
    }
    for (table, count) in TABLES {
        check_table(lines, table, count)?;
    }
    Ok(())
}

/// What a transition is reported as, by each input that causes it; a request's isn't, and that of hands is its alarm's.
fn reported((edge, causes): (&Edge, &BTreeMap<Cause, Kinds>)) -> Vec<(u32, Model, u8, u8)> {
    match edge.of {
        Subject::Model(model) => {
            causes.keys().map(|cause| (cause.number, model, edge.old, edge.new)).collect()
        }
        Subject::Request | Subject::Hands => Vec::new(),
    }
}

fn check_table(lines: &[Line], table: u8, count: u8) -> Result<(), String> {
    let unseen =
        || UNSEEN.iter().filter(|(of, _, _)| *of == table).flat_map(|(_, numbers, _)| numbers.iter());
    for number in 1..=count {
        let seen = lines.iter().any(|line| line.model.table() == table && line.passed.contains(&number));
        match (seen, unseen().any(|of| *of == number)) {
            (true, true) => {
                return Err(format!("Table {table} #{number} is shown by a report and listed as unseen"))
            }
            (false, false) => {
                return Err(format!("Table {table} #{number} is shown by no report, and no word why"))
            }
            _ => {}
        }
    }
    Ok(())
}

fn row(line: &Line) -> &'static Row {
    Row::numbered(line.input).expect("checked when it was read")
}

/// `include/hawsermole_events.h`.
pub fn c(lines: &[Line]) -> String {
    let three = |numbers: &[u8]| {
        let of = |place: usize| numbers.get(place).copied().unwrap_or(0);
        format!("{{{}, {}, {}}}", of(0), of(1), of(2))
    };
    let entry = |line: &Line| {
        let Line { input, model, old, new, passed, events, .. } = line;
        let (number, table) = (model.number(), model.table());
        let (passed, events) = (three(passed), three(events));
        format!(
            "        {{{input}, {number}, {old}, {new}, {table}, {passed}, {events}}}, /* {} */\n",
            row(line).name
        )
    };
    let entries: String = lines.iter().map(entry).collect();
    include_str!("events.h").replace("COUNT", &lines.len().to_string()).replace("        ENTRIES\n", &entries)
}

/// `rust/src/event/table.rs`.
pub fn rust(lines: &[Line]) -> String {
    let entry = |line: &Line| {
        let Line { input, model, old, new, passed, events, note } = line;
        format!("    event({input}, Model::{model:?}, {old}, {new}, &{passed:?}, &{events:?}, {note:?}),\n")
    };
    format!(
        "//! Made from `docs/events.tsv` by `make diagrams`.\nuse super::{{event, Event}};\nuse crate::Model;\n\n\
         /// Every report that a run can give, by input and then by model.\n#[rustfmt::skip]\n\
         pub const EVENTS: [Event; {}] = [\n{}];\n",
        lines.len(),
        lines.iter().map(entry).collect::<String>()
    )
}

const BEGIN: &str = "<!-- made from events.tsv by make diagrams -->\n";
const END: &str = "<!-- end -->\n";

/// The page with its tables put in between the two marks.
pub fn page(lines: &[Line], page: &str) -> Result<String, String> {
    let (before, rest) = page.split_once(BEGIN).ok_or("EVENTS.md: no mark where the tables begin")?;
    let (_, after) = rest.split_once(END).ok_or("EVENTS.md: no mark where the tables end")?;
    let tables: String = Model::ALL.into_iter().map(|model| model_table(lines, model)).collect();
    Ok(format!("{before}{BEGIN}\n{tables}{}\n{END}{after}", unseen_table()))
}

fn numbers(numbers: &[u8]) -> String {
    let numbers: Vec<String> = numbers.iter().map(|number| format!("#{number}")).collect();
    if numbers.is_empty() {
        "none".into()
    } else {
        numbers.join(", ")
    }
}

fn model_table(lines: &[Line], model: Model) -> String {
    let mut text = format!(
        "### Model {}: {model}, Table {}\n\n\
         | Report | From, to | Input | Transition | Event | |\n|---|---|---|---|---|---|\n",
        model.number(),
        model.table()
    );
    let mut of_model: Vec<&Line> = lines.iter().filter(|line| line.model == model).collect();
    of_model.sort_by_key(|line| (line.old, line.new, line.input));
    for line in of_model {
        let Line { old, new, .. } = line;
        text += &format!(
            "| {old}>{new} | {}, {} | {} {} | {} | {} | {} |\n",
            model.state(*old),
            model.state(*new),
            line.input,
            row(line).name,
            numbers(&line.passed),
            numbers(&line.events),
            line.note
        );
    }
    text + "\n"
}

fn unseen_table() -> String {
    let row =
        |(table, unseen, why): &(u8, &[u8], &str)| format!("| {table} | {} | {why} |\n", numbers(unseen));
    let rows: String = UNSEEN.iter().map(row).collect();
    format!("### Transitions that no report shows\n\n| Table | Transition | Why |\n|---|---|---|\n{rows}")
}

#[cfg(test)]
mod tests {
    use super::*;

    const LINE: &str = "9\tChangeAccess\t2\t0\t1\t9\t2\t2\t-";

    #[test]
    fn lines_are_read() {
        let lines = read(&format!("# a comment\n{LINE}\n")).unwrap();
        assert_eq!((lines[0].input, lines[0].model, lines[0].old, lines[0].new), (9, Model::Access, 0, 1));
        assert_eq!(
            (&lines[0].passed[..], &lines[0].events[..], lines[0].note.as_str()),
            (&[2][..], &[2][..], "")
        );
    }

    #[test]
    fn bad_lines_are_told() {
        let told = |from: &str, to: &str| read(&LINE.replacen(from, to, 1)).unwrap_err();
        assert_eq!(told("\t-", ""), "events.tsv, line 1: not nine fields");
        assert_eq!(told("\t0\t", "\tx\t"), "events.tsv, line 1: not a number");
        assert_eq!(told("ChangeAccess", "Bind"), "events.tsv, line 1: another name than the input's");
        assert_eq!(told("\t9\t", "\t10\t"), "events.tsv, line 1: another table than the model's");
        assert_eq!(
            told("2\t2\t-", "4\t4\t-"),
            "events.tsv, line 1: a transition that the table doesn't have"
        );
        assert_eq!(told("2\t2\t-", "2\t3\t-"), "events.tsv, line 1: an event that isn't passed");
        assert_eq!(told("2\t2\t-", "2\t-\t-"), "events.tsv, line 1: no event, and no word why");
        assert_eq!(told("2\t2\t-", "-\t-\t-"), "events.tsv, line 1: no number, and no word why");
    }
}
