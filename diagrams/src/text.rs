//! The words of a picture, and how much room they take.
use crate::explore::{choice, Cause, Edge, Kinds};
use crate::subject::Subject;
use hawsermole::{Argument, Event, Row};

/// In pixels; 13 of them are some 9 points when the picture is as wide as the text of an A4 page.
pub const SIZE: i32 = 13;
pub const LINE: i32 = 16;

/// Marks of transitions with their numbers in the standard's table, and of those that it doesn't have.
pub const NUMBER: &str = "#";
pub const NO_NUMBER: &str = "no #";

/// Marks of inputs that cause a transition in one kind of tool alone.
pub const FIXED: &str = "(F)";
pub const INTERNAL: &str = "(I)";

/// An input on an arrow, with the standard's number of what it causes there: `AccessEnd: stopped #20`, `MoveIn #8 (I)`.
pub fn cause(edge: Edge, cause: Cause, kinds: Kinds) -> String {
    let row = Row::numbered(cause.number).expect("the search sends rows");
    let mut text = String::from(row.name);
    if let (Some(argument), Some(value)) = (choice(row), cause.choice) {
        text += ": ";
        text += value_word(argument, value);
    }
    if let Some(numbers) = passed(edge, cause.number) {
        text += " ";
        text += &numbers;
    }
    match (kinds.fixed, kinds.internal) {
        (true, false) => text + " " + FIXED,
        (false, true) => text + " " + INTERNAL,
        _ => text,
    }
}

/// The transitions as the standard numbers them: `#10 #5`. It has no state model of a request or of hands.
fn passed(Edge { of, old, new }: Edge, input: u32) -> Option<String> {
    let Subject::Model(model) = of else { return None };
    let event = Event::of_change(input, model, old, new);
    let numbers: Vec<String> =
        event.into_iter().flat_map(|event| event.passed).map(|number| format!("{NUMBER}{number}")).collect();
    Some(if numbers.is_empty() { NO_NUMBER.into() } else { numbers.join(" ") })
}

/// The word for one of two values: document 01's, where it is a number of the input's.
fn value_word(argument: Argument, value: u32) -> &'static str {
    match (argument, value) {
        (Argument::Access, 0) => "MANUAL",
        (Argument::Access, _) => "AUTO",
        (Argument::Service, 0) => "out",
        (Argument::Service, _) => "in",
        (Argument::Codes, 0) => "otherwise",
        (Argument::Codes, _) => "as expected",
        (Argument::Start, 0) => "manual",
        (Argument::Start, _) => "automatic",
        (_, 0) => "complete",
        (_, _) => "stopped",
    }
}

/// At least the width of a line, whichever of the usual fonts without serifs a reader has.
pub fn width(text: &str) -> i32 {
    let hundredths: i32 = text.chars().map(|letter| SIZE * wide(letter)).sum();
    hundredths / 100 + 1
}

fn wide(letter: char) -> i32 {
    match letter {
        'm' | 'w' | 'M' | 'W' => 95,
        'f' | 'i' | 'j' | 'l' | 'r' | 't' | 'I' => 42,
        'a'..='z' | '0'..='9' | '#' => 62,
        'A'..='Z' => 74,
        _ => 42,
    }
}

/// The words in as few lines as fit the room.
pub fn wrapped(text: &str, room: i32) -> Vec<String> {
    let mut lines: Vec<String> = Vec::new();
    for word in text.split(' ') {
        match lines.last_mut() {
            Some(line) if width(&format!("{line} {word}")) <= room => *line += &format!(" {word}"),
            _ => lines.push(word.into()),
        }
    }
    lines
}

#[cfg(test)]
mod tests {
    use super::*;
    use hawsermole::Model;

    const BOTH: Kinds = Kinds { fixed: true, internal: true };

    const INTERNAL_ALONE: Kinds = Kinds { fixed: false, internal: true };
    const FIXED_ALONE: Kinds = Kinds { fixed: true, internal: false };

    #[test]
    fn causes_have_document_01s_names_and_the_standards_numbers() {
        let named = |number, choice, kinds, (model, old, new)| {
            cause(Edge { of: Subject::Model(model), old, new }, Cause { number, choice }, kinds)
        };
        assert_eq!(named(1, None, BOTH, (Model::Tie, 0, 1)), "Bind #2");
        assert_eq!(named(9, Some(1), BOTH, (Model::Access, 0, 1)), "ChangeAccess: AUTO #2");
        assert_eq!(named(10, Some(0), BOTH, (Model::Transfer, 1, 0)), "ChangeServiceStatus: out #3");
        assert_eq!(named(22, Some(1), BOTH, (Model::Accessing, 2, 4)), "AccessEnd: stopped #20");
        assert_eq!(named(20, Some(1), BOTH, (Model::Slot, 1, 3)), "SlotMap: as expected #13");
        assert_eq!(named(20, Some(0), BOTH, (Model::Slot, 1, 2)), "SlotMap: otherwise #14");
        assert_eq!(named(15, None, BOTH, (Model::Transfer, 3, 1)), "LoadFail #10 #5");
        assert_eq!(named(6, None, BOTH, (Model::Id, 1, 4)), "CancelCarrier no #");
        assert_eq!(named(18, None, INTERNAL_ALONE, (Model::Transfer, 3, 1)), "MoveIn #8 (I)");
        assert_eq!(named(23, None, FIXED_ALONE, (Model::Transfer, 3, 2)), "Close #9 (F)");
        let of_request = Edge { of: Subject::Request, old: 1, new: 2 };
        assert_eq!(cause(of_request, Cause { number: 27, choice: None }, INTERNAL_ALONE), "OutStart (I)");
        let of_hands = Edge { of: Subject::Hands, old: 0, new: 1 };
        assert_eq!(cause(of_hands, Cause { number: 13, choice: Some(0) }, BOTH), "LoadStart: manual");
        assert_eq!(named(13, None, BOTH, (Model::Transfer, 1, 3)), "LoadStart #6");
    }

    #[test]
    fn lines_break_between_words() {
        assert_eq!(wrapped("SLOT MAP VERIFICATION OK", 140), ["SLOT MAP", "VERIFICATION OK"]);
        assert_eq!(wrapped("AUTO", 10), ["AUTO"]);
    }
}
