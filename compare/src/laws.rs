//! What the documents say of every outcome, whatever the state: two programs that are wrong alike are found by it.

use independent::gen::{unpadded, Input};
use independent::requests::Tool;
use independent::Plain;

use crate::alarms;
use crate::machine::{Bridged, Outcome};
use crate::pairs::may_answer;
use crate::predict;
use crate::queue;
use crate::script::tabled;
use crate::wafers;

/// Why an outcome on which the programs agree is against the documents.
pub fn unlawful(before: &Tool, input: &Input, o: &Outcome) -> Option<String> {
    if !may_answer(input.number, o.answer) {
        return Some(format!("row {} has no answer {}", input.number, o.answer));
    }
    let past = o.reports.bytes().get(1 + 20 * o.reports.count as usize..);
    if past.is_none_or(|entries| entries.iter().any(|&byte| byte != 0)) {
        return Some("at most ten reports, and zeros past the count".into());
    }
    if !o.accepted() && (o.reports.count != 0 || o.tool.bytes() != before.bytes()) {
        return Some("a refusal changes no state and leaves no report".into());
    }
    badly_named(input, o)
        .or_else(|| badly_carried(input, o))
        .or_else(|| badly_judged(before, input, o))
        .or_else(|| queue::unlawful(before, input, o))
        .or_else(|| wafers::unlawful(before, input, o))
        .or_else(|| alarms::unlawful(before, input, o))
        .or_else(|| predict::unlawful(before, input, o))
}

/// The rows that take a name.
const NAMED: [u32; 19] = [1, 2, 3, 4, 5, 6, 7, 8, 16, 19, 20, 21, 22, 23, 29, 32, 33, 34, 35];

/// P4: the bytes before the blanks at the end of a text.
pub fn shortened(mut text: &[u8]) -> &[u8] {
    while let [front @ .., b' '] = text {
        text = front;
    }
    text
}

/// P4: at most 32 bytes, and 1 to 16 of 0x21 to 0x7E before the blanks at the end.
pub fn has_name(text: &[u8]) -> bool {
    let name = shortened(text);
    text.len() <= 32 && (1..=16).contains(&name.len()) && name.iter().all(u8::is_ascii_graphic)
}

/// P4: the row takes a name, and it has blanks at its end.
pub fn padded(input: &Input) -> bool {
    NAMED.contains(&input.number) && input.name.ends_with(b" ")
}

/// P4: a text without a name is answered 1 in a row that takes one; row 2's may be missing, which is length zero.
fn badly_named(input: &Input, o: &Outcome) -> Option<String> {
    let missing = input.number == 2 && input.name.is_empty();
    let bad = NAMED.contains(&input.number) && !missing && !has_name(&input.name);
    (bad && o.answer != 1).then(|| "a text that has no name in it is answered 1".into())
}

/// P1: a map that rows 1 and 3 carry has 25 codes of 1 and 3, or none.
fn badly_carried(input: &Input, o: &Outcome) -> Option<String> {
    let carries = [1, 3].contains(&input.number) && !input.codes.is_empty();
    let good = input.codes.len() == 25 && input.codes.iter().all(|code| [1, 3].contains(code));
    (carries && !good && o.answer != 1).then(|| "an expected map of other codes is answered 1".into())
}

/// P1: a slot map is OK at once where it equals the one expected, and else the host is asked. Either way this is one
/// difference, and one report.
fn badly_judged(before: &Tool, input: &Input, o: &Outcome) -> Option<String> {
    if input.number != 20 || !o.accepted() {
        return None;
    }
    let name = shortened(&input.name);
    let at = before.base.carrier.iter().position(|c| unpadded(&c.name) == name)?;
    let equal = before.expected_map(at).is_some_and(|map| map[..] == input.codes);
    let status = if equal { 3 } else { 2 };
    let reports = format!("6 {} 1>{status}", String::from_utf8_lossy(name));
    (tabled(&o.reports) != reports).then(|| format!("the slot map is judged by the one expected: {reports}"))
}

/// P3: why what both say of a message is against the documents, whatever the message.
pub fn misread(before: &Tool, message: &[u8], b: &Bridged) -> Option<String> {
    let (o, heard) = (&b.outcome, &b.heard);
    if !matches!(o.answer, 0..=8 | 20..=26) {
        return Some(format!("a message has no answer {}", o.answer));
    }
    if heard.items > 128 {
        return Some("at most 128 items".into());
    }
    let zeros = o.reports.bytes().iter().all(|&byte| byte == 0);
    if !o.accepted() && (!zeros || o.tool.bytes() != before.bytes()) {
        return Some("a refusal changes no state and leaves no report".into());
    }
    let stopped = match o.answer {
        20..=24 => heard.at <= message.len(),
        25 => heard.at < message.len(),
        _ => heard.at == message.len(),
    };
    (!stopped).then(|| "20 to 24 stop at an item, 25 before the end, the others at the end".into())
}
