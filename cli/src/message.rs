//! What a message says and why it was refused: indented lines below the `secs` line.
use crate::items::{format, head, items, Item, ASCII, LIST, U1};
use crate::script::Sent;
use hawsermole::{secs_at, Argument, Refusal, Row, ROWS, SECS_DEPTH, SECS_ITEMS, SLOTS};

const PARTS: [&str; 5] = ["data id", "action", "carrier name", "port", "attributes"];
const ACTIONS: [&str; 4] = ["Bind", "CarrierNotification", "ProceedWithCarrier", "CancelCarrier"];

/// The tree of items with the byte at which each begins, and for a refusal of the reader the byte where it was met.
pub fn read(message: &[u8], count: u32, refusal: Option<Refusal>) -> String {
    let read = items(message, count);
    let mut lines: String = read.iter().map(|item| item.line() + "\n").collect();
    if let Some(refusal) = refusal {
        let (at, why) = met(message, &read, refusal);
        lines += &format!("  refused, {}: {refusal}\n  at byte {at}: {why}\n", refusal.number());
        lines += "  the tool gets no input\n";
    }
    lines
}

/// Where a refusal was met, and what is there.
fn met(message: &[u8], read: &[Item], refusal: Refusal) -> (usize, String) {
    let at = secs_at(message);
    let head = head(message, at);
    let why = match (refusal, head) {
        (Refusal::CutShort, _) if at == message.len() => "the message ends where an item should begin".into(),
        (Refusal::CutShort, None) => "the message ends in the length bytes".into(),
        (Refusal::CutShort, Some(head)) => {
            format!("{} bytes of data are announced, {} are left", head.count, message.len() - head.body)
        }
        (Refusal::UnknownCode, _) => {
            format!("format code {:o} in octal is none that is read", message[at] >> 2)
        }
        (Refusal::BadLength, Some(head)) if head.lengths > 0 => {
            let (name, size) = format(head.code).expect("22 comes after 21");
            format!("a length of {} is no multiple of {size}, the bytes of one {name}", head.count)
        }
        (Refusal::BadLength, _) => "no length byte".into(),
        (Refusal::TooDeep, _) => format!("a list inside a list at depth {SECS_DEPTH}"),
        (Refusal::TooManyItems, _) => format!("an item after the first {SECS_ITEMS}"),
        (Refusal::BytesLeftOver, _) => format!("the item ends here, the message at {}", message.len()),
        _ => return misfit(read).expect("another shape has a place where it differs"),
    };
    (at, why)
}

/// The places of a list's elements.
fn elements(read: &[Item], list: usize) -> Vec<usize> {
    let inside = (list + 1..read.len()).take_while(|&place| read[place].depth > read[list].depth);
    inside.filter(|&place| read[place].depth == read[list].depth + 1).collect()
}

/// The first item of a whole message that isn't as S3F17 has it, and how it should be.
fn misfit(read: &[Item]) -> Option<(usize, String)> {
    let parts = elements(read, 0);
    if read[0].code != LIST || parts.len() != PARTS.len() {
        return Some((0, format!("needed: a list of five, being {}", PARTS.join(", "))));
    }
    let mut misfits = Vec::new();
    let mut needed = |place: usize, holds: bool, what: String| {
        if !holds {
            misfits.push((read[place].at, format!("needed: {what}")));
        }
    };
    let codes = [&[U1, 0o52, 0o54, 0o50][..], &[ASCII], &[ASCII], &[U1], &[LIST]];
    let formats = ["U1, U2, U4 or U8", "ASCII", "ASCII", "U1", "a list"];
    for part in 0..PARTS.len() {
        let fits = codes[part].contains(&read[parts[part]].code);
        needed(parts[part], fits, format!("{} as {}", PARTS[part], formats[part]));
    }
    let known = ACTIONS.iter().any(|action| read[parts[1]].is_text(action));
    needed(parts[1], known, format!("one of the actions {}", ACTIONS.join(", ")));
    for (place, attribute) in elements(read, parts[4]).into_iter().enumerate() {
        let pair = elements(read, attribute);
        let named = pair.len() == 2 && read[pair[0]].code == ASCII;
        needed(attribute, named, "an attribute as a list of two, an ASCII name and a value".into());
        if place == 0 && named && read[pair[0]].is_text("SlotMap") {
            let codes = elements(read, pair[1]);
            let map = codes.len() == SLOTS && codes.iter().all(|&code| read[code].code == U1);
            needed(pair[1], map, format!("a first SlotMap as a list of {SLOTS} U1"));
        }
    }
    for (place, item) in read.iter().enumerate() {
        needed(place, !item.holds_other_than_one(), "one value in a number or boolean item".into());
    }
    misfits.into_iter().min_by_key(|misfit| misfit.0)
}

/// The input that a good message asks for.
pub fn asked(message: &[u8], count: u32) -> Sent {
    let read = items(message, count);
    let row: &Row = ROWS.iter().find(|row| read[2].is_text(row.name)).expect("a good message has an action");
    let takes = |argument| row.arguments.contains(&argument);
    let port = if takes(Argument::Port) || takes(Argument::PortOrNone) { read[4].data[0].into() } else { 0 };
    let map = takes(Argument::MapOrNone) && read.get(7).is_some_and(|name| name.is_text("SlotMap"));
    let codes = if map { read[9..9 + SLOTS].iter().map(|code| code.data[0]).collect() } else { Vec::new() };
    Sent { number: row.number, port, name: read[3].data.into(), codes, ..Sent::default() }
}

#[cfg(test)]
mod tests {
    use super::*;
    use hawsermole::Tool;

    fn item(code: u8, data: &[u8]) -> Vec<u8> {
        [&[code << 2 | 1, data.len() as u8], data].concat()
    }

    fn list(elements: &[Vec<u8>]) -> Vec<u8> {
        [&[1, elements.len() as u8], &elements.concat()[..]].concat()
    }

    fn message(action: &str, attributes: &[Vec<u8>]) -> Vec<u8> {
        let (action, name) = (item(ASCII, action.as_bytes()), item(ASCII, b"AB"));
        list(&[item(U1, &[7]), action, name, item(U1, &[1]), list(attributes)])
    }

    fn pair(name: &[u8], value: Vec<u8>) -> Vec<u8> {
        list(&[item(ASCII, name), value])
    }

    /// The last lines, without those of the tree and without their indentation.
    fn told(message: &[u8]) -> String {
        let given = Tool::setup(1, 0).unwrap().secs_step(message);
        let text = read(message, given.items, given.answer.err());
        text.lines().skip(given.items as usize).map(str::trim_start).collect::<Vec<_>>().join("; ")
    }

    #[test]
    fn trees_have_places_and_depths() {
        let message = message("Bind", &[pair(b"Lot", list(&[item(0o10, &[1])]))]);
        let tree =
            "      0  L,5\n      2    U1 7\n      5    A \"Bind\"\n     11    A \"AB\"\n     15    U1 1\n\
                    \x20    18    L,1\n     20      L,2\n     22        A \"Lot\"\n     27        L,1\n\
                    \x20    29          B 01\n";
        assert_eq!(read(&message, 10, None), tree);
    }

    #[test]
    fn long_items_are_told_in_part() {
        let text = [&[0x43, 0x2D, 0xC6, 0xC0], &[b'A'; 3_000_000][..]].concat();
        assert_eq!(read(&text, 1, None), format!("      0  A \"{}..\n", "A".repeat(177)));
    }

    #[test]
    fn refusals_and_where_they_are_met() {
        let end = "the tool gets no input";
        let ends = "refused, 20: the message is cut short; at byte";
        assert_eq!(told(&[]), format!("{ends} 0: the message ends where an item should begin; {end}"));
        assert_eq!(told(&[1, 1, 2]), format!("{ends} 2: the message ends in the length bytes; {end}"));
        let data = "5 bytes of data are announced, 1 are left";
        assert_eq!(told(&[1, 1, 0x41, 5, 0x41]), format!("{ends} 2: {data}; {end}"));
        let unknown =
            "refused, 21: unknown format code; at byte 2: format code 21 in octal is none that is read";
        assert_eq!(told(&[1, 1, 0x45, 0]), format!("{unknown}; {end}"));
        assert!(told(&[1, 1, 0x40]).contains("; at byte 2: no length byte; "));
        let uneven = "; at byte 0: a length of 3 is no multiple of 2, the bytes of one U2; ";
        assert!(told(&[0xA9, 3, 1, 2, 3]).contains(uneven));
        assert!(told(&[1; 20]).contains("23: lists too deep; at byte 12: a list inside a list at depth 6; "));
        let many = list(&vec![item(U1, &[0]); 128]);
        assert!(told(&many).contains("24: too many items; at byte 383: an item after the first 128; "));
        let left = "refused, 25: bytes left over; at byte 2: the item ends here, the message at 5";
        assert_eq!(told(&[1, 0, 1, 0, 1]), format!("{left}; {end}"));
    }

    #[test]
    fn other_shapes_and_where_they_differ() {
        let shape = |message: &[u8]| {
            let told = told(message);
            let told = told.strip_prefix("refused, 26: another shape or action; at byte ").expect(&told);
            told.strip_suffix("; the tool gets no input").expect(told).to_string()
        };
        let five = "0: needed: a list of five, being data id, action, carrier name, port, attributes";
        assert_eq!(shape(&[1, 0]), five);
        assert_eq!(shape(&item(ASCII, b"Bind")), five);
        assert!(shape(&message("Bond", &[])).starts_with("5: needed: one of the actions Bind, "));
        let map = pair(b"SlotMap", list(&vec![item(U1, &[3]); 24]));
        assert_eq!(shape(&message("Bind", &[map])), "31: needed: a first SlotMap as a list of 25 U1");
        let one = "29: needed: one value in a number or boolean item";
        assert_eq!(shape(&message("Bind", &[pair(b"Lot", list(&[item(0o11, &[])]))])), one);
        assert!(shape(&message("Bind", &[item(U1, &[1])])).starts_with("20: needed: an attribute as a list"));
    }

    /// 0: a good message, whose input the tool got; 1: another shape; 2: refused before. Each is told so.
    fn agrees(message: &[u8], tool: &Tool) -> usize {
        let (mut bridged, mut stepped) = (tool.clone(), tool.clone());
        let given = bridged.secs_step(message);
        let misfit = |count| misfit(&items(message, count));
        match given.answer {
            Err(Refusal::ShapeOrAction) => {
                assert!(misfit(given.items).is_some());
                1
            }
            Err(refusal) if refusal.is_of_message() => {
                assert!(read(message, given.items, Some(refusal)).contains("at byte"));
                2
            }
            answer => {
                assert_eq!(misfit(given.items), None);
                assert_eq!(answer, stepped.step_parts(&asked(message, given.items).parts()));
                assert_eq!(bridged, stepped);
                0
            }
        }
    }

    /// Each byte of four messages becomes one that means something: what is told here agrees with the archive.
    #[test]
    fn what_is_told_is_what_the_archive_says() {
        let telling = [0, 1, 2, 5, 0x18, 0x21, 0x40, 0x41, 0x45, 0x65, 0xA5, 0xA9];
        let map = pair(b"SlotMap", list(&vec![item(U1, &[3]); 25]));
        let lot = pair(b"Lot", list(&[item(0o52, &[1, 2]), list(&[item(0o10, &[])])]));
        let (tool, mut met) = (Tool::setup(1, 0).unwrap(), [0; 3]);
        for action in ACTIONS {
            let good = message(action, &[map.clone(), lot.clone()]);
            for place in 0..good.len() {
                for byte in telling {
                    let mut message = good.clone();
                    message[place] = byte;
                    met[agrees(&message, &tool)] += 1;
                }
            }
        }
        assert!(met.iter().all(|&count| count > 500), "{met:?}");
    }
}
