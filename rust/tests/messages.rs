//! Messages from the host bridge (request P3), through the typed interface.
use hawsermole::{secs_at, ExpectedMap, Input, Refusal, Tool, SECS_DEPTH, SECS_ITEMS};

const LIST: u8 = 0o00;
const ASCII: u8 = 0o20;
const JIS8: u8 = 0o21;
const U1: u8 = 0o51;
const U2: u8 = 0o52;

fn item(code: u8, data: &[u8]) -> Vec<u8> {
    [&[code << 2 | 1, data.len() as u8], data].concat()
}

fn list(elements: &[Vec<u8>]) -> Vec<u8> {
    [&[LIST << 2 | 1, elements.len() as u8], &elements.concat()[..]].concat()
}

fn message(action: &[u8], name: &[u8], port: u8, attributes: &[Vec<u8>]) -> Vec<u8> {
    let text = |text| item(ASCII, text);
    list(&[item(U1, &[1]), text(action), text(name), item(U1, &[port]), list(attributes)])
}

fn slot_map(codes: &[u8]) -> Vec<u8> {
    let codes: Vec<Vec<u8>> = codes.iter().map(|&code| item(U1, &[code])).collect();
    list(&[item(ASCII, b"SlotMap"), list(&codes)])
}

/// Port 1 is free, and at port 2 CD waits for the host.
fn tool() -> Tool {
    let mut tool = Tool::setup(2, 0).unwrap();
    for input in [
        Input::LoadStart { port: 2, start: 0 },
        Input::LoadDone { port: 2 },
        Input::IdRead { port: 2, name: b"CD" },
    ] {
        tool.step(&input).unwrap();
    }
    tool
}

#[test]
fn a_message_is_the_input_that_it_asks_for() {
    let codes = [3; 25];
    let (name, map) = (b"AB", ExpectedMap::new(&codes).unwrap());
    let maps = [slot_map(&codes)];
    for (message, input) in [
        (message(b"Bind", name, 1, &[]), Input::Bind { port: 1, name }),
        (message(b"Bind", name, 1, &maps), Input::BindWithMap { port: 1, name, map }),
        (message(b"Bind", name, 2, &[]), Input::Bind { port: 2, name }),
        (message(b"CarrierNotification", name, 9, &[]), Input::CarrierNotification { name }),
        (message(b"CarrierNotification", name, 0, &maps), Input::CarrierNotificationWithMap { name, map }),
        (message(b"ProceedWithCarrier", b"CD", 0, &maps), Input::ProceedWithCarrier { name: b"CD", port: 0 }),
        (message(b"ProceedWithCarrier", b"CD", 1, &[]), Input::ProceedWithCarrier { name: b"CD", port: 1 }),
        (message(b"CancelCarrier", b"CD  ", 2, &[]), Input::CancelCarrier { name: b"CD", port: 2 }),
    ] {
        let (mut bridged, mut stepped) = (tool(), tool());
        let given = bridged.secs_step(&message);
        assert_eq!((given.answer, secs_at(&message)), (stepped.step(&input), message.len()), "{input}");
        assert_eq!(bridged, stepped, "{input}");
        assert_eq!(given.items, if message.len() > 60 { 34 } else { 6 }, "{input}");
    }
}

#[test]
fn every_refusal_of_the_reader_leaves_the_tool_alone() {
    let good = message(b"Bind", b"AB", 1, &[]);
    let deep = (0..SECS_DEPTH + 1).fold(Vec::new(), |inner, depth| match depth {
        0 => list(&[]),
        _ => list(&[inner]),
    });
    let many = list(&vec![item(U1, &[0]); SECS_ITEMS]);
    for (message, refusal, items, at) in [
        (&good[..good.len() - 1], Refusal::CutShort, 5, 18),
        (&[], Refusal::CutShort, 0, 0),
        (&[0xFF; 300], Refusal::CutShort, 0, 0),
        (&list(&[item(JIS8, b"A")]), Refusal::UnknownCode, 1, 2),
        (&item(U2, &[1]), Refusal::BadLength, 0, 0),
        (&[0x40], Refusal::BadLength, 0, 0),
        (&deep, Refusal::TooDeep, 6, 12),
        (&many, Refusal::TooManyItems, 128, many.len() - 3),
        (&[&good[..], b"\0"].concat(), Refusal::BytesLeftOver, 6, good.len()),
        (&message(b"Bond", b"AB", 1, &[]), Refusal::ShapeOrAction, 6, good.len()),
        (&message(b"Bind", b"AB", 1, &[slot_map(&[3; 24])]), Refusal::ShapeOrAction, 33, 105),
    ] {
        let mut after = tool();
        let given = after.secs_step(message);
        assert_eq!((given.answer, given.items, secs_at(message)), (Err(refusal), items, at));
        assert_eq!(after, tool());
        assert_eq!(Tool::none().secs_step(message).answer, Err(refusal));
    }
    assert_eq!(Tool::none().secs_step(&good).answer, Err(Refusal::OutOfRange));
}

/// The tool's refusals come as those of a step: 1 for codes that can't be expected and for a bad name.
#[test]
fn what_the_tool_refuses_is_its_own_answer() {
    for message in [
        message(b"Bind", b"AB", 1, &[slot_map(&[5; 25])]),
        message(b"Bind", b"A B", 1, &[]),
        message(b"Bind", b"", 1, &[]),
        message(b"Bind", b"AB", 0, &[]),
    ] {
        let mut after = tool();
        assert_eq!(after.secs_step(&message).answer, Err(Refusal::OutOfRange));
        assert_eq!(after, tool());
    }
}
