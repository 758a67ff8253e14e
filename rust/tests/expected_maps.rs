//! Slot maps that the tool judges (request P1), through the typed interface.
use hawsermole::{ExpectedMap, Input, Parts, Refusal, Tool};

const CODES: [u8; 25] = [3, 3, 1, 3, 3, 3, 3, 3, 3, 3, 3, 3, 1, 3, 3, 3, 3, 3, 3, 3, 3, 3, 3, 3, 1];

fn with_map(name: &[u8]) -> Input<'_> {
    Input::CarrierNotificationWithMap { name, map: ExpectedMap::new(&CODES).unwrap() }
}

/// A tool whose carrier AB, announced so, is open at port 1.
fn open(announced: Input) -> Tool {
    let mut tool = Tool::setup(1, 0).unwrap();
    for input in [
        announced,
        Input::LoadStart { port: 1, start: 0 },
        Input::LoadDone { port: 1 },
        Input::IdRead { port: 1, name: b"AB" },
        Input::Open { name: b"AB" },
    ] {
        tool.step(&input).unwrap();
    }
    tool
}

fn slot_map(tool: &Tool, codes: &[u8]) -> String {
    tool.clone().step(&Input::SlotMap { name: b"AB", codes }).unwrap().to_string()
}

#[test]
fn an_equal_map_is_ok_at_once_and_another_is_the_hosts() {
    let tool = open(with_map(b"AB"));
    assert_eq!(slot_map(&tool, &CODES), "6 AB 1>3");
    for slot in 0..25 {
        let mut codes = CODES;
        codes[slot] ^= 2;
        assert_eq!(slot_map(&tool, &codes), "6 AB 1>2", "slot {}", slot + 1);
    }
}

#[test]
fn without_a_map_the_host_is_asked() {
    let tool = open(Input::CarrierNotification { name: b"AB" });
    assert_eq!(tool.expected_map(b"AB"), None);
    for codes in [CODES, [0; 25], [3; 25]] {
        assert_eq!(slot_map(&tool, &codes), "6 AB 1>2");
    }
}

#[test]
fn a_map_goes_with_its_record() {
    let mut tool = Tool::setup(1, 0).unwrap();
    for input in [with_map(b"A"), Input::CarrierNotification { name: b"B" }, with_map(b"C")] {
        tool.step(&input).unwrap();
    }
    tool.step(&Input::CancelCarrierNotification { name: b"A" }).unwrap();
    assert_eq!([b"A", b"B", b"C"].map(|name| tool.expected_map(name).is_some()), [false, false, true]);
    tool.step(&Input::CarrierNotification { name: b"A" }).unwrap();
    assert_eq!(tool.expected_map(b"A"), None);
}

/// What no `ExpectedMap` holds can still be sent by its parts, and is answered.
#[test]
fn codes_that_are_no_map_are_refused() {
    let mut tool = Tool::setup(1, 0).unwrap();
    let before = tool.clone();
    for codes in [&[3; 24][..], &[3; 26], &[0; 25], &[2; 25], &[255; 25]] {
        for number in [1, 3] {
            let parts = Parts { number, port: 1, name: b"AB", codes, ..Parts::default() };
            assert_eq!(tool.step_parts(&parts), Err(Refusal::OutOfRange));
        }
    }
    assert_eq!(tool, before);
}
