//! Hands on an AUTO port (request P9), through the typed interface.
use hawsermole::states::{Alarm, Start, State};
use hawsermole::{Input, Model, Parts, Refusal, Subject, Tool};

const HAND: u32 = Start::Manual as u32;
const VEHICLE: u32 = Start::Automatic as u32;
const DONE: Input = Input::LoadDone { port: 1 };
const FAIL: Input = Input::LoadFail { port: 1 };
const CONTINUE: Input = Input::Continue { port: 1 };

const fn load(start: u32) -> Input<'static> {
    Input::LoadStart { port: 1, start }
}

const fn unload(start: u32) -> Input<'static> {
    Input::UnloadStart { port: 1, start }
}

const fn access(access: u32) -> Input<'static> {
    Input::ChangeAccess { port: 1, access }
}

/// The reports of each input in document 01's form.
fn told(tool: &mut Tool, inputs: &[Input]) -> Vec<String> {
    inputs
        .iter()
        .map(|input| tool.step(input).unwrap_or_else(|no| panic!("{input}: {no}")).to_string())
        .collect()
}

/// A tool whose port 1 is in AUTO, after these inputs.
fn auto(inputs: &[Input]) -> Tool {
    let mut tool = Tool::setup(2, 0).unwrap();
    told(&mut tool, &[access(1)]);
    told(&mut tool, inputs);
    tool
}

/// Alarm and held pod of port 1.
fn hands(tool: &Tool) -> (bool, bool) {
    (tool.alarm(1), tool.held(1))
}

/// A pod at port 1 that may leave, in AUTO.
fn ready_to_unload() -> Tool {
    let name = b"AB";
    auto(&[load(VEHICLE), DONE, Input::IdRead { port: 1, name }, Input::CancelCarrier { name, port: 1 }])
}

#[test]
fn who_starts_and_for_whom_the_port_is() {
    let mut tool = Tool::setup(2, 0).unwrap();
    assert_eq!(tool.step(&load(VEHICLE)), Err(Refusal::AutomaticInManual));
    assert_eq!(told(&mut tool, &[load(HAND), FAIL, access(1)]), ["1 1 1>3", "1 1 3>1", "2 1 0>1"]);
    assert_eq!(told(&mut tool, &[load(VEHICLE), FAIL]), ["1 1 1>3", "1 1 3>1"]);
    assert_eq!(told(&mut tool, &[load(HAND), FAIL]), ["1 1 1>3; 9 1 0>1", "1 1 3>1; 9 1 1>0"]);
    for start in [2, 255, 256, u32::MAX] {
        assert_eq!(tool.step(&load(start)), Err(Refusal::OutOfRange));
        assert_eq!(tool.step(&unload(start)), Err(Refusal::OutOfRange));
    }
}

#[test]
fn a_load_by_hand_is_held_until_continue() {
    let mut tool = auto(&[load(HAND)]);
    assert_eq!(hands(&tool), (true, false));
    let loading = tool.ports().next();
    assert_eq!(told(&mut tool, &[DONE]), ["none"]);
    assert_eq!((hands(&tool), tool.ports().next()), ((true, true), loading));
    // Neither done nor read while it is held.
    assert_eq!(tool.step(&DONE), Err(Refusal::Conditions));
    assert_eq!(tool.step(&Input::IdRead { port: 1, name: b"AB" }), Err(Refusal::Conditions));
    assert_eq!(told(&mut tool, &[CONTINUE]), ["9 1 1>0"]);
    assert_eq!(tool, auto(&[load(VEHICLE), DONE]));
    assert_eq!(tool.step(&CONTINUE), Err(Refusal::Conditions));
}

#[test]
fn a_load_by_hand_is_cancelled() {
    let before = auto(&[]);
    for inputs in [&[load(HAND), FAIL][..], &[load(HAND), DONE, FAIL]] {
        assert_eq!(auto(inputs), before);
    }
    assert_eq!(auto(&[load(HAND), DONE]).step(&FAIL).unwrap().to_string(), "1 1 3>1; 9 1 1>0");
}

#[test]
fn an_unload_by_hand_keeps_its_alarm_until_ready_to_load() {
    let mut tool = ready_to_unload();
    let fail = Input::UnloadFail { port: 1 };
    assert_eq!(told(&mut tool, &[unload(HAND), fail]), ["1 1 2>3; 9 1 0>1", "1 1 3>2"]);
    assert_eq!(hands(&tool), (true, false));
    // A second hand, a vehicle and another access mode leave it on.
    let more = [unload(HAND), fail, unload(VEHICLE), fail, access(0), unload(HAND)];
    assert_eq!(told(&mut tool, &more), ["1 1 2>3", "1 1 3>2", "1 1 2>3", "1 1 3>2", "2 1 1>0", "1 1 2>3"]);
    let left = tool.step(&Input::UnloadDone { port: 1 }).unwrap();
    let last = left.last().unwrap();
    assert_eq!((last.model, last.subject), (Model::Alarm, Subject::Port(1)));
    let states = (last.old_state(), last.new_state());
    assert_eq!(states, (Some(State::Alarm(Alarm::On)), Some(State::Alarm(Alarm::Off))));
    assert_eq!(hands(&tool), (false, false));
}

/// 13 is the last number: a port that isn't ready is 5, whoever starts.
#[test]
fn refusals_in_their_order() {
    let mut tool = ready_to_unload();
    told(&mut tool, &[access(0)]);
    assert_eq!(tool.step(&load(VEHICLE)), Err(Refusal::Conditions));
    assert_eq!(tool.step(&unload(VEHICLE)), Err(Refusal::AutomaticInManual));
    let second = |number| Parts { number, port: 2, value: 1, ..Parts::default() };
    assert_eq!(tool.step_parts(&second(24)), Err(Refusal::Conditions));
    assert_eq!(tool.step_parts(&second(13)), Err(Refusal::AutomaticInManual));
    for port in [0, 3, 257] {
        assert_eq!(tool.step(&Input::Continue { port }), Err(Refusal::OutOfRange));
    }
    assert_eq!(tool.step(&Input::Continue { port: 2 }), Err(Refusal::Conditions));
}

/// Only what no run leaves is unsound: each port has its own two bytes.
#[test]
fn odd_hands_are_not_sound() {
    let sound = |tool: &Tool, byte: usize, value: u8| {
        let mut bytes = *tool.as_bytes();
        bytes[byte] = value;
        Tool::from_bytes(&bytes).is_sound()
    };
    let loading = auto(&[load(HAND)]);
    assert!(sound(&loading, 3488, 1) && sound(&loading, 3489, 1) && sound(&loading, 3488, 0));
    assert!(!sound(&loading, 3488, 2) && !sound(&loading, 3489, 2));
    // Port 2 is READY TO LOAD, port 3 isn't there, byte 3496 is nobody's.
    assert!((3490..3497).all(|byte| !sound(&loading, byte, 1)));
    // Held without its alarm.
    assert!(!sound(&auto(&[load(VEHICLE)]), 3489, 1));
}
