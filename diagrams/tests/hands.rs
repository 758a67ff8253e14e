//! What the manual says of hands on an AUTO port, tried on the machine.
use hawsermole::{Input, Parts, Refusal, Tool, ROWS};

const HAND: u32 = 0;
const VEHICLE: u32 = 1;

const fn load(start: u32) -> Input<'static> {
    Input::LoadStart { port: 1, start }
}

const fn unload(start: u32) -> Input<'static> {
    Input::UnloadStart { port: 1, start }
}

const DONE: Input = Input::LoadDone { port: 1 };
const FAIL: Input = Input::LoadFail { port: 1 };
const CONTINUE: Input = Input::Continue { port: 1 };
const READ: Input = Input::IdRead { port: 1, name: b"AB" };
const REJECT: Input = Input::CancelCarrier { name: b"AB", port: 1 };

/// A tool whose port 1 has this access mode, after these inputs; and the reports of the last.
fn after(access: u32, inputs: &[Input]) -> (Tool, String) {
    let mut tool = Tool::setup(1, 1).unwrap();
    let mut reports = tool.step(&Input::ChangeAccess { port: 1, access }).unwrap();
    for input in inputs {
        reports = tool.step(input).unwrap_or_else(|no| panic!("{input}: {no}"));
    }
    (tool, reports.to_string())
}

/// The page's table of who starts.
#[test]
fn who_starts_in_manual_and_in_auto() {
    assert_eq!(after(0, &[load(HAND)]).1, "1 1 1>3");
    assert_eq!(after(0, &[]).0.step(&load(VEHICLE)), Err(Refusal::AutomaticInManual));
    assert_eq!(after(1, &[load(HAND)]).1, "1 1 1>3; 9 1 0>1");
    assert_eq!(after(1, &[load(VEHICLE)]).1, "1 1 1>3");
    let mut tool = after(0, &[load(HAND)]).0;
    assert_eq!(tool.step(&load(VEHICLE)), Err(Refusal::Conditions));
    assert_eq!(tool.step(&unload(VEHICLE)), Err(Refusal::Conditions));
}

/// "Nothing is read there until somebody decides": of all inputs to a held port those two alone change the tool, and
/// CarrierNotification, which is for no port.
#[test]
fn a_held_pod_waits_for_continue_or_load_fail() {
    let (held, reports) = after(1, &[load(HAND), DONE]);
    assert_eq!(reports, "none");
    let changes = |number: u32, value: u32| {
        let mut tool = held.clone();
        let parts = Parts { number, port: 1, value, name: b"AB", ..Parts::default() };
        tool.step_parts(&parts).is_ok() && tool != held
    };
    let leading: Vec<u32> = ROWS
        .iter()
        .map(|row| row.number)
        .filter(|&number| changes(number, 0) || changes(number, 1))
        .collect();
    assert_eq!(leading, [3, 15, 36]);
    let (loaded, _) = after(1, &[load(VEHICLE), DONE]);
    assert!(after(1, &[load(HAND), DONE, CONTINUE]).0 == loaded);
    for cancelled in [&[load(HAND), DONE, FAIL][..], &[load(HAND), FAIL]] {
        assert!(after(1, cancelled).0 == after(1, &[]).0);
    }
}

/// The rest of the page: how an alarm of an unload ends, and what leaves it on.
#[test]
fn an_alarm_of_an_unload_ends_at_ready_to_load() {
    let stays = Input::UnloadFail { port: 1 };
    let manual = Input::ChangeAccess { port: 1, access: 0 };
    let arrived = [load(VEHICLE), DONE, READ, REJECT, unload(HAND)];
    for more in [&[stays][..], &[stays, unload(HAND)], &[stays, unload(VEHICLE)], &[stays, manual]] {
        let (tool, reports) = after(1, &[&arrived, more].concat());
        assert!(tool.alarm(1) && !tool.held(1) && !reports.contains("9 1"), "{reports}");
    }
    let (tool, reports) = after(1, &[&arrived[..], &[Input::UnloadDone { port: 1 }]].concat());
    assert!(!tool.alarm(1) && reports.ends_with("; 9 1 1>0"), "{reports}");
}

/// "MoveIn of a carrier that was called back in".
#[test]
fn a_carrier_that_is_called_back_in_ends_it_too() {
    let name = b"AB";
    let (move_in, accept) =
        (Input::MoveIn { port: 1, place: 1 }, Input::ProceedWithCarrier { name, port: 1 });
    let out = [Input::CarrierOut { name, port: 1 }, Input::OutStart { port: 1 }, Input::OutDone { port: 1 }];
    let back = [unload(HAND), Input::UnloadFail { port: 1 }, Input::CarrierIn { name }, move_in];
    let (tool, reports) =
        after(1, &[&[load(VEHICLE), DONE, READ, accept, move_in][..], &out, &back].concat());
    assert_eq!((tool.alarm(1), reports.as_str()), (false, "1 1 3>1; 4 1 1>0; 9 1 1>0"));
}
