//! Undoing pairs (request P10), through the typed interface: a tool is compared with all its bytes.
use hawsermole::states::Start;
use hawsermole::{ExpectedMap, Input, Tool};

const HAND: u32 = Start::Manual as u32;
const VEHICLE: u32 = Start::Automatic as u32;

fn accept(tool: &mut Tool, input: &Input) {
    tool.step(input).unwrap_or_else(|no| panic!("{input}: {no}"));
}

/// The tool after two inputs, both accepted; nothing where it is the one before, byte for byte.
fn left(before: &Tool, first: Input, undo: Input) -> Option<Tool> {
    let mut tool = before.clone();
    accept(&mut tool, &first);
    assert_ne!(tool.as_bytes(), before.as_bytes(), "{first} changes something");
    accept(&mut tool, &undo);
    (tool.as_bytes() != before.as_bytes()).then_some(tool)
}

/// The bytes in which a tool differs from another, with their new values.
fn differing(before: &Tool, after: &Tool) -> Vec<(usize, u8)> {
    let bytes = before.as_bytes().iter().zip(after.as_bytes()).enumerate();
    bytes.filter(|(_, (one, other))| one != other).map(|(at, (_, &other))| (at, other)).collect()
}

/// B is bound to port 2, C may leave port 3, which is in AUTO, and D is announced.
fn busy() -> Tool {
    let mut tool = Tool::setup_with_times(4, 0, 60, 120).unwrap();
    for input in [
        Input::Bind { port: 2, name: b"B" },
        Input::LoadStart { port: 3, start: HAND },
        Input::LoadDone { port: 3 },
        Input::IdRead { port: 3, name: b"C" },
        Input::CancelCarrier { name: b"C", port: 0 },
        Input::ChangeAccess { port: 3, access: 1 },
        Input::CarrierNotification { name: b"D" },
    ] {
        accept(&mut tool, &input);
    }
    tool
}

const fn unload(start: u32) -> Input<'static> {
    Input::UnloadStart { port: 3, start }
}

const NOT_UNLOADED: Input = Input::UnloadFail { port: 3 };

#[test]
fn the_four_pairs() {
    let tool = busy();
    let map = ExpectedMap::new(&[3; 25]).unwrap();
    // Names with blanks at the end are the same pair.
    for [name, again] in [[b"A".as_slice(), b"A"], [b"A", b"A    "], [b"A ", b"A"]] {
        let unbind = Input::CancelBind { port: 1, name: again };
        assert_eq!(left(&tool, Input::Bind { port: 1, name }, unbind), None);
        assert_eq!(left(&tool, Input::BindWithMap { port: 1, name, map }, unbind), None);
        let forget = Input::CancelCarrierNotification { name: again };
        assert_eq!(left(&tool, Input::CarrierNotification { name }, forget), None);
        assert_eq!(left(&tool, Input::CarrierNotificationWithMap { name, map }, forget), None);
    }
    let free = Input::CancelReservationAtPort { port: 1 };
    assert_eq!(left(&tool, Input::ReserveAtPort { port: 1 }, free), None);
    assert_eq!(left(&tool, unload(VEHICLE), NOT_UNLOADED), None);
}

/// LoadStart ends the reservation, and LoadFail doesn't bring it back: that byte of port 2 is all that differs.
#[test]
fn load_start_and_load_fail_are_no_pair() {
    let tool = busy();
    let load = |port| (Input::LoadStart { port, start: HAND }, Input::LoadFail { port });
    let (start, fail) = load(2);
    let after = left(&tool, start, fail).expect("the reservation is gone");
    assert_eq!(differing(&tool, &after), [(3 + 22 + 2, 0)]);
    let (start, fail) = load(1);
    assert_eq!(left(&tool, start, fail), None);
}

/// The alarm of a hand in AUTO stays: it is all that differs.
#[test]
fn a_hand_in_auto_is_not_undone() {
    let tool = busy();
    let after = left(&tool, unload(HAND), NOT_UNLOADED).expect("the alarm is on");
    assert_eq!(differing(&tool, &after), [(3488 + 2 * 2, 1)]);
    assert!(after.alarm(3));
    // A second hand leaves nothing new.
    assert_eq!(left(&after, unload(HAND), NOT_UNLOADED), None);
}

/// The record comes back behind the others.
#[test]
fn cancel_bind_and_bind_change_the_order_of_records() {
    let tool = busy();
    let names = |tool: &Tool| tool.carriers().map(|carrier| carrier.name.to_string()).collect::<Vec<_>>();
    let (cancel, bind) = (Input::CancelBind { port: 2, name: b"B" }, Input::Bind { port: 2, name: b"B" });
    let after = left(&tool, cancel, bind).expect("another order");
    assert_eq!((names(&tool).join(" "), names(&after).join(" ")), ("B C D".into(), "C D B".into()));
    // There it stands last, and comes back to where it was.
    assert_eq!(left(&after, cancel, bind), None);
}
