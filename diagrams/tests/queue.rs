//! What the manual says of the queue for CarrierOut, tried on the machine.
use hawsermole::{Input, Refusal, Tool};

/// A tool with carriers in its buffer, each in the place of its number.
fn stored(ports: u32, names: &[&[u8]]) -> Tool {
    let mut tool = Tool::setup(ports, 16).unwrap();
    for (&name, place) in names.iter().zip(1..) {
        load(&mut tool, 1, name);
        tool.step(&Input::MoveIn { port: 1, place }).unwrap();
    }
    tool
}

/// A pod that was announced stands at a port, its ID OK.
fn load(tool: &mut Tool, port: u32, name: &[u8]) {
    give(
        tool,
        &[
            Input::CarrierNotification { name },
            Input::LoadStart { port, start: 0 },
            Input::LoadDone { port },
            Input::IdRead { port, name },
        ],
    );
}

fn give(tool: &mut Tool, inputs: &[Input]) {
    for input in inputs {
        assert!(tool.step(input).is_ok(), "{input}");
    }
}

/// The answer that an input would get.
fn asked(tool: &Tool, input: &Input) -> u8 {
    tool.clone().step(input).map_or_else(Refusal::number, |_| 0)
}

const AB: &[u8] = b"AB";
const AC: &[u8] = b"AC";

/// What uses the carrier AB or port 1 for something else.
const ELSEWHERE: [Input; 8] = [
    Input::Open { name: AB },
    Input::LoadStart { port: 1, start: 0 },
    Input::CancelReservationAtPort { port: 1 },
    Input::Bind { port: 1, name: b"AX" },
    Input::ReserveAtPort { port: 1 },
    Input::OutStart { port: 1 },
    Input::ChangeAccess { port: 1, access: 1 },
    Input::ChangeServiceStatus { port: 1, service: 0 },
];

/// The page's table of what is kept from OutStart to OutDone, and what is refused meanwhile.
#[test]
fn carrier_and_port_are_kept_for_each_other() {
    let mut tool = stored(2, &[AB, AC]);
    load(&mut tool, 2, b"AD");
    give(&mut tool, &[Input::CarrierOut { name: AB, port: 1 }, Input::CarrierOut { name: AC, port: 1 }]);
    let waiting = ELSEWHERE.each_ref().map(|input| asked(&tool, input));
    assert_eq!(waiting, [0, 0, 5, 0, 0, 0, 0, 0], "a request that waits keeps nothing");
    give(&mut tool, &[Input::OutStart { port: 1 }]);
    let started = ELSEWHERE.each_ref().map(|input| asked(&tool, input));
    assert_eq!(started, [5, 4, 4, 4, 4, 4, 4, 4]);
    assert_eq!(asked(&tool, &Input::MoveIn { port: 2, place: 1 }), 8);
    assert_eq!(asked(&tool, &Input::MoveIn { port: 2, place: 3 }), 0);
    assert_eq!(asked(&tool, &Input::CancelCarrierOut { name: AB }), 5);
    give(&mut tool, &[Input::CancelCarrier { name: AB, port: 0 }, Input::CancelAllCarrierOut]);
    give(&mut tool, &[Input::OutDone { port: 1 }, Input::MoveIn { port: 2, place: 1 }]);
    assert_eq!(tool.requests().len(), 0);
}

/// "OutStart takes the oldest that is ready", and those that aren't keep their place.
#[test]
fn the_oldest_that_is_ready_goes_first() {
    let mut tool = stored(2, &[AB, AC, b"AD"]);
    for name in [AB, AC, b"AD"] {
        give(&mut tool, &[Input::CarrierOut { name, port: 1 }]);
    }
    give(&mut tool, &[Input::Open { name: AB }, Input::OutStart { port: 1 }]);
    let queue = |tool: &Tool| tool.requests().map(|of| (of.name.to_string(), of.started)).collect::<Vec<_>>();
    assert_eq!(queue(&tool), [("AB".into(), 0), ("AC".into(), 1), ("AD".into(), 0)]);
    give(&mut tool, &[Input::OutDone { port: 1 }, Input::Close { name: AB }]);
    give(&mut tool, &[Input::UnloadStart { port: 1, start: 0 }, Input::UnloadDone { port: 1 }]);
    give(&mut tool, &[Input::OutStart { port: 1 }]);
    assert_eq!(queue(&tool), [("AB".into(), 1), ("AD".into(), 0)]);
}

/// "9 stands in nobody's way": with 16 requests every carrier in the buffer has its own.
#[test]
fn a_full_queue_has_every_carrier_of_the_buffer() {
    let names: Vec<Vec<u8>> = (b'A'..b'A' + 16).map(|letter| vec![letter]).collect();
    let mut tool = stored(1, &names.iter().map(Vec::as_slice).collect::<Vec<_>>());
    for name in &names {
        let out = Input::CarrierOut { name, port: 1 };
        assert_eq!(asked(&tool, &out), 0);
        give(&mut tool, &[out]);
        assert_eq!(asked(&tool, &out), if *name == names[15] { 9 } else { 10 });
    }
    assert!(tool.carriers().filter(|of| of.place == 2).all(|of| tool.requests().any(|r| r.name == of.name)));
    assert!(names.iter().all(|name| asked(&tool, &Input::CarrierOut { name, port: 1 }) == 9));
}

/// "OutDone, CarrierIn, MoveIn to its own place": the record is as it was before CarrierOut.
#[test]
fn the_way_back_leaves_the_record_as_it_was() {
    let before = stored(2, &[AB, AC]);
    let mut tool = before.clone();
    give(&mut tool, &[Input::CarrierOut { name: AB, port: 1 }, Input::OutStart { port: 1 }]);
    give(&mut tool, &[Input::OutDone { port: 1 }, Input::CarrierIn { name: AB }]);
    give(&mut tool, &[Input::MoveIn { port: 1, place: 1 }]);
    assert!(tool == before);
}
