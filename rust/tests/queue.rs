//! The queue for CarrierOut (request P5), through the typed interface.
use hawsermole::states::RequestState;
use hawsermole::{Input, Parts, Refusal, Tool, Wafer, REQUESTS};

/// A tool of two ports with these carriers in the buffer, each name one byte, in the places from 1.
fn stored(names: &[u8]) -> Tool {
    let mut tool = Tool::setup(2, 16).unwrap();
    for (place, name) in (1..).zip(names) {
        let name = std::slice::from_ref(name);
        for input in [
            Input::LoadStart { port: 1, start: 0 },
            Input::LoadDone { port: 1 },
            Input::IdRead { port: 1, name },
            Input::ProceedWithCarrier { name, port: 1 },
            Input::MoveIn { port: 1, place },
        ] {
            tool.step(&input).unwrap();
        }
    }
    tool
}

fn play(tool: &mut Tool, inputs: &[Input]) {
    inputs.iter().for_each(|input| assert!(tool.step(input).is_ok(), "{input}"));
}

/// `A>1 B>2*`: the oldest first, a star for one that is started.
fn queue(tool: &Tool) -> String {
    let request = |r: hawsermole::Request| {
        let started = RequestState::from_number(r.started) == Some(RequestState::Started);
        format!("{}>{}{}", r.name, r.port, if started { "*" } else { "" })
    };
    tool.requests().map(request).collect::<Vec<_>>().join(" ")
}

#[test]
fn requests_wait_start_and_end() {
    let mut tool = stored(b"ABC");
    play(&mut tool, &[Input::CarrierOut { name: b"A", port: 2 }, Input::CarrierOut { name: b"B", port: 1 }]);
    assert_eq!(queue(&tool), "A>2 B>1");
    let started = tool.step(&Input::OutStart { port: 1 }).unwrap();
    assert_eq!((queue(&tool).as_str(), started.to_string().as_str()), ("A>2 B>1*", "3 1 0>1"));
    play(&mut tool, &[Input::CarrierOut { name: b"C", port: 1 }]);
    let done = tool.step(&Input::OutDone { port: 1 }).unwrap();
    assert_eq!((queue(&tool).as_str(), done.to_string().as_str()), ("A>2 C>1", "1 1 1>2; 3 1 1>0; 4 1 0>1"));
    assert_eq!(tool.carriers().nth(1).unwrap().port, 1);
}

/// No input but OutDone ends a request that is started, and no row lets another onto its port.
#[test]
fn what_is_started_runs_on() {
    let mut tool = stored(b"AB");
    let (a, b) = (Input::CarrierOut { name: b"A", port: 1 }, Input::CarrierOut { name: b"B", port: 1 });
    play(&mut tool, &[a, b, Input::OutStart { port: 1 }]);
    for (input, refusal) in [
        (Input::Open { name: b"A" }, Refusal::Conditions),
        (Input::LoadStart { port: 1, start: 0 }, Refusal::ReservedOrTied),
        (Input::CancelReservationAtPort { port: 1 }, Refusal::ReservedOrTied),
        (Input::CancelCarrierOut { name: b"A" }, Refusal::Conditions),
        (Input::OutStart { port: 1 }, Refusal::ReservedOrTied),
        (a, Refusal::QueuedAlready),
    ] {
        assert_eq!(tool.step(&input), Err(refusal), "{input}");
    }
    play(&mut tool, &[Input::CancelCarrier { name: b"A", port: 0 }, Input::CancelAllCarrierOut]);
    assert_eq!(queue(&tool), "A>1*");
    play(&mut tool, &[Input::OutDone { port: 1 }]);
    assert_eq!((queue(&tool).as_str(), tool.carriers().next().unwrap().cancelled), ("", 1));
}

#[test]
fn requests_are_dropped() {
    let mut tool = stored(b"ABC");
    let out = |name| Input::CarrierOut { name, port: 2 };
    play(&mut tool, &[out(b"A"), out(b"B"), out(b"C"), Input::CancelCarrierOut { name: b"B" }]);
    assert_eq!(queue(&tool), "A>2 C>2");
    assert_eq!(tool.step(&Input::CancelCarrierOut { name: b"B" }), Err(Refusal::Conditions));
    play(&mut tool, &[Input::CancelCarrier { name: b"A", port: 0 }]);
    assert_eq!(queue(&tool), "C>2");
    play(&mut tool, &[Input::CancelAllCarrierOut, Input::CancelAllCarrierOut]);
    assert_eq!(queue(&tool), "");
}

#[test]
fn sixteen_requests_are_the_most() {
    let names: Vec<u8> = (b'a'..).take(REQUESTS).collect();
    let mut tool = stored(&names);
    for name in names.chunks(1) {
        tool.step(&Input::CarrierOut { name, port: 1 }).unwrap();
    }
    assert_eq!(tool.requests().len(), REQUESTS);
    assert_eq!(tool.step(&Input::CarrierOut { name: b"a", port: 1 }), Err(Refusal::QueueFull));
    play(&mut tool, &[Input::CancelCarrierOut { name: b"b" }]);
    assert_eq!(tool.step(&Input::CarrierOut { name: b"a", port: 2 }), Err(Refusal::QueuedAlready));
}

/// A kept tool has its queue again; one whose queue is damaged isn't sound.
#[test]
fn the_queue_is_in_the_bytes() {
    let mut tool = stored(b"AB");
    play(&mut tool, &[Input::CarrierOut { name: b"B", port: 2 }]);
    let mut bytes = *tool.as_bytes();
    assert_eq!(bytes[2791..2811], [1, b'B', 0, 0, 0, 0, 0, 0, 0, 0, 0, 0, 0, 0, 0, 0, 0, 2, 0, 0]);
    let mut again = Tool::from_bytes(&bytes);
    assert!(again.is_sound());
    play(&mut again, &[Input::OutStart { port: 2 }, Input::OutDone { port: 2 }]);
    bytes[2791] = 17;
    assert!(!Tool::from_bytes(&bytes).is_sound());
}

/// The new inputs look at the parts that they name, and at no other.
#[test]
fn other_parts_are_ignored() {
    let mut tool = stored(b"A");
    let parts = Parts { number: 30, port: 99, value: 99, name: b" odd", codes: b"odd", ..Parts::default() };
    let odd = Parts { clock: 99, time: 99, wafers: &[Wafer { process: -1.0, handling: -1.0 }], ..parts };
    assert!(tool.step_parts(&odd).is_ok());
    assert_eq!(tool.step_parts(&Parts { number: 27, ..odd }), Err(Refusal::OutOfRange));
    assert_eq!(tool.step_parts(&Parts { number: 27, port: 1, ..odd }), Err(Refusal::Conditions));
    assert_eq!(tool.step_parts(&Parts { number: 28, port: 1, ..odd }), Err(Refusal::Conditions));
    assert_eq!(tool.step_parts(&Parts { number: 29, ..odd }), Err(Refusal::OutOfRange));
    assert_eq!(tool.step_parts(&Parts { number: 29, name: b"A", ..odd }), Err(Refusal::Conditions));
}
