//! Document 01's run to check by hand, through the typed interface: answers and reports as its table has them, with model
//! 8 of request P7 after them, since the tool has no buffer. Its setting time is 0, so that nothing is predicted.
use hawsermole::{Input, Model, Refusal, Tool};

const MAP: &[u8] = &[3; 25];

fn accepted(reports: &str) -> Result<String, Refusal> {
    Ok(reports.into())
}

#[test]
fn the_twelve_rows() {
    let table = [
        (
            Input::Bind { port: 1, name: b"AB" },
            accepted("3 1 0>1; 4 1 0>1; 5 AB 0>1; 6 AB 0>1; 7 AB 0>1; 8 AB 0>2"),
        ),
        (Input::LoadStart { port: 1, start: 0 }, accepted("1 1 1>3; 3 1 1>0")),
        (Input::LoadDone { port: 1 }, accepted("none")),
        (
            Input::IdRead { port: 1, name: b"AC" },
            accepted(
                "4 1 1>1; 5 AB 1>0; 5 AC 0>2; 6 AB 1>0; 6 AC 0>1; 7 AB 1>0; 7 AC 0>1; 8 AB 2>0; 8 AC 0>2",
            ),
        ),
        (Input::Open { name: b"AC" }, Err(Refusal::NotVerified)),
        (Input::ProceedWithCarrier { name: b"AC", port: 0 }, accepted("5 AC 2>3")),
        (Input::Open { name: b"AC" }, accepted("none")),
        (Input::SlotMap { name: b"AC", codes: MAP }, accepted("6 AC 1>2")),
        (Input::AccessStart { name: b"AC" }, Err(Refusal::NotVerified)),
        (Input::ProceedWithCarrier { name: b"AC", port: 0 }, accepted("6 AC 2>3")),
        (Input::AccessStart { name: b"AC" }, accepted("7 AC 1>2; 8 AC 2>1")),
        (Input::CancelCarrier { name: b"AC", port: 0 }, Err(Refusal::Conditions)),
    ];
    let mut tool = Tool::setup(2, 0).unwrap();
    for (input, expected) in table {
        let answer = tool.step(&input).map(|reports| reports.to_string());
        assert_eq!(answer, expected, "{input}");
        assert!(tool.is_sound());
    }
}

#[test]
fn the_views_after_the_run() {
    let mut tool = Tool::setup(2, 0).unwrap();
    for input in [
        Input::LoadStart { port: 2, start: 0 },
        Input::LoadDone { port: 2 },
        Input::IdRead { port: 2, name: b"0123456789abcdef" },
        Input::ProceedWithCarrier { name: b"0123456789abcdef", port: 2 },
        Input::Open { name: b"0123456789abcdef" },
        Input::SlotMap { name: b"0123456789abcdef", codes: MAP },
    ] {
        tool.step(&input).unwrap();
    }
    let port = tool.ports().nth(1).unwrap();
    assert_eq!((port.transfer, port.movement, port.pod, port.tag), (3, 0, 1, 1));
    assert_eq!(port.tie.as_bytes(), b"0123456789abcdef");
    let carrier = tool.carriers().next().unwrap();
    assert_eq!(carrier.name, port.tie);
    assert_eq!((carrier.place, carrier.spot, carrier.port, carrier.open), (1, 0, 2, 1));
    assert_eq!((carrier.map, carrier.id, carrier.slot, carrier.accessing), ([3; 25], 3, 2, 1));
    assert_eq!(tool.carriers().len(), 1);
}

/// Names and codes of any length are sent as they are: nothing is cut to what would fit.
#[test]
fn odd_names_and_codes_are_answered() {
    let mut tool = Tool::setup(1, 0).unwrap();
    let long = [b'A'; 300];
    for (length, answer) in [(0, Some(1)), (1, None), (16, None), (17, Some(1)), (300, Some(1))] {
        let given = tool.step(&Input::CarrierNotification { name: &long[..length] });
        assert_eq!(given.err().map(|refusal| refusal.number()), answer, "{length} bytes");
    }
    for codes in [&[3; 24][..], &[3; 26], &[], &[6; 25]] {
        assert_eq!(tool.step(&Input::SlotMap { name: b"A", codes }), Err(Refusal::OutOfRange));
    }
    assert_eq!(tool.step(&Input::SlotMap { name: b"A", codes: MAP }), Err(Refusal::Conditions));
    assert_eq!(tool.step(&Input::LoadStart { port: 257, start: 0 }), Err(Refusal::OutOfRange));
}

#[test]
fn models_come_in_order() {
    let mut tool = Tool::setup(1, 0).unwrap();
    let reports = tool.step(&Input::Bind { port: 1, name: b"AB" }).unwrap();
    let models: Vec<Model> = reports.clone().map(|report| report.model).collect();
    let booked =
        [Model::Reservation, Model::Tie, Model::Id, Model::Slot, Model::Accessing, Model::Prediction];
    assert_eq!(models, booked);
    assert_eq!(reports.as_bytes()[0], 6);
    assert!(reports.as_bytes()[1 + 6 * 20..].iter().all(|&byte| byte == 0));
}
