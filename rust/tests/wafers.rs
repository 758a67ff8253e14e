//! Where the predicted time comes from (request P8), through the typed interface.
use hawsermole::{Input, Parts, Refusal, Tool, Wafer, WAFERS};

const A: &[u8] = b"A";
/// The shortest time but 0, and the longest.
const PART: f64 = 1.0 / 1024.0;
const LONGEST: f64 = 1_048_576.0 - PART;

/// A tool of document 000's scenarios, 60 seconds before and 120 after, with A IN ACCESS.
fn accessed() -> Tool {
    let mut tool = Tool::setup_with_times(1, 0, 60, 120).unwrap();
    for input in [
        Input::LoadStart { port: 1, start: 0 },
        Input::LoadDone { port: 1 },
        Input::IdRead { port: 1, name: A },
        Input::ProceedWithCarrier { name: A, port: 1 },
        Input::Open { name: A },
        Input::SlotMap { name: A, codes: &[3; 25] },
        Input::ProceedWithCarrier { name: A, port: 1 },
        Input::AccessStart { name: A },
    ] {
        tool.step(&input).unwrap();
    }
    tool
}

const fn wafer(process: f64, handling: f64) -> Wafer {
    Wafer { process, handling }
}

fn wafers(clock: u32, wafers: &[Wafer]) -> Input<'_> {
    Input::Wafers { clock, name: A, wafers }
}

/// The predicted time that wafers give at a clock.
fn tp(clock: u32, sent: &[Wafer]) -> Result<u32, Refusal> {
    let mut tool = accessed();
    tool.step(&wafers(clock, sent))?;
    assert_eq!(tool.clock(), clock);
    Ok(tool.prediction(A).unwrap().tp.unwrap())
}

#[test]
fn the_total_is_rounded_up_once() {
    assert_eq!(tp(1000, &[]), Ok(1000));
    assert_eq!(tp(1000, &[wafer(90.5, 12.25)]), Ok(1103));
    assert_eq!(tp(1000, &[wafer(90.5, 12.25), wafer(90.5, 12.25)]), Ok(1206));
    assert_eq!(tp(1000, &[wafer(0.0, 0.0)]), Ok(1000));
    assert_eq!(tp(1000, &[wafer(-0.0, -0.0)]), Ok(1000));
    assert_eq!(tp(1000, &[wafer(PART, 0.0)]), Ok(1001));
    assert_eq!(tp(1000, &[wafer(0.0, PART)]), Ok(1001));
    assert_eq!(tp(1000, &[wafer(0.5, 0.5 - PART)]), Ok(1001));
    assert_eq!(tp(1000, &[wafer(0.5, 0.5)]), Ok(1001));
    assert_eq!(tp(1000, &[wafer(0.5, 0.5 + PART)]), Ok(1002));
    assert_eq!(tp(0, &[wafer(LONGEST, LONGEST); WAFERS]), Ok(50 * 1_048_576));
}

/// The same carrier, by its wafers and by the time that they come to: the same tool and the same reports.
#[test]
fn wafers_are_a_predicted_time() {
    for (at, predicted) in [(1160, 1160), (1159, 1160), (1100, 1160), (1099, 1160)] {
        let (mut one, mut other) = (accessed(), accessed());
        let seconds = f64::from(predicted - at);
        let by_wafers = one.step(&wafers(at, &[wafer(seconds, 0.0)])).unwrap();
        let by_time = other.step(&Input::PredictedTime { clock: at, name: A, tp: predicted }).unwrap();
        assert_eq!((by_wafers.to_string(), &one), (by_time.to_string(), &other));
        let near = predicted - at <= 60;
        assert_eq!(by_wafers.to_string(), if near { "8 A 3>4" } else { "none" });
    }
}

#[test]
fn times_that_are_refused() {
    let eps = f64::EPSILON;
    let bad = [
        -PART,
        -1.0,
        PART / 2.0,
        1.0 + eps,
        0.1,
        LONGEST + PART / 2.0,
        1_048_576.0,
        f64::MIN_POSITIVE / 2.0,
        f64::MAX,
        f64::INFINITY,
        f64::NEG_INFINITY,
        f64::NAN,
        -f64::NAN,
    ];
    let mut tool = accessed();
    let before = tool.clone();
    for time in bad {
        for place in 0..WAFERS {
            let mut sent = [wafer(1.0, 1.0); WAFERS];
            sent[place].process = time;
            assert_eq!(tool.step(&wafers(9, &sent)), Err(Refusal::TimeOutOfRange), "{time}");
            sent[place] = wafer(1.0, time);
            assert_eq!(tool.step(&wafers(9, &sent)), Err(Refusal::TimeOutOfRange), "{time}");
        }
    }
    assert_eq!(tool, before);
}

#[test]
fn the_predicted_time_has_the_clocks_range() {
    let last = u32::MAX;
    assert_eq!(tp(last, &[]), Ok(last));
    assert_eq!(tp(last, &[wafer(PART, 0.0)]), Err(Refusal::TimeOutOfRange));
    assert_eq!(tp(last - 1, &[wafer(1.0, 0.0)]), Ok(last));
    assert_eq!(tp(last - 1, &[wafer(1.0, PART)]), Err(Refusal::TimeOutOfRange));
    assert_eq!(tp(last - 50 * 1_048_576, &[wafer(LONGEST, LONGEST); WAFERS]), Ok(last));
    let late = last - 50 * 1_048_576 + 1;
    assert_eq!(tp(late, &[wafer(LONGEST, LONGEST); WAFERS]), Err(Refusal::TimeOutOfRange));
}

/// The lowest refusal that applies: 1, 2, 5, 11, 12, each with all the higher ones.
#[test]
fn the_lowest_refusal_is_given() {
    let bad = [wafer(f64::NAN, 0.0); WAFERS + 1];
    let (some, many, good) = (&bad[..1], &bad[..], [wafer(0.0, 0.0); WAFERS + 1]);
    let mut tool = accessed();
    tool.step(&Input::Clock { clock: 1000 }).unwrap();
    let mut answer = |clock, name, wafers| {
        let before = tool.clone();
        let refusal = tool.step(&Input::Wafers { clock, name, wafers }).unwrap_err();
        assert_eq!(tool, before);
        refusal
    };
    assert_eq!(answer(1000, A, some), Refusal::TimeOutOfRange);
    assert_eq!(answer(999, A, some), Refusal::ClockEarlier);
    assert_eq!(answer(999, b"Z", some), Refusal::NoRecord);
    assert_eq!(answer(999, b"Z", many), Refusal::OutOfRange);
    assert_eq!(answer(1000, A, &good), Refusal::OutOfRange);
    assert_eq!(answer(1000, b"A B", &[]), Refusal::OutOfRange);
    tool.step(&wafers(1000, &[wafer(500.0, 0.0)])).unwrap();
    assert_eq!(tool.step(&wafers(999, some)), Err(Refusal::Conditions));
    let again = Input::PredictedTime { clock: 1000, name: A, tp: 1500 };
    assert_eq!(tool.step(&again), Err(Refusal::Conditions));
}

/// A tool with a buffer predicts nothing, also by wafers.
#[test]
fn a_buffer_takes_no_wafers() {
    let mut tool = Tool::setup_with_times(1, 1, 60, 120).unwrap();
    tool.step(&Input::CarrierNotification { name: A }).unwrap();
    assert_eq!(tool.step(&wafers(7, &[])), Err(Refusal::Conditions));
    assert_eq!(tool.clock(), 0);
}

/// The input looks at clock, name and wafers alone, and drops blanks at the end of the name.
#[test]
fn parts_that_wafers_name() {
    let sent = [wafer(99.0, 0.5)];
    let odd = Parts { number: 35, port: 99, value: 99, codes: b"odd", time: 9, ..Parts::default() };
    let mut tool = accessed();
    tool.step_parts(&Parts { name: b"A  ", clock: 100, wafers: &sent, ..odd }).unwrap();
    assert_eq!((tool.clock(), tool.prediction(A).unwrap().tp), (100, Some(200)));
    let clock = Parts { number: 31, clock: 101, wafers: &[wafer(f64::NAN, -1.0)], ..odd };
    assert!(tool.step_parts(&clock).is_ok());
}
