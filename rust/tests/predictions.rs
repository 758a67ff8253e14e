//! The prediction of ready to unload (request P7), through the typed interface.
use hawsermole::states::{PredictionState, State};
use hawsermole::{Input, Model, Parts, Refusal, Subject, Tool, Wafer, REPORTS};

const A: &[u8] = b"A";

fn play(tool: &mut Tool, inputs: &[Input]) {
    inputs.iter().for_each(|input| assert!(tool.step(input).is_ok(), "{input}"));
}

/// Brings a carrier of this name to a port, and opens, maps and accesses it.
fn access(tool: &mut Tool, port: u32, name: &[u8]) {
    let codes = &[3; 25];
    play(
        tool,
        &[
            Input::LoadStart { port, start: 0 },
            Input::LoadDone { port },
            Input::IdRead { port, name },
            Input::ProceedWithCarrier { name, port },
            Input::Open { name },
            Input::SlotMap { name, codes },
            Input::ProceedWithCarrier { name, port },
            Input::AccessStart { name },
        ],
    );
}

/// A tool of document 000's scenarios, 60 seconds before and 120 after, with A IN ACCESS.
fn accessed() -> Tool {
    let mut tool = Tool::setup_with_times(2, 0, 60, 120).unwrap();
    access(&mut tool, 1, A);
    tool
}

fn told(tool: &mut Tool, input: Input) -> String {
    tool.step(&input).map_or_else(|refusal| refusal.number().to_string(), |reports| reports.to_string())
}

fn clock(clock: u32) -> Input<'static> {
    Input::Clock { clock }
}

fn tp(clock: u32, tp: u32) -> Input<'static> {
    Input::PredictedTime { clock, name: A, tp }
}

fn te(clock: u32, te: u32) -> Input<'static> {
    Input::Estimate { clock, name: A, te }
}

fn state(tool: &Tool) -> Option<PredictionState> {
    PredictionState::from_number(tool.prediction(A)?.state)
}

#[test]
fn a_prediction_that_comes_true() {
    let mut tool = accessed();
    assert_eq!(state(&tool), Some(PredictionState::WaitingForPrediction));
    assert_eq!(told(&mut tool, tp(1000, 1100)), "none");
    assert_eq!(told(&mut tool, clock(1039)), "none");
    assert_eq!(told(&mut tool, clock(1040)), "8 A 3>4");
    assert_eq!((tool.clock(), tool.prediction(A).unwrap().tp), (1040, Some(1100)));
    play(&mut tool, &[Input::AccessEnd { name: A, end: 0 }]);
    assert_eq!(told(&mut tool, Input::Close { name: A }), "1 1 3>2; 8 A 4>6");
    play(&mut tool, &[Input::UnloadStart { port: 1, start: 0 }]);
    let gone = told(&mut tool, Input::UnloadDone { port: 1 });
    assert_eq!(gone, "1 1 3>1; 4 1 1>0; 5 A 3>0; 6 A 3>0; 7 A 3>0; 8 A 6>0");
    assert_eq!(tool.prediction(A), None);
}

#[test]
fn predictions_that_are_aborted() {
    let late = |inputs: &[Input], last: Input, expected: &str| {
        let mut tool = accessed();
        play(&mut tool, inputs);
        assert_eq!(told(&mut tool, last), expected);
    };
    late(&[tp(1000, 1060)], clock(1179), "none");
    late(&[tp(1000, 1060)], clock(1180), "8 A 4>5");
    late(&[tp(1000, 1060)], te(1001, 1179), "none");
    late(&[tp(1000, 1060)], te(1001, 1180), "8 A 4>5");
    late(&[tp(1000, 9000), te(1001, 9120)], clock(1002), "none");
    late(&[tp(1000, 9000)], te(1001, 9120), "8 A 3>5");
    late(&[], Input::NoPrediction { clock: 1, name: A }, "8 A 3>5");
}

#[test]
fn refusals_of_inputs_that_bring_the_clock() {
    let mut tool = accessed();
    play(&mut tool, &[clock(1000)]);
    let no_prediction = |clock| Input::NoPrediction { clock, name: A };
    for (input, refusal) in [
        (clock(999), Refusal::ClockEarlier),
        (tp(999, 5000), Refusal::ClockEarlier),
        (te(1000, 5000), Refusal::Conditions),
        (te(999, 5000), Refusal::Conditions),
        (no_prediction(999), Refusal::ClockEarlier),
        (Input::PredictedTime { clock: 0, name: b"Z", tp: 0 }, Refusal::NoRecord),
        (Input::Estimate { clock: 0, name: b"A B", te: 0 }, Refusal::OutOfRange),
    ] {
        let before = tool.clone();
        assert_eq!(tool.step(&input), Err(refusal), "{input}");
        assert_eq!(tool, before);
    }
    play(&mut tool, &[tp(1000, 5000), te(1000, 5000), te(1000, 5001)]);
    assert_eq!(tool.step(&tp(1000, 5000)), Err(Refusal::Conditions));
    play(&mut tool, &[no_prediction(1000)]);
    assert_eq!(tool.step(&no_prediction(1000)), Err(Refusal::Conditions));
}

/// A tool with a buffer has a clock, and no model 8.
#[test]
fn a_buffer_predicts_nothing() {
    let mut tool = Tool::setup_with_times(1, 1, 60, 120).unwrap();
    let made = tool.step(&Input::CarrierNotification { name: A }).unwrap();
    assert!(made.into_iter().all(|report| report.model != Model::Prediction));
    assert_eq!(tool.predictions().count(), 0);
    play(&mut tool, &[clock(7)]);
    assert_eq!((tool.clock(), tool.step(&tp(7, 9))), (7, Err(Refusal::Conditions)));
}

/// Nine reports: the most that any input gives.
#[test]
fn a_cancelled_carrier_goes_all_the_way_at_once() {
    let mut tool = Tool::setup_with_times(1, 0, 60, 120).unwrap();
    play(
        &mut tool,
        &[
            clock(500),
            Input::LoadStart { port: 1, start: 0 },
            Input::LoadDone { port: 1 },
            Input::IdReadFailed { port: 1 },
        ],
    );
    let reports = tool.step(&Input::CancelCarrier { name: A, port: 1 }).unwrap();
    assert!(reports.len() < REPORTS);
    let all = "1 1 3>2; 4 1 0>1; 5 A 0>4; 6 A 0>1; 7 A 0>1; 8 A 0>2; 8 A 2>3; 8 A 3>4; 8 A 4>6";
    assert_eq!((reports.len(), reports.to_string().as_str()), (9, all));
    let last = reports.last().unwrap();
    assert!(matches!(last.subject, Subject::Carrier(name) if name.as_bytes() == A));
    assert_eq!(last.new_state(), Some(State::Prediction(PredictionState::Completed)));
    assert_eq!(tool.prediction(A).unwrap().tp, Some(500));
}

/// Without a setting time nothing is predicted.
#[test]
fn a_setting_of_0_disables() {
    let mut tool = Tool::setup(1, 0).unwrap();
    access(&mut tool, 1, A);
    assert_eq!(state(&tool), Some(PredictionState::Disabled));
    assert_eq!(tool.step(&tp(0, 0)), Err(Refusal::Conditions));
}

/// Numbers are 32 bits and are not cut; sums don't wrap.
#[test]
fn times_of_any_size() {
    let mut tool = accessed();
    assert_eq!(told(&mut tool, tp(u32::MAX - 61, u32::MAX)), "none");
    assert_eq!(told(&mut tool, clock(u32::MAX - 60)), "8 A 3>4");
    assert_eq!(told(&mut tool, te(u32::MAX, u32::MAX)), "none");
    assert_eq!(tool.step(&clock(0)), Err(Refusal::ClockEarlier));
}

/// The new inputs look at the parts that they name, blanks at the end of a name are dropped, and a kept tool has its
/// times again.
#[test]
fn parts_names_and_bytes() {
    let mut tool = accessed();
    let parts = Parts { number: 31, port: 99, value: 99, name: b" odd", codes: b"odd", ..Parts::default() };
    let odd = Parts { clock: 9, time: 99, wafers: &[Wafer { process: -1.0, handling: -1.0 }], ..parts };
    assert!(tool.step_parts(&odd).is_ok());
    assert_eq!(tool.step_parts(&Parts { number: 32, ..odd }), Err(Refusal::OutOfRange));
    let padded = Parts { number: 32, name: b"A  ", ..odd };
    assert_eq!(tool.step_parts(&padded).unwrap().len(), 0);
    let bytes = tool.as_bytes();
    assert_eq!(bytes[3080..3092], [9, 0, 0, 0, 60, 0, 0, 0, 120, 0, 0, 0]);
    assert_eq!(bytes[3092..3103], [3, 1, 0, 99, 0, 0, 0, 0, 0, 0, 0]);
    let mut again = Tool::from_bytes(bytes);
    assert_eq!(told(&mut again, clock(39)), "8 A 3>4");
    let mut damaged = *bytes;
    damaged[3092] = 7;
    assert!(!Tool::from_bytes(&damaged).is_sound());
}
