//! Names padded with blanks (request P4), through the typed interface.
use hawsermole::{ExpectedMap, Input, Name, Parts, Refusal, Tool, Wafer, ROWS};

/// A run that reaches rows 1 to 8, 16, 19 to 23 and 29 in a tool with a buffer, each accepted; `name` is given with
/// every one of them.
fn run(name: &[u8]) -> Vec<Input<'_>> {
    let codes = &[3; 25];
    let map = ExpectedMap::new(codes).unwrap();
    vec![
        Input::Bind { port: 1, name },
        Input::CancelBind { port: 0, name },
        Input::CarrierNotification { name },
        Input::CancelCarrierNotification { name },
        Input::LoadStart { port: 1, start: 0 },
        Input::LoadDone { port: 1 },
        Input::IdRead { port: 1, name },
        Input::ProceedWithCarrier { name, port: 1 },
        Input::MoveIn { port: 1, place: 1 },
        Input::Open { name },
        Input::SlotMap { name, codes },
        Input::ProceedWithCarrier { name, port: 0 },
        Input::AccessStart { name },
        Input::AccessEnd { name, end: 0 },
        Input::Close { name },
        Input::CarrierOut { name, port: 1 },
        Input::CancelCarrierOut { name },
        Input::CarrierOut { name, port: 1 },
        Input::OutStart { port: 1 },
        Input::OutDone { port: 1 },
        Input::CarrierIn { name },
        Input::CancelCarrier { name, port: 1 },
        Input::UnloadStart { port: 1, start: 0 },
        Input::UnloadDone { port: 1 },
        Input::BindWithMap { port: 1, name, map },
    ]
}

/// A run of a tool without a buffer, that reaches rows 33, 34 and the one that predicts, 32 or 35, in the same way.
fn predicted_run<'a>(name: &'a [u8], predicts: Input<'a>) -> Vec<Input<'a>> {
    let codes = &[3; 25];
    vec![
        Input::LoadStart { port: 1, start: 0 },
        Input::LoadDone { port: 1 },
        Input::IdRead { port: 1, name },
        Input::ProceedWithCarrier { name, port: 1 },
        Input::Open { name },
        Input::SlotMap { name, codes },
        Input::ProceedWithCarrier { name, port: 0 },
        Input::AccessStart { name },
        predicts,
        Input::Estimate { clock: 2, name, te: 99 },
        Input::NoPrediction { clock: 3, name },
    ]
}

/// All runs, each with the tool that it begins with.
fn runs(name: &[u8]) -> [(Tool, Vec<Input<'_>>); 3] {
    let predicting = || Tool::setup_with_times(1, 0, 60, 120).unwrap();
    let time = Input::PredictedTime { clock: 1, name, tp: 99 };
    let wafers = Input::Wafers { clock: 1, name, wafers: &[Wafer { process: 98.0, handling: 0.0 }] };
    [
        (Tool::setup(1, 1).unwrap(), run(name)),
        (predicting(), predicted_run(name, time)),
        (predicting(), predicted_run(name, wafers)),
    ]
}

/// Each state of the runs, with the input that comes next.
fn states(name: &[u8]) -> Vec<(Tool, Input<'_>)> {
    let states = runs(name).into_iter().flat_map(|(mut tool, inputs)| {
        inputs.into_iter().map(move |input| {
            let before = tool.clone();
            tool.step(&input).unwrap();
            (before, input)
        })
    });
    states.collect()
}

#[test]
fn a_padded_name_and_the_plain_one_are_the_same_input() {
    for length in [7, 16, 31, 32] {
        let mut text = b"FOUP-7".to_vec();
        text.resize(length, b' ');
        for ((mut plain, one), (mut padded, other)) in runs(b"FOUP-7").into_iter().zip(runs(&text)) {
            for (one, other) in one.iter().zip(&other) {
                assert_eq!(plain.step(one).unwrap(), padded.step(other).unwrap(), "{other}");
                assert_eq!(plain, padded, "{other}");
            }
            let expected = [3; 25];
            let expected = (padded.places() > 0).then_some(&expected);
            assert_eq!(padded.carriers().last().unwrap().name.as_bytes(), b"FOUP-7");
            assert_eq!(padded.expected_map(b"FOUP-7"), expected);
        }
    }
}

/// In every row that takes a name, also where the same input with a name is accepted.
#[test]
fn a_text_that_is_no_name_is_refused() {
    let long = [&b"A"[..], &[b' '; 32]].concat();
    let mut rows = Vec::new();
    for (tool, input) in states(b"FOUP-7") {
        for name in [&b" "[..], b"FOUP 7", b" FOUP-7", b"FOUP-7\0", b"ABCDEFGHIJKLMNOPQ ", &long] {
            assert!(Name::in_text(name).is_err());
            let mut after = tool.clone();
            let answer = after.step_parts(&Parts { name, ..input.parts() });
            match input.row().arguments.iter().any(|argument| argument.name() == "name") {
                true => {
                    assert_eq!((answer, &after), (Err(Refusal::OutOfRange), &tool), "{input}");
                    rows.push(input.number());
                }
                false => assert!(answer.is_ok(), "{input}"),
            }
        }
    }
    let named = |row: &&hawsermole::Row| row.arguments.iter().any(|argument| argument.name() == "name");
    assert!(ROWS.iter().filter(named).all(|row| rows.contains(&row.number)));
}

/// Where a name may be missing, only an empty one is.
#[test]
fn blanks_are_not_a_name_that_is_missing() {
    let mut tool = Tool::setup(1, 0).unwrap();
    tool.step(&Input::Bind { port: 1, name: b"FOUP-7" }).unwrap();
    for blanks in 1..=33 {
        let name = &[b' '; 33][..blanks];
        assert_eq!(tool.step(&Input::CancelBind { port: 1, name }), Err(Refusal::OutOfRange));
    }
    assert!(tool.step(&Input::CancelBind { port: 1, name: b"" }).is_ok());
}
