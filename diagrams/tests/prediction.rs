//! What the manual says of predictions, tried on the machine.
use hawsermole::states::Transfer;
use hawsermole::{Input, Model, Refusal, Tool};

const AB: &[u8] = b"AB";
const MAP: &[u8] = &[3; hawsermole::SLOTS];
const TP: u32 = 1000;

/// A tool of one port with a setting time of 60 and a timeout of 120 seconds; AB is read there and open.
fn opened(places: u32) -> Tool {
    let mut tool = Tool::setup_with_times(1, places, 60, 120).unwrap();
    let visit = [
        Input::CarrierNotification { name: AB },
        Input::LoadStart { port: 1, start: 0 },
        Input::LoadDone { port: 1 },
        Input::IdRead { port: 1, name: AB },
        Input::MoveIn { port: 1, place: 1 },
        Input::Open { name: AB },
        Input::SlotMap { name: AB, codes: MAP },
        Input::ProceedWithCarrier { name: AB, port: 0 },
    ];
    let here = |input: &&Input| places > 0 || !matches!(input, Input::MoveIn { .. });
    visit.iter().filter(here).for_each(|input| give(&mut tool, input));
    tool
}

/// AB is IN ACCESS.
fn accessed() -> Tool {
    let mut tool = opened(0);
    give(&mut tool, &Input::AccessStart { name: AB });
    tool
}

/// AB is ready to unload before anything was predicted.
fn ready() -> Tool {
    let mut tool = accessed();
    give(&mut tool, &Input::AccessEnd { name: AB, end: 0 });
    give(&mut tool, &Input::Close { name: AB });
    tool
}

fn give(tool: &mut Tool, input: &Input) {
    assert!(tool.step(input).is_ok(), "{input}");
}

fn tp(clock: u32) -> Input<'static> {
    Input::PredictedTime { clock, name: AB, tp: TP }
}

fn te(clock: u32, te: u32) -> Input<'static> {
    Input::Estimate { clock, name: AB, te }
}

/// The transitions of model 8 that an accepted input is reported with.
fn passed(tool: &mut Tool, input: &Input) -> Vec<(u8, u8)> {
    let reports = tool.step(input).unwrap_or_else(|refusal| panic!("{input}: {refusal}"));
    reports
        .filter(|report| report.model == Model::Prediction)
        .map(|report| (report.old, report.new))
        .collect()
}

fn asked(tool: &Tool, input: &Input) -> u8 {
    tool.clone().step(input).map_or_else(Refusal::number, |_| 0)
}

/// The page's table of refusals, and the order of their numbers.
#[test]
fn refusals_are_those_of_the_table() {
    let none = Input::NoPrediction { clock: 0, name: AB };
    let other = Input::NoPrediction { clock: 0, name: b"AC" };
    for buffered in [opened(1), Tool::setup_with_times(1, 1, 60, 120).unwrap()] {
        let known = buffered.carriers().count() > 0;
        assert_eq!(
            [tp(0), te(0, TP), none].map(|input| asked(&buffered, &input)),
            [if known { 5 } else { 2 }; 3]
        );
        assert_eq!(asked(&buffered, &Input::Clock { clock: 5 }), 0);
    }
    let waiting = opened(0);
    assert_eq!([tp(0), te(0, TP), none, other].map(|input| asked(&waiting, &input)), [5, 5, 5, 2]);
    let mut tool = accessed();
    assert_eq!([tp(0), te(0, TP), none].map(|input| asked(&tool, &input)), [0, 5, 0]);
    give(&mut tool, &tp(10));
    assert_eq!([tp(10), te(10, TP), none].map(|input| asked(&tool, &input)), [5, 0, 11]);
    give(&mut tool, &Input::Clock { clock: TP - 60 });
    assert_eq!([tp(TP), te(TP, TP), none].map(|input| asked(&tool, &input)), [5, 0, 5]);
    let clocks = [TP - 61, TP - 60, TP].map(|clock| asked(&tool, &Input::Clock { clock }));
    assert_eq!(clocks, [11, 0, 0]);
}

/// What is WAITING FOR PREDICTION when it gets ready stays so until it is judged with a Tp that is near.
#[test]
fn ready_while_waiting_is_completed_by_a_clock() {
    let mut tool = ready();
    assert_eq!(tool.ports().next().unwrap().transfer, Transfer::ReadyToUnload.number());
    assert_eq!(passed(&mut tool, &Input::Clock { clock: 1 }), []);
    assert_eq!(passed(&mut tool, &tp(2)), []);
    assert_eq!(passed(&mut tool, &Input::Clock { clock: TP - 61 }), []);
    assert_eq!(passed(&mut tool, &Input::Clock { clock: TP - 60 }), [(3, 4), (4, 6)]);
    assert_eq!(passed(&mut ready(), &Input::NoPrediction { clock: 0, name: AB }), [(3, 5), (5, 6)]);
}

/// One that was given stays until the next; where none was given it is the clock.
#[test]
fn an_estimate_stays() {
    let mut told = accessed();
    give(&mut told, &tp(0));
    let mut untold = told.clone();
    assert_eq!(passed(&mut told, &te(TP - 60, TP + 119)), [(3, 4)]);
    assert_eq!(passed(&mut told, &Input::Clock { clock: 90_000 }), []);
    assert_eq!(passed(&mut told, &te(90_000, TP + 120)), [(4, 5)]);
    assert_eq!(passed(&mut untold, &Input::Clock { clock: TP - 60 }), [(3, 4)]);
    assert_eq!(passed(&mut untold, &Input::Clock { clock: TP + 119 }), []);
    assert_eq!(passed(&mut untold, &Input::Clock { clock: TP + 120 }), [(4, 5)]);
}

/// From WAITING FOR CARRIER it passes through at once; in other states only READY TO UNLOAD counts.
#[test]
fn cancel_carrier_completes_what_waits_for_its_carrier() {
    let cancel = Input::CancelCarrier { name: AB, port: 0 };
    let mut tool = opened(0);
    give(&mut tool, &Input::Clock { clock: 77 });
    assert_eq!(passed(&mut tool, &cancel), [(2, 3), (3, 4), (4, 6)]);
    assert_eq!(tool.prediction(AB).unwrap().tp, Some(77));
    let mut tool = accessed();
    assert_eq!(asked(&tool, &cancel), 5, "IN ACCESS");
    give(&mut tool, &Input::AccessEnd { name: AB, end: 1 });
    let mut predicted = tool.clone();
    assert_eq!(passed(&mut tool, &cancel), []);
    give(&mut predicted, &tp(TP));
    assert_eq!(passed(&mut predicted, &cancel), [(4, 6)]);
}

/// Inputs that bring the clock report model 8 alone.
#[test]
fn clocks_report_model_8_alone() {
    let mut tool = accessed();
    for input in [tp(TP), te(TP, TP + 120), Input::Clock { clock: TP + 200 }] {
        assert!(tool.step(&input).unwrap().all(|report| report.model == Model::Prediction), "{input}");
    }
}
