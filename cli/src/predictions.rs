//! What an accepted input did to predictions that no report shows: times that were given, and why one is aborted.
use crate::numbers::{prediction, row};
use crate::print::{self, Answer};
use crate::wafers;
use hawsermole::{Model, Name, Parts, Prediction, Report, Subject, Tool};

/// A line for what wafers come to, for each time that was given, and for each report that a prediction is aborted.
pub fn changes(before: &Tool, after: &Tool, parts: &Parts, given: &Answer) -> Vec<String> {
    let times = after.predictions().flat_map(|new| times(before, after, &new));
    let aborted = print::reports(given).filter_map(|report| aborted(after, parts, &report));
    let total = (parts.number == row::WAFERS).then(|| wafers::totalled(parts.wafers));
    total.into_iter().chain(times).chain(aborted).collect()
}

fn times(before: &Tool, after: &Tool, new: &Prediction) -> Vec<String> {
    let old = before.prediction(new.name.as_bytes());
    let tp = new.tp.filter(|_| new.tp != old.and_then(|old| old.tp));
    let te = new.te.filter(|_| new.te != old.and_then(|old| old.te));
    let tp = tp.map(|tp| predicted(after, new, tp));
    tp.into_iter().chain(te.map(|te| estimated(new, te))).collect()
}

/// `carrier AB: ready to unload at 1100, 100 seconds from now; PREDICTED at 1040`
fn predicted(tool: &Tool, own: &Prediction, tp: u32) -> String {
    let (now, name) = (tool.clock(), own.name);
    let when = match tp.checked_sub(now) {
        Some(0) => "now".into(),
        Some(ahead) => format!("{} from now", seconds(ahead)),
        None => format!("{} ago", seconds(now - tp)),
    };
    let then = match own.state {
        // not yet, so that Tp is later than the setting time is long
        prediction::WAITING_FOR_PREDICTION => format!("; PREDICTED at {}", tp - tool.setting()),
        _ => String::new(),
    };
    format!("carrier {name}: ready to unload at {tp}, {when}{then}")
}

/// `carrier AB: now estimated at 1150, 50 seconds after the predicted time`
fn estimated(own: &Prediction, te: u32) -> String {
    let tp = own.tp.unwrap_or_default();
    let late = match te.checked_sub(tp) {
        Some(0) => "the predicted time".into(),
        Some(after) => format!("{} after the predicted time", seconds(after)),
        None => format!("{} before the predicted time", seconds(tp - te)),
    };
    format!("carrier {}: now estimated at {te}, {late}", own.name)
}

/// Of a report that a prediction went to ABORTED.
fn aborted(tool: &Tool, parts: &Parts, report: &Report) -> Option<String> {
    let name = match report.subject {
        Subject::Carrier(name) if report.model == Model::Prediction => name,
        _ => return None,
    };
    let own = tool.prediction(name.as_bytes()).filter(|_| report.new == prediction::ABORTED)?;
    let why = match parts.number == row::NO_PREDICTION && Name::in_text(parts.name) == Ok(name) {
        true => "no prediction is possible".into(),
        false => late(tool, &own),
    };
    Some(format!("carrier {name}: aborted, since {why}"))
}

/// `the estimate, 1180, is 120 seconds after the predicted time, and the timeout is 120`
fn late(tool: &Tool, own: &Prediction) -> String {
    let (what, te) = own.te.map_or(("clock", tool.clock()), |te| ("estimate", te));
    let after = seconds(te.saturating_sub(own.tp.unwrap_or_default()));
    format!("the {what}, {te}, is {after} after the predicted time, and the timeout is {}", tool.timeout())
}

/// `1 second`, `90 seconds`.
fn seconds(count: u32) -> String {
    format!("{count} second{}", if count == 1 { "" } else { "s" })
}

#[cfg(test)]
mod tests {
    use super::*;
    use crate::print::tests::accessed;
    use hawsermole::{Input, Wafer};

    fn told(tool: &mut Tool, input: Input) -> Vec<String> {
        let before = tool.clone();
        let given = tool.step(&input);
        assert!(given.is_ok(), "{input}");
        changes(&before, tool, &input.parts(), &given)
    }

    const A: &[u8] = b"A";

    fn tp(clock: u32, tp: u32) -> Input<'static> {
        Input::PredictedTime { clock, name: A, tp }
    }

    fn te(clock: u32, te: u32) -> Input<'static> {
        Input::Estimate { clock, name: A, te }
    }

    #[test]
    fn predicted_times() {
        let told = |input| told(&mut accessed(60, 120), input);
        let ready = "carrier A: ready to unload at";
        assert_eq!(told(tp(1000, 1100)), [format!("{ready} 1100, 100 seconds from now; PREDICTED at 1040")]);
        assert_eq!(told(tp(1000, 1060)), [format!("{ready} 1060, 60 seconds from now")]);
        assert_eq!(told(tp(1000, 1000)), [format!("{ready} 1000, now")]);
        assert_eq!(told(tp(1000, 999)), [format!("{ready} 999, 1 second ago")]);
        assert_eq!(
            told(tp(1000, 0)),
            [
                format!("{ready} 0, 1000 seconds ago"),
                "carrier A: aborted, since the clock, 1000, is 1000 seconds after the predicted time, \
                 and the timeout is 120"
                    .into()
            ]
        );
        assert!(told(Input::Clock { clock: 9 }).is_empty());
    }

    #[test]
    fn wafers_and_what_they_come_to() {
        let wafers = [Wafer { process: 90.5, handling: 12.25 }; 2];
        let sent = |wafers| Input::Wafers { clock: 1000, name: A, wafers };
        let ready = "carrier A: ready to unload at 1206, 206 seconds from now; PREDICTED at 1146";
        let total = "2 wafers take 205.5 seconds, rounded up 206";
        assert_eq!(told(&mut accessed(60, 120), sent(&wafers)), [total, ready]);
        let none = told(&mut accessed(60, 120), sent(&[]));
        assert_eq!(none, ["no wafers: ready to unload now", "carrier A: ready to unload at 1000, now"]);
    }

    #[test]
    fn estimates() {
        let mut tool = accessed(60, 120);
        told(&mut tool, tp(1000, 1100));
        let estimated = |late| [format!("carrier A: now estimated at {late}")];
        assert_eq!(told(&mut tool, te(1000, 1150)), estimated("1150, 50 seconds after the predicted time"));
        assert_eq!(told(&mut tool, te(1000, 1150)), [] as [&str; 0]);
        assert_eq!(told(&mut tool, te(1000, 1099)), estimated("1099, 1 second before the predicted time"));
        assert_eq!(told(&mut tool, te(1000, 1100)), estimated("1100, the predicted time"));
        let late = "carrier A: aborted, since the estimate, 1220, is 120 seconds after the predicted time, \
                    and the timeout is 120";
        assert_eq!(told(&mut tool, te(1000, 1220))[1], late);
    }

    #[test]
    fn no_prediction_is_a_reason_of_its_own() {
        let mut tool = accessed(60, 120);
        told(&mut tool, tp(1000, 1100));
        let none = Input::NoPrediction { clock: 5000, name: b"A " };
        assert_eq!(told(&mut tool, none), ["carrier A: aborted, since no prediction is possible"]);
    }
}
