//! How predictions stand for an input that brings the clock.
use super::{Grounds, Standing};
use crate::causes::Cause;
use crate::grounds::{ground, Ground};
use crate::numbers::prediction;
use crate::people;
use crate::wafers;
use hawsermole::{Carrier, Prediction};

impl Standing<'_> {
    /// The clock isn't earlier than the last accepted.
    pub fn clock(&self) -> Option<Ground> {
        let (clock, last) = (self.parts.clock, self.tool.clock());
        ground(clock < last, Cause::ClockEarlier, format!("clock {clock}, and the last accepted is {last}"))
    }

    /// What the row asks of the carrier's prediction, and the clock; 5 where the tool has a buffer.
    fn with_prediction(&self, carrier: &Carrier, asked: impl FnOnce(&Prediction) -> Grounds) -> Grounds {
        let own = self.tool.prediction(carrier.name.as_bytes());
        let asked = match &own {
            None => [ground(true, Cause::PredictsNothing, carrier.name.to_string())].into(),
            Some(prediction) => asked(prediction),
        };
        asked.into_iter().chain([self.clock()]).collect()
    }

    /// 5 unless WAITING FOR PREDICTION and without a Tp.
    pub fn predicted_time(&self, carrier: &Carrier) -> Grounds {
        self.with_prediction(carrier, |own| {
            let second = ground(own.tp.is_some(), Cause::PredictedAlready, people::prediction(own));
            [awaited(own), second].into()
        })
    }

    /// As for a Tp, and 12 unless the wafers give one.
    pub fn wafers(&self, carrier: &Carrier) -> Grounds {
        let (clock, wafers) = (self.parts.clock, self.parts.wafers);
        let odd = wafers::odd_time(wafers);
        let odd = odd.and_then(|odd| ground(true, Cause::WaferTime, odd));
        let late = wafers::predicted(clock, wafers).filter(|&tp| tp > wafers::LAST);
        let late = late.and_then(|tp| {
            let detail = format!("{tp}, from clock {clock} on; {}", wafers::totalled(wafers));
            ground(true, Cause::TpTooLate, detail)
        });
        self.predicted_time(carrier).into_iter().chain([odd, late]).collect()
    }

    /// 5 unless there is a Tp.
    pub fn estimate(&self, carrier: &Carrier) -> Grounds {
        self.with_prediction(carrier, |own| {
            [ground(own.tp.is_none(), Cause::NoPredictedTime, people::prediction(own))].into()
        })
    }

    /// 5 unless WAITING FOR PREDICTION.
    pub fn no_prediction(&self, carrier: &Carrier) -> Grounds {
        self.with_prediction(carrier, |own| [awaited(own)].into())
    }
}

/// The prediction is WAITING FOR PREDICTION: before AccessStart it waits for its carrier, and where the setting is 0 it
/// is DISABLED from then on.
fn awaited(own: &Prediction) -> Option<Ground> {
    let cause = match own.state {
        prediction::WAITING_FOR_PREDICTION => return None,
        prediction::WAITING_FOR_CARRIER => Cause::NotAccessedYet,
        prediction::DISABLED => Cause::PredictionDisabled,
        _ => Cause::PredictionPast,
    };
    ground(true, cause, people::prediction(own))
}
