//! The prediction of ready to unload (request P7), as a fixed buffer tool holds it.
use crate::hands::HANDS_START;
use crate::name::Name;
use crate::tool::{Tool, RECORDS};

/// The most seconds that a set-up takes as setting time and as timeout.
pub const SECONDS_MOST: u32 = 86_400;

pub(crate) const PREDICTION_BYTES: usize = 11;
const TIME_BYTES: usize = 4;
/// Clock, setting time and timeout.
const TIMES_BYTES: usize = 3 * TIME_BYTES;
pub(crate) const PREDICTIONS_BYTES: usize = TIMES_BYTES + RECORDS * PREDICTION_BYTES;
pub(crate) const TIMES_START: usize = HANDS_START - PREDICTIONS_BYTES;
pub(crate) const PREDICTIONS_START: usize = TIMES_START + TIMES_BYTES;

/// When a carrier is ready to unload: model 8. Times are seconds of the clock that the inputs bring.
#[derive(Clone, Copy, Debug, PartialEq, Eq, Hash)]
pub struct Prediction {
    /// The carrier.
    pub name: Name,
    /// 1 PREDICTION DISABLED, 2 WAITING FOR CARRIER, 3 WAITING FOR PREDICTION, 4 PREDICTED, 5 PREDICTION ABORTED,
    /// 6 PREDICTION COMPLETED: [`PredictionState`](crate::states::PredictionState).
    pub state: u8,
    /// The predicted time, document 000's Tp, where one was given.
    pub tp: Option<u32>,
    /// The estimated time, document 000's Te, where one was given.
    pub te: Option<u32>,
}

impl Prediction {
    fn read(name: Name, bytes: &[u8]) -> Prediction {
        let given = |flag: usize, start: usize| (bytes[flag] != 0).then(|| seconds(&bytes[start..]));
        Prediction { name, state: bytes[0], tp: given(1, 3), te: given(2, 3 + TIME_BYTES) }
    }
}

/// A time from its bytes, the low one first.
fn seconds(bytes: &[u8]) -> u32 {
    bytes[..TIME_BYTES].iter().rev().fold(0, |high, &byte| high << 8 | u32::from(byte))
}

impl Tool {
    /// The predictions of the [`carriers`](Tool::carriers), in their order; none in a tool with a buffer. An input that
    /// brings the clock judges them all, and what changes is reported.
    ///
    /// ```
    /// use hawsermole::{Input, Refusal, Tool};
    ///
    /// // PREDICTED 60 seconds before the predicted time, ABORTED 120 seconds after it.
    /// let mut tool = Tool::setup_with_times(1, 0, 60, 120)?;
    /// let (name, codes) = (b"AB", &[3; 25]);
    /// for input in [
    ///     Input::LoadStart { port: 1, start: 0 },
    ///     Input::LoadDone { port: 1 },
    ///     Input::IdRead { port: 1, name },
    ///     Input::ProceedWithCarrier { name, port: 1 },
    ///     Input::Open { name },
    ///     Input::SlotMap { name, codes },
    ///     Input::ProceedWithCarrier { name, port: 1 },
    /// ] {
    ///     tool.step(&input)?;
    /// }
    /// let started = tool.step(&Input::AccessStart { name })?;
    /// assert_eq!(started.to_string(), "7 AB 1>2; 8 AB 2>3");
    ///
    /// // At 1000 the carrier is said to be ready at 1100: that is too far away for an event.
    /// assert_eq!(tool.step(&Input::PredictedTime { clock: 1000, name, tp: 1100 })?.len(), 0);
    /// let predicted = tool.step(&Input::Clock { clock: 1040 })?;
    /// assert_eq!(predicted.to_string(), "8 AB 3>4");
    /// let prediction = tool.predictions().next().unwrap();
    /// assert_eq!((prediction.state, prediction.tp, prediction.te), (4, Some(1100), None));
    ///
    /// // Time never goes back.
    /// assert_eq!(tool.step(&Input::Clock { clock: 1039 }), Err(Refusal::ClockEarlier));
    ///
    /// // The pod is closed: its port is READY TO UNLOAD, and the prediction has come true.
    /// tool.step(&Input::AccessEnd { name, end: 0 })?;
    /// assert_eq!(tool.step(&Input::Close { name })?.to_string(), "1 1 3>2; 8 AB 4>6");
    /// # Ok::<(), Refusal>(())
    /// ```
    pub fn predictions(&self) -> impl Iterator<Item = Prediction> + '_ {
        let bytes = self.as_bytes()[PREDICTIONS_START..].chunks_exact(PREDICTION_BYTES);
        let predicts = if self.places() == 0 { RECORDS } else { 0 };
        self.carriers().zip(bytes).take(predicts).map(|(of, bytes)| Prediction::read(of.name, bytes))
    }

    /// The prediction of a carrier, by its name as the tool holds it, without blanks; none where the name has no record
    /// or the tool has a buffer.
    pub fn prediction(&self, name: &[u8]) -> Option<Prediction> {
        self.predictions().find(|prediction| prediction.name.as_bytes() == name)
    }

    /// The last clock that was accepted, in seconds; 0 at first.
    pub fn clock(&self) -> u32 {
        self.time(0)
    }

    /// How many seconds before the predicted time a carrier is PREDICTED; 0: nothing is predicted.
    pub fn setting(&self) -> u32 {
        self.time(1)
    }

    /// How many seconds after the predicted time a prediction is ABORTED; 0: never.
    pub fn timeout(&self) -> u32 {
        self.time(2)
    }

    fn time(&self, place: usize) -> u32 {
        seconds(&self.as_bytes()[TIMES_START + place * TIME_BYTES..])
    }
}

#[cfg(test)]
mod tests {
    use super::*;
    use crate::raw::TOOL_BYTES;
    use std::vec::Vec;

    /// Each byte is its own place, as far as a byte reaches, so that a field read from a wrong place shows.
    fn numbered_bytes() -> [u8; TOOL_BYTES] {
        let mut bytes = [0; TOOL_BYTES];
        for (place, byte) in bytes.iter_mut().enumerate() {
            *byte = (place % 251) as u8 + 1;
        }
        (bytes[1], bytes[2]) = (0, 36);
        bytes
    }

    fn time_at(bytes: &[u8], start: usize) -> u32 {
        u32::from_le_bytes(bytes[start..start + 4].try_into().unwrap())
    }

    #[test]
    fn times_are_read_where_they_stand() {
        let bytes = numbered_bytes();
        let tool = Tool::from_bytes(&bytes);
        let times = [3080, 3084, 3088].map(|start| time_at(&bytes, start));
        assert_eq!([tool.clock(), tool.setting(), tool.timeout()], times);
    }

    #[test]
    fn predictions_are_read_where_they_stand() {
        let mut bytes = numbered_bytes();
        let tool = Tool::from_bytes(&bytes);
        let predictions: Vec<Prediction> = tool.predictions().collect();
        assert_eq!(predictions.len(), 36);
        for (place, prediction) in predictions.into_iter().enumerate() {
            let start = 3092 + 11 * place;
            assert_eq!(prediction.name, tool.carriers().nth(place).unwrap().name);
            assert_eq!(prediction.state, bytes[start]);
            assert_eq!(prediction.tp, Some(time_at(&bytes, start + 3)));
            assert_eq!(prediction.te, Some(time_at(&bytes, start + 7)));
        }
        (bytes[3093], bytes[3094]) = (0, 1);
        let first = Tool::from_bytes(&bytes).predictions().next().unwrap();
        assert_eq!((first.tp, first.te), (None, Some(time_at(&bytes, 3099))));
        bytes[3094] = 0;
        assert_eq!(Tool::from_bytes(&bytes).predictions().next().unwrap().te, None);
    }

    /// A tool of any bytes can be looked at; one with a buffer predicts nothing.
    #[test]
    fn odd_tools_and_tools_with_a_buffer() {
        let mut bytes = [255; TOOL_BYTES];
        assert_eq!(Tool::from_bytes(&bytes).predictions().count(), 0);
        bytes[1] = 0;
        let odd = Tool::from_bytes(&bytes);
        assert_eq!((odd.predictions().count(), odd.clock()), (RECORDS, u32::MAX));
        assert_eq!(Tool::none().predictions().count(), 0);
    }
}
