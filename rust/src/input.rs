//! The inputs, with the documents' names and arguments.
use crate::map::ExpectedMap;
use crate::name::write_text;
use crate::row::{Argument, Row, ROWS};
use crate::states::Start;
use crate::wafer::Wafer;
use core::fmt;

/// One input: document 01's 26 rows, four each of the requests P5 and P7 and one each of P8 and P9, with their
/// arguments in the documents' order. Rows 1 and 3 have two cases each, without an expected map and with one.
///
/// A port, place or value is any 32-bit number, a name and codes are any bytes of any length:
/// what is outside its range is answered with [`Refusal::OutOfRange`](crate::Refusal::OutOfRange), not cut.
/// Port 0 and an empty name mean "not given", where the case says so. Blanks at the end of a name are dropped
/// ([`Name::in_text`](crate::Name::in_text)); blanks alone are no name, and don't mean "not given".
#[expect(
    missing_docs,
    reason = "each case says what its arguments are; a line for each would hide the table"
)]
#[derive(Clone, Copy, Debug, PartialEq, Eq, Hash)]
pub enum Input<'a> {
    /// 1: associates an expected carrier with a port, and reserves the port.
    Bind { port: u32, name: &'a [u8] },
    /// 1, with the slot map that the host expects: one that equals it is OK without asking the host.
    BindWithMap { port: u32, name: &'a [u8], map: ExpectedMap<'a> },
    /// 2: takes a Bind back. Port 0 or an empty name: not given; one of them is.
    CancelBind { port: u32, name: &'a [u8] },
    /// 3: announces a carrier.
    CarrierNotification { name: &'a [u8] },
    /// 3, with the slot map that the host expects: one that equals it is OK without asking the host.
    CarrierNotificationWithMap { name: &'a [u8], map: ExpectedMap<'a> },
    /// 4: takes an announcement back.
    CancelCarrierNotification { name: &'a [u8] },
    /// 5: the host accepts a carrier's ID, or else its slot map. Port 0: not given.
    ProceedWithCarrier { name: &'a [u8], port: u32 },
    /// 6: the host rejects a carrier. Port 0: not given. Shut an open pod first: its record is closed at once, so that
    /// another may be opened, or its port is READY TO UNLOAD. Its CarrierOut is dropped, unless that is started.
    CancelCarrier { name: &'a [u8], port: u32 },
    /// 7: queues a request that a carrier comes from the buffer to a port, which may still be busy. Nothing moves yet:
    /// [`OutStart`](Input::OutStart) and [`OutDone`](Input::OutDone) do that.
    CarrierOut { name: &'a [u8], port: u32 },
    /// 8: a carrier that came out is called back in.
    CarrierIn { name: &'a [u8] },
    /// 9: sets a port's access mode: 0 MANUAL, 1 AUTO.
    ChangeAccess { port: u32, access: u32 },
    /// 10: takes a port out of service, 0, or puts it in service, 1.
    ChangeServiceStatus { port: u32, service: u32 },
    /// 11: reserves a port.
    ReserveAtPort { port: u32 },
    /// 12: ends a port's reservation, but not where a CarrierOut is started to it.
    CancelReservationAtPort { port: u32 },
    /// 13: a pod starts to arrive at a port, to which no CarrierOut is started: 0 by hand, 1 by an automatic vehicle
    /// ([`Start`](crate::states::Start)). A hand at a port in AUTO raises its AccessModeViolation alarm.
    LoadStart { port: u32, start: u32 },
    /// 14: the pod has arrived. Where the port's alarm is on the pod is [held](crate::Tool::held): nothing else follows
    /// before [`Continue`](Input::Continue) or [`LoadFail`](Input::LoadFail).
    LoadDone { port: u32 },
    /// 15: the pod didn't arrive, or one that was held is taken off again.
    LoadFail { port: u32 },
    /// 16: the name on the pod's tag was read.
    IdRead { port: u32, name: &'a [u8] },
    /// 17: the pod's tag couldn't be read.
    IdReadFailed { port: u32 },
    /// 18: the pod goes from the port to a buffer place, 1 to B.
    MoveIn { port: u32, place: u32 },
    /// 19: opens a carrier whose CarrierOut isn't started.
    Open { name: &'a [u8] },
    /// 20: the slot map of an open carrier was read: 25 codes, each 0 to 5;
    /// [`slot_code`](crate::words::slot_code) has their words. OK at once if it equals the expected map.
    SlotMap { name: &'a [u8], codes: &'a [u8] },
    /// 21: the wafers are about to be touched.
    AccessStart { name: &'a [u8] },
    /// 22: the access is over: 0 complete, 1 stopped.
    AccessEnd { name: &'a [u8], end: u32 },
    /// 23: closes a carrier.
    Close { name: &'a [u8] },
    /// 24: a pod starts to leave a port, 0 by hand, 1 by an automatic vehicle, as row 13.
    UnloadStart { port: u32, start: u32 },
    /// 25: the pod has left.
    UnloadDone { port: u32 },
    /// 26: the pod didn't leave.
    UnloadFail { port: u32 },
    /// 27: starts the oldest request for a port whose carrier is closed and not IN ACCESS, and reserves the port.
    OutStart { port: u32 },
    /// 28: the carrier whose request is started to the port has come out and stands there.
    OutDone { port: u32 },
    /// 29: drops a carrier's request that isn't started.
    CancelCarrierOut { name: &'a [u8] },
    /// 30: drops all requests that aren't started; accepted even with none.
    CancelAllCarrierOut,
    /// 31: the time, in seconds of one clock that never goes back; this and the next four judge every
    /// [prediction](crate::Tool::predictions) by it.
    Clock { clock: u32 },
    /// 32: when a carrier that is WAITING FOR PREDICTION will be ready to unload. Once for a carrier.
    PredictedTime { clock: u32, name: &'a [u8], tp: u32 },
    /// 33: when it is expected to be by now. As often as it is calculated anew; without any, the clock is taken for it
    /// once the predicted time has passed.
    Estimate { clock: u32, name: &'a [u8], te: u32 },
    /// 34: no time can be predicted for a carrier that is WAITING FOR PREDICTION.
    NoPrediction { clock: u32, name: &'a [u8] },
    /// 35: the same as [`PredictedTime`](Input::PredictedTime) from the times of up to 25 wafers: the predicted time is
    /// the clock plus the total of both times of all, rounded up once to a second; with no wafers it is the clock.
    Wafers { clock: u32, name: &'a [u8], wafers: &'a [Wafer] },
    /// 36: the pod that is held at a port stays: what [`LoadDone`](Input::LoadDone) does without an alarm, which is
    /// cleared.
    Continue { port: u32 },
}

/// An input as the machine takes it. A row looks only at the parts that it names.
#[derive(Clone, Copy, Debug, Default, PartialEq, Eq, Hash)]
pub struct Parts<'a> {
    /// The row: 1 to 36.
    pub number: u32,
    /// The port.
    pub port: u32,
    /// The access mode, service status, buffer place or end of access, or who starts to load or unload.
    pub value: u32,
    /// The carrier's name; it may have blanks at its end.
    pub name: &'a [u8],
    /// The codes of a slot map, or of an expected map.
    pub codes: &'a [u8],
    /// The clock, in seconds.
    pub clock: u32,
    /// The predicted or estimated time, in seconds of the clock.
    pub time: u32,
    /// The wafers that a carrier waits for.
    pub wafers: &'a [Wafer],
}

impl<'a> Parts<'a> {
    fn row(number: u32) -> Parts<'a> {
        Parts { number, ..Parts::default() }
    }

    fn port(self, port: u32) -> Parts<'a> {
        Parts { port, ..self }
    }

    fn value(self, value: u32) -> Parts<'a> {
        Parts { value, ..self }
    }

    fn name(self, name: &'a [u8]) -> Parts<'a> {
        Parts { name, ..self }
    }

    fn codes(self, codes: &'a [u8]) -> Parts<'a> {
        Parts { codes, ..self }
    }

    fn clock(self, clock: u32) -> Parts<'a> {
        Parts { clock, ..self }
    }

    fn time(self, time: u32) -> Parts<'a> {
        Parts { time, ..self }
    }

    fn wafers(self, wafers: &'a [Wafer]) -> Parts<'a> {
        Parts { wafers, ..self }
    }
}

impl<'a> Input<'a> {
    /// The input as the machine takes it; parts that the row doesn't name are 0 or empty.
    ///
    /// ```
    /// use hawsermole::Input;
    ///
    /// let parts = Input::MoveIn { port: 2, place: 16 }.parts();
    /// assert_eq!((parts.number, parts.port, parts.value), (18, 2, 16));
    /// assert!(parts.name.is_empty() && parts.codes.is_empty());
    /// ```
    pub fn parts(&self) -> Parts<'a> {
        let row = Parts::row;
        match *self {
            Input::Bind { port, name } => row(1).port(port).name(name),
            Input::BindWithMap { port, name, map } => row(1).port(port).name(name).codes(map.codes()),
            Input::CancelBind { port, name } => row(2).port(port).name(name),
            Input::CarrierNotification { name } => row(3).name(name),
            Input::CarrierNotificationWithMap { name, map } => row(3).name(name).codes(map.codes()),
            Input::CancelCarrierNotification { name } => row(4).name(name),
            Input::ProceedWithCarrier { name, port } => row(5).name(name).port(port),
            Input::CancelCarrier { name, port } => row(6).name(name).port(port),
            Input::CarrierOut { name, port } => row(7).name(name).port(port),
            Input::CarrierIn { name } => row(8).name(name),
            Input::ChangeAccess { port, access } => row(9).port(port).value(access),
            Input::ChangeServiceStatus { port, service } => row(10).port(port).value(service),
            Input::ReserveAtPort { port } => row(11).port(port),
            Input::CancelReservationAtPort { port } => row(12).port(port),
            Input::LoadStart { port, start } => row(13).port(port).value(start),
            Input::LoadDone { port } => row(14).port(port),
            Input::LoadFail { port } => row(15).port(port),
            Input::IdRead { port, name } => row(16).port(port).name(name),
            Input::IdReadFailed { port } => row(17).port(port),
            Input::MoveIn { port, place } => row(18).port(port).value(place),
            Input::Open { name } => row(19).name(name),
            Input::SlotMap { name, codes } => row(20).name(name).codes(codes),
            Input::AccessStart { name } => row(21).name(name),
            Input::AccessEnd { name, end } => row(22).name(name).value(end),
            Input::Close { name } => row(23).name(name),
            Input::UnloadStart { port, start } => row(24).port(port).value(start),
            Input::UnloadDone { port } => row(25).port(port),
            Input::UnloadFail { port } => row(26).port(port),
            Input::OutStart { port } => row(27).port(port),
            Input::OutDone { port } => row(28).port(port),
            Input::CancelCarrierOut { name } => row(29).name(name),
            Input::CancelAllCarrierOut => row(30),
            Input::Clock { clock } => row(31).clock(clock),
            Input::PredictedTime { clock, name, tp } => row(32).clock(clock).name(name).time(tp),
            Input::Estimate { clock, name, te } => row(33).clock(clock).name(name).time(te),
            Input::NoPrediction { clock, name } => row(34).clock(clock).name(name),
            Input::Wafers { clock, name, wafers } => row(35).clock(clock).name(name).wafers(wafers),
            Input::Continue { port } => row(36).port(port),
        }
    }

    /// The input of its parts; none if the number isn't 1 to 36, or if rows 1 and 3 carry codes that are no expected
    /// map. Parts that the row doesn't name are left out.
    ///
    /// ```
    /// use hawsermole::{Input, Parts};
    ///
    /// let parts = Parts { number: 13, port: 1, value: 1, ..Parts::default() };
    /// assert_eq!(Input::from_parts(&parts), Some(Input::LoadStart { port: 1, start: 1 }));
    /// assert_eq!(Input::from_parts(&Parts { number: 37, ..parts }), None);
    /// assert_eq!(Input::from_parts(&Parts { number: 1, codes: &[5; 25], ..parts }), None);
    /// ```
    pub fn from_parts(parts: &Parts<'a>) -> Option<Input<'a>> {
        let Parts { number, port, value, name, codes, .. } = *parts;
        Some(match number {
            1 if codes.is_empty() => Input::Bind { port, name },
            1 => Input::BindWithMap { port, name, map: ExpectedMap::new(codes).ok()? },
            2 => Input::CancelBind { port, name },
            3 if codes.is_empty() => Input::CarrierNotification { name },
            3 => Input::CarrierNotificationWithMap { name, map: ExpectedMap::new(codes).ok()? },
            4 => Input::CancelCarrierNotification { name },
            5 => Input::ProceedWithCarrier { name, port },
            6 => Input::CancelCarrier { name, port },
            7 => Input::CarrierOut { name, port },
            8 => Input::CarrierIn { name },
            9 => Input::ChangeAccess { port, access: value },
            10 => Input::ChangeServiceStatus { port, service: value },
            11 => Input::ReserveAtPort { port },
            12 => Input::CancelReservationAtPort { port },
            13 => Input::LoadStart { port, start: value },
            14 => Input::LoadDone { port },
            15 => Input::LoadFail { port },
            16 => Input::IdRead { port, name },
            17 => Input::IdReadFailed { port },
            18 => Input::MoveIn { port, place: value },
            19 => Input::Open { name },
            20 => Input::SlotMap { name, codes },
            21 => Input::AccessStart { name },
            22 => Input::AccessEnd { name, end: value },
            23 => Input::Close { name },
            24 => Input::UnloadStart { port, start: value },
            25 => Input::UnloadDone { port },
            26 => Input::UnloadFail { port },
            27 => Input::OutStart { port },
            28 => Input::OutDone { port },
            29 => Input::CancelCarrierOut { name },
            30 => Input::CancelAllCarrierOut,
            36 => Input::Continue { port },
            _ => return Input::with_clock(parts),
        })
    }

    /// One of the inputs that bring the clock.
    fn with_clock(parts: &Parts<'a>) -> Option<Input<'a>> {
        let Parts { number, name, clock, time, wafers, .. } = *parts;
        match number {
            31 => Some(Input::Clock { clock }),
            32 => Some(Input::PredictedTime { clock, name, tp: time }),
            33 => Some(Input::Estimate { clock, name, te: time }),
            34 => Some(Input::NoPrediction { clock, name }),
            35 => Some(Input::Wafers { clock, name, wafers }),
            _ => None,
        }
    }

    /// The documents' number, 1 to 36.
    pub fn number(&self) -> u32 {
        self.parts().number
    }

    /// The row: name, arguments and what it means.
    ///
    /// ```
    /// use hawsermole::Input;
    ///
    /// assert_eq!(Input::Open { name: b"AB" }.row().name, "Open");
    /// ```
    pub fn row(&self) -> &'static Row {
        &ROWS[self.number() as usize - 1]
    }
}

/// The input in document 01's form, with `-` for an empty name: `Bind(1, AB)`, `SlotMap(AC, 25 codes)`. A name stands
/// as it is sent, with `\x20` for a blank; an input without arguments stands alone.
///
/// ```
/// use hawsermole::{ExpectedMap, Input};
///
/// assert_eq!(Input::Bind { port: 1, name: b"AB" }.to_string(), "Bind(1, AB)");
/// assert_eq!(Input::CancelBind { port: 2, name: b"" }.to_string(), "CancelBind(2, -)");
/// assert_eq!(Input::SlotMap { name: b"AC", codes: &[3; 25] }.to_string(), "SlotMap(AC, 25 codes)");
/// let map = ExpectedMap::new(&[3; 25]).unwrap();
/// assert_eq!(Input::BindWithMap { port: 1, name: b"AB", map }.to_string(), "Bind(1, AB, 25 codes)");
/// assert_eq!(Input::CancelAllCarrierOut.to_string(), "CancelAllCarrierOut");
/// assert_eq!(Input::LoadStart { port: 1, start: 1 }.to_string(), "LoadStart(1, automatic)");
/// ```
impl fmt::Display for Input<'_> {
    fn fmt(&self, f: &mut fmt::Formatter<'_>) -> fmt::Result {
        self.parts().fmt(f)
    }
}

/// As an [`Input`]; the number alone where no row has it.
///
/// ```
/// use hawsermole::Parts;
///
/// let parts = Parts { number: 1, port: 1, name: b"AB", codes: &[5, 5], ..Parts::default() };
/// assert_eq!(parts.to_string(), "Bind(1, AB, 2 codes)");
/// assert_eq!(Parts { number: 37, ..parts }.to_string(), "37");
/// ```
impl fmt::Display for Parts<'_> {
    fn fmt(&self, f: &mut fmt::Formatter<'_>) -> fmt::Result {
        let Some(row) = Row::numbered(self.number) else { return write!(f, "{}", self.number) };
        if row.arguments.is_empty() {
            return f.write_str(row.name);
        }
        let left_out = |argument: &Argument| *argument == Argument::MapOrNone && self.codes.is_empty();
        write!(f, "{}(", row.name)?;
        for (place, argument) in row.arguments.iter().filter(|argument| !left_out(argument)).enumerate() {
            f.write_str(if place == 0 { "" } else { ", " })?;
            match argument {
                Argument::Port | Argument::PortOrNone => write!(f, "{}", self.port)?,
                Argument::Name | Argument::NameOrNone if self.name.is_empty() => f.write_str("-")?,
                Argument::Name | Argument::NameOrNone => write_text(self.name, f)?,
                Argument::Codes | Argument::MapOrNone => write!(f, "{} codes", self.codes.len())?,
                Argument::Access | Argument::Service | Argument::Place | Argument::End => {
                    write!(f, "{}", self.value)?
                }
                Argument::Start => write_start(self.value, f)?,
                Argument::Clock => write!(f, "{}", self.clock)?,
                Argument::Tp | Argument::Te => write!(f, "{}", self.time)?,
                Argument::Wafers => write_wafers(self.wafers.len(), f)?,
            }
        }
        f.write_str(")")
    }
}

/// By its word, where the number has one.
fn write_start(value: u32, f: &mut fmt::Formatter<'_>) -> fmt::Result {
    match u8::try_from(value).ok().and_then(Start::from_number) {
        Some(start) => f.write_str(start.word()),
        None => write!(f, "{value}"),
    }
}

fn write_wafers(count: usize, f: &mut fmt::Formatter<'_>) -> fmt::Result {
    match count {
        0 => f.write_str("no wafers"),
        1 => f.write_str("1 wafer"),
        _ => write!(f, "{count} wafers"),
    }
}

#[cfg(test)]
mod tests {
    use super::*;
    use std::format;

    const NAME: &[u8] = b"AB";
    const CLOCK: u32 = 18;
    const TIME: u32 = u32::MAX;
    const WAFERS: &[Wafer] = &[Wafer { process: 90.5, handling: 12.0 }; 2];

    /// An input, its number, and its port, value, name and codes; those of P7 and P8 have the clock, time and wafers
    /// above.
    type Case = (Input<'static>, u32, u32, u32, &'static [u8], &'static [u8]);

    #[rustfmt::skip]
    fn every_input() -> [Case; 38] {
        let (name, codes): (_, &[u8]) = (NAME, &[3; 25]);
        let map = ExpectedMap::new(codes).unwrap();
        [
            (Input::Bind { port: 1, name }, 1, 1, 0, NAME, &[]),
            (Input::BindWithMap { port: 1, name, map }, 1, 1, 0, NAME, codes),
            (Input::CancelBind { port: 2, name }, 2, 2, 0, NAME, &[]),
            (Input::CarrierNotification { name }, 3, 0, 0, NAME, &[]),
            (Input::CarrierNotificationWithMap { name, map }, 3, 0, 0, NAME, codes),
            (Input::CancelCarrierNotification { name }, 4, 0, 0, NAME, &[]),
            (Input::ProceedWithCarrier { name, port: 3 }, 5, 3, 0, NAME, &[]),
            (Input::CancelCarrier { name, port: 4 }, 6, 4, 0, NAME, &[]),
            (Input::CarrierOut { name, port: 5 }, 7, 5, 0, NAME, &[]),
            (Input::CarrierIn { name }, 8, 0, 0, NAME, &[]),
            (Input::ChangeAccess { port: 6, access: 60 }, 9, 6, 60, &[], &[]),
            (Input::ChangeServiceStatus { port: 7, service: 70 }, 10, 7, 70, &[], &[]),
            (Input::ReserveAtPort { port: 8 }, 11, 8, 0, &[], &[]),
            (Input::CancelReservationAtPort { port: 9 }, 12, 9, 0, &[], &[]),
            (Input::LoadStart { port: 10, start: 100 }, 13, 10, 100, &[], &[]),
            (Input::LoadDone { port: 11 }, 14, 11, 0, &[], &[]),
            (Input::LoadFail { port: 12 }, 15, 12, 0, &[], &[]),
            (Input::IdRead { port: 13, name }, 16, 13, 0, NAME, &[]),
            (Input::IdReadFailed { port: 14 }, 17, 14, 0, &[], &[]),
            (Input::MoveIn { port: 15, place: 150 }, 18, 15, 150, &[], &[]),
            (Input::Open { name }, 19, 0, 0, NAME, &[]),
            (Input::SlotMap { name, codes }, 20, 0, 0, NAME, codes),
            (Input::AccessStart { name }, 21, 0, 0, NAME, &[]),
            (Input::AccessEnd { name, end: 160 }, 22, 0, 160, NAME, &[]),
            (Input::Close { name }, 23, 0, 0, NAME, &[]),
            (Input::UnloadStart { port: u32::MAX, start: u32::MAX }, 24, u32::MAX, u32::MAX, &[], &[]),
            (Input::UnloadDone { port: 257 }, 25, 257, 0, &[], &[]),
            (Input::UnloadFail { port: 0 }, 26, 0, 0, &[], &[]),
            (Input::OutStart { port: 16 }, 27, 16, 0, &[], &[]),
            (Input::OutDone { port: 17 }, 28, 17, 0, &[], &[]),
            (Input::CancelCarrierOut { name }, 29, 0, 0, NAME, &[]),
            (Input::CancelAllCarrierOut, 30, 0, 0, &[], &[]),
            (Input::Clock { clock: CLOCK }, 31, 0, 0, &[], &[]),
            (Input::PredictedTime { clock: CLOCK, name, tp: TIME }, 32, 0, 0, NAME, &[]),
            (Input::Estimate { clock: CLOCK, name, te: TIME }, 33, 0, 0, NAME, &[]),
            (Input::NoPrediction { clock: CLOCK, name }, 34, 0, 0, NAME, &[]),
            (Input::Wafers { clock: CLOCK, name, wafers: WAFERS }, 35, 0, 0, NAME, &[]),
            (Input::Continue { port: 18 }, 36, 18, 0, &[], &[]),
        ]
    }

    #[test]
    fn every_input_has_its_number_and_arguments() {
        for (input, number, port, value, name, codes) in every_input() {
            let clock = if (31..=35).contains(&number) { CLOCK } else { 0 };
            let time = if [32, 33].contains(&number) { TIME } else { 0 };
            let wafers = if number == 35 { WAFERS } else { &[] };
            assert_eq!(input.parts(), Parts { number, port, value, name, codes, clock, time, wafers });
            assert_eq!(input.number(), number);
            assert_eq!(Input::from_parts(&input.parts()), Some(input));
        }
    }

    /// The derived text gives the case's own name, and its fields in their order; a map may be left out.
    #[test]
    fn every_input_has_its_rows_name_and_order() {
        for (input, _, _, _, _, codes) in every_input() {
            let (text, row) = (format!("{input:?}"), input.row());
            let with_map = row.arguments.contains(&Argument::MapOrNone) && !codes.is_empty();
            let brace = if row.arguments.is_empty() { "" } else { " {" };
            let case = format!("{}{}{brace}", row.name, if with_map { "WithMap" } else { "" });
            assert!(text.starts_with(&case), "{text}");
            let stands = |argument: &&Argument| **argument != Argument::MapOrNone || with_map;
            let place = |argument: &Argument| text.find(&format!(" {}: ", argument.name())).expect(row.name);
            assert!(row.arguments.iter().filter(stands).map(place).is_sorted(), "{text}");
        }
    }

    #[test]
    fn odd_numbers_are_no_input() {
        for number in [0, 37, 255, 256, 257, 256 + 36, u32::MAX] {
            assert_eq!(Input::from_parts(&Parts { number, ..Parts::default() }), None);
        }
    }

    /// Only rows 1 and 3 take codes for an expected map.
    #[test]
    fn codes_that_are_no_map_are_no_input() {
        for codes in [&[3; 24][..], &[0; 25], &[4; 25], &[3; 26]] {
            for number in 1..=36 {
                let input = Input::from_parts(&Parts { number, codes, ..Parts::default() });
                assert_eq!(input.is_none(), matches!(number, 1 | 3), "{number}");
            }
        }
    }

    #[test]
    fn inputs_print_in_document_01s_form() {
        assert_eq!(format!("{}", Input::MoveIn { port: 1, place: 4 }), "MoveIn(1, 4)");
        assert_eq!(
            format!("{}", Input::ProceedWithCarrier { name: NAME, port: 0 }),
            "ProceedWithCarrier(AB, 0)"
        );
        assert_eq!(
            format!("{}", Input::AccessEnd { name: b"a b\xff", end: 1 }),
            "AccessEnd(a\\x20b\\xff, 1)"
        );
        let predicted = Input::PredictedTime { clock: 9, name: NAME, tp: 69 };
        assert_eq!(
            (format!("{predicted}"), format!("{}", Input::Clock { clock: 9 })),
            ("PredictedTime(9, AB, 69)".into(), "Clock(9)".into())
        );
        for (start, text) in [(0, "manual"), (1, "automatic"), (2, "2"), (256, "256")] {
            let inputs = [Input::LoadStart { port: 1, start }, Input::UnloadStart { port: 1, start }];
            let texts = [format!("LoadStart(1, {text})"), format!("UnloadStart(1, {text})")];
            assert_eq!(inputs.map(|input| format!("{input}")), texts);
        }
        for (count, text) in [(0, "no wafers"), (1, "1 wafer"), (2, "2 wafers")] {
            let input = Input::Wafers { clock: 9, name: NAME, wafers: &WAFERS[..count] };
            assert_eq!(format!("{input}"), format!("Wafers(9, AB, {text})"));
        }
    }
}
