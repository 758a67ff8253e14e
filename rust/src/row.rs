//! The table of inputs: number, name, arguments and meaning of each, for programs that read or print inputs.

/// An argument of an input.
#[derive(Clone, Copy, Debug, PartialEq, Eq, Hash)]
pub enum Argument {
    /// A port, 1 to P.
    Port,
    /// A port, or 0 for "not given".
    PortOrNone,
    /// A carrier's name.
    Name,
    /// A carrier's name, or an empty one for "not given"; blanks alone are neither.
    NameOrNone,
    /// 0 MANUAL, 1 AUTO.
    Access,
    /// 0 out of service, 1 in service.
    Service,
    /// A buffer place, 1 to B.
    Place,
    /// 0 complete, 1 stopped.
    End,
    /// 0 manual, 1 automatic: who moves the pod.
    Start,
    /// The 25 codes of a slot map.
    Codes,
    /// The 25 codes of an expected map, or none. It stands last, and may be left out.
    MapOrNone,
    /// The clock, in seconds.
    Clock,
    /// The predicted time of ready to unload, in seconds of the clock: document 000's Tp.
    Tp,
    /// The estimated time of ready to unload, in seconds of the clock: document 000's Te.
    Te,
    /// The wafers that the carrier waits for, none to 25. They stand last.
    Wafers,
}

impl Argument {
    /// What it is called.
    pub const fn name(self) -> &'static str {
        match self {
            Argument::Port | Argument::PortOrNone => "port",
            Argument::Name | Argument::NameOrNone => "name",
            Argument::Access => "access",
            Argument::Service => "service",
            Argument::Place => "place",
            Argument::End => "end",
            Argument::Start => "start",
            Argument::Codes => "codes",
            Argument::MapOrNone => "map",
            Argument::Clock => "clock",
            Argument::Tp => "tp",
            Argument::Te => "te",
            Argument::Wafers => "wafers",
        }
    }
}

/// A row of document 01, or of a request: one kind of input.
#[derive(Clone, Copy, Debug, PartialEq, Eq)]
pub struct Row {
    /// 1 to 36.
    pub number: u32,
    /// The documents' name.
    pub name: &'static str,
    /// The arguments in the documents' order.
    pub arguments: &'static [Argument],
    /// What it means, in a few words.
    pub text: &'static str,
    /// The row's conditions on state, which refusal 5 speaks of; none where the row has no such refusal.
    pub conditions: Option<&'static str>,
}

impl Row {
    /// The row of a number; none outside 1 to 36.
    ///
    /// ```
    /// use hawsermole::Row;
    ///
    /// assert_eq!(Row::numbered(20).unwrap().name, "SlotMap");
    /// assert_eq!(Row::numbered(0), None);
    /// assert_eq!(Row::numbered(37), None);
    /// ```
    pub fn numbered(number: u32) -> Option<&'static Row> {
        ROWS.iter().find(|row| row.number == number)
    }

    /// The row of a name, written as in the documents.
    ///
    /// ```
    /// use hawsermole::{Argument, Row};
    ///
    /// let row = Row::named("ProceedWithCarrier").unwrap();
    /// assert_eq!(row.number, 5);
    /// assert_eq!(row.arguments, [Argument::Name, Argument::PortOrNone]);
    /// assert_eq!(Row::named("proceed"), None);
    /// ```
    pub fn named(name: &str) -> Option<&'static Row> {
        ROWS.iter().find(|row| row.name == name)
    }
}

/// The archive's function that takes an input.
#[derive(Debug, PartialEq)]
pub(crate) enum Taker {
    /// `hm_step`: all but those that bring the clock, and numbers that no row has.
    Step,
    /// `hm_time_step`.
    TimeStep,
    /// `hm_wafers_step`.
    WafersStep,
}

impl Taker {
    /// The function for an input's number.
    pub(crate) const fn of(number: u32) -> Taker {
        match number {
            31..=34 => Taker::TimeStep,
            35 => Taker::WafersStep,
            _ => Taker::Step,
        }
    }
}

use Argument::{
    Access, Clock, Codes, End, MapOrNone, Name, NameOrNone, Place, Port, PortOrNone, Service, Start, Te, Tp,
    Wafers,
};

const fn row(number: u32, name: &'static str, arguments: &'static [Argument], text: &'static str) -> Row {
    Row { number, name, arguments, text, conditions: None }
}

impl Row {
    const fn needs(self, conditions: &'static str) -> Row {
        Row { conditions: Some(conditions), ..self }
    }
}

/// The 36 rows, by number.
pub const ROWS: [Row; 36] = [
    row(
        1,
        "Bind",
        &[Port, Name, MapOrNone],
        "associate an expected carrier with a port and reserve the port",
    )
    .needs("the port READY TO LOAD"),
    row(2, "CancelBind", &[PortOrNone, NameOrNone], "take a Bind back")
        .needs("what is given means one tied pair, the carrier expected and the port idle"),
    row(3, "CarrierNotification", &[Name, MapOrNone], "announce a carrier"),
    row(4, "CancelCarrierNotification", &[Name], "take an announcement back")
        .needs("the carrier expected and untied"),
    row(5, "ProceedWithCarrier", &[Name, PortOrNone], "the host accepts the ID, or else the slot map").needs(
        "of a placed carrier, no port given but its own, and the ID or else the slot map WAITING FOR HOST; \
         of an expected one, no tie, and at the given port an unknown pod",
    ),
    row(6, "CancelCarrier", &[Name, PortOrNone], "the host rejects the carrier").needs(
        "of a placed carrier, no port given but its own, not IN ACCESS, and its port idle; \
         of an expected one, no tie, and at the given port an unknown pod",
    ),
    row(7, "CarrierOut", &[Name, Port], "queue a carrier's way from the buffer to a port")
        .needs("the carrier in the buffer"),
    row(8, "CarrierIn", &[Name], "a carrier that came out is called back in")
        .needs("the carrier come out and at a port READY TO UNLOAD"),
    row(9, "ChangeAccess", &[Port, Access], "set the access mode").needs("the port idle"),
    row(10, "ChangeServiceStatus", &[Port, Service], "take a port out of service or put it in service")
        .needs("the port READY TO LOAD"),
    row(11, "ReserveAtPort", &[Port], "reserve a port").needs("the port READY TO LOAD"),
    row(12, "CancelReservationAtPort", &[Port], "end a port's reservation").needs("the port RESERVED"),
    row(13, "LoadStart", &[Port, Start], "a pod starts to arrive").needs("the port READY TO LOAD"),
    row(14, "LoadDone", &[Port], "the pod has arrived").needs("the port loading, and no pod held there"),
    row(15, "LoadFail", &[Port], "the pod didn't arrive").needs("the port loading"),
    row(16, "IdRead", &[Port, Name], "the pod's tag was read")
        .needs("a pod present, the port idle, the tag unread"),
    row(17, "IdReadFailed", &[Port], "the pod's tag couldn't be read")
        .needs("a pod present, the port idle, the tag unread"),
    row(18, "MoveIn", &[Port, Place], "the pod goes from the port into the buffer")
        .needs("a pod present, the port idle and TRANSFER BLOCKED"),
    row(19, "Open", &[Name], "open a carrier").needs(
        "the carrier closed, NOT ACCESSED and in the buffer, its CarrierOut not started, or, \
         where there is no buffer, at a port that is idle and TRANSFER BLOCKED",
    ),
    row(20, "SlotMap", &[Name, Codes], "the slot map was read").needs("the carrier open, SLOT MAP NOT READ"),
    row(21, "AccessStart", &[Name], "access to the wafers starts").needs("the carrier open and NOT ACCESSED"),
    row(22, "AccessEnd", &[Name, End], "access to the wafers is over").needs("the carrier IN ACCESS"),
    row(23, "Close", &[Name], "close a carrier").needs("the carrier open and not IN ACCESS"),
    row(24, "UnloadStart", &[Port, Start], "a pod starts to leave").needs("the port READY TO UNLOAD"),
    row(25, "UnloadDone", &[Port], "the pod has left").needs("the port unloading"),
    row(26, "UnloadFail", &[Port], "the pod didn't leave").needs("the port unloading"),
    row(27, "OutStart", &[Port], "start the oldest CarrierOut that is ready for a port").needs(
        "the port READY TO LOAD, and a CarrierOut queued for it whose carrier is closed and not IN ACCESS",
    ),
    row(28, "OutDone", &[Port], "the carrier has come out and stands on the port")
        .needs("a CarrierOut started to the port"),
    row(29, "CancelCarrierOut", &[Name], "take a carrier's CarrierOut back")
        .needs("the carrier's CarrierOut queued and not started"),
    row(30, "CancelAllCarrierOut", &[], "take back every CarrierOut that isn't started"),
    row(31, "Clock", &[Clock], "tell the time: every prediction is judged by it"),
    row(32, "PredictedTime", &[Clock, Name, Tp], "predict when the carrier will be ready to unload").needs(
        "a tool without a buffer, and the carrier's prediction WAITING FOR PREDICTION and without a predicted time",
    ),
    row(33, "Estimate", &[Clock, Name, Te], "estimate anew when the carrier will be ready to unload")
        .needs("a tool without a buffer, and a predicted time of the carrier"),
    row(34, "NoPrediction", &[Clock, Name], "no ready to unload time can be predicted for the carrier")
        .needs("a tool without a buffer, and the carrier's prediction WAITING FOR PREDICTION"),
    row(35, "Wafers", &[Clock, Name, Wafers], "predict ready to unload by the times of the carrier's wafers").needs(
        "a tool without a buffer, and the carrier's prediction WAITING FOR PREDICTION and without a predicted time",
    ),
    row(36, "Continue", &[Port], "the pod that is held stays: the load goes on").needs("a pod held at the port"),
];

#[cfg(test)]
mod tests {
    use super::*;
    use crate::{Input, Parts, Wafer};

    /// Every part given: what an input keeps of them is what its row names.
    const FULL: Parts<'static> = Parts {
        number: 0,
        port: 3,
        value: 9,
        name: b"N",
        codes: &[3; 25],
        clock: 7,
        time: 8,
        wafers: &[Wafer { process: 1.5, handling: 2.0 }],
    };

    fn named_parts(row: &Row) -> Parts<'static> {
        let mut parts = Parts { number: row.number, ..Parts::default() };
        for argument in row.arguments {
            match argument.name() {
                "port" => parts.port = FULL.port,
                "name" => parts.name = FULL.name,
                "codes" | "map" => parts.codes = FULL.codes,
                "clock" => parts.clock = FULL.clock,
                "tp" | "te" => parts.time = FULL.time,
                "wafers" => parts.wafers = FULL.wafers,
                _ => parts.value = FULL.value,
            }
        }
        parts
    }

    #[test]
    fn rows_stand_by_number_and_names_differ() {
        for (place, row) in ROWS.iter().enumerate() {
            assert_eq!(row.number as usize, place + 1);
            assert_eq!(Row::numbered(row.number), Some(row));
            assert_eq!(Row::named(row.name), Some(row));
        }
    }

    #[test]
    fn rows_name_the_arguments_of_their_inputs() {
        for row in &ROWS {
            let input = Input::from_parts(&Parts { number: row.number, ..FULL }).unwrap();
            assert_eq!(input.parts(), named_parts(row), "{}", row.name);
            assert_eq!(input.row(), row);
        }
    }

    /// Rows 3, 30 and 31 alone have no refusal 5.
    #[test]
    fn conditions_stand_where_a_row_has_refusal_5() {
        for row in &ROWS {
            assert_eq!(row.conditions.is_none(), [3, 30, 31].contains(&row.number), "{}", row.name);
        }
    }

    #[test]
    fn inputs_that_bring_the_clock_name_it_first() {
        for row in &ROWS {
            let taker = match row.arguments {
                [Clock, .., Wafers] => Taker::WafersStep,
                [Clock, ..] => Taker::TimeStep,
                _ => Taker::Step,
            };
            assert_eq!(Taker::of(row.number), taker, "{}", row.name);
        }
        assert!([0, 37, 256 + 31, 256 + 35].map(Taker::of).iter().all(|taker| *taker == Taker::Step));
    }
}
