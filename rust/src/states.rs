//! The states of ports and carriers as enums, with E87's words, from and as document 01's numbers.
//!
//! A tool holds numbers, because one that isn't sound may hold any; these are the numbers that mean something.
//!
//! ```
//! use hawsermole::states::{AccessMode, Start, State, Transfer};
//! use hawsermole::{Input, Tool};
//!
//! let mut tool = Tool::setup(1, 0).unwrap();
//! let (auto, vehicle) = (AccessMode::Auto as u32, Start::Automatic as u32);
//! tool.step(&Input::ChangeAccess { port: 1, access: auto }).unwrap();
//! let mut reports = tool.step(&Input::LoadStart { port: 1, start: vehicle }).unwrap();
//!
//! let port = tool.ports().next().unwrap();
//! assert_eq!(Transfer::from_number(port.transfer), Some(Transfer::Blocked));
//! assert_eq!(AccessMode::try_from(port.access), Ok(AccessMode::Auto));
//! let report = reports.next().unwrap();
//! assert_eq!(report.new_state(), Some(State::Transfer(Transfer::Blocked)));
//! assert_eq!(report.new_state().unwrap().to_string(), "TRANSFER BLOCKED");
//! ```
use crate::Model;
use core::fmt;

/// A number that none of an enum's states has.
#[derive(Clone, Copy, Debug, PartialEq, Eq)]
pub struct NoSuchState(pub u8);

impl fmt::Display for NoSuchState {
    fn fmt(&self, f: &mut fmt::Formatter<'_>) -> fmt::Result {
        write!(f, "no state has the number {}", self.0)
    }
}

impl core::error::Error for NoSuchState {}

/// An enum of states: each with its number and its word.
macro_rules! states {
    ($(#[$about:meta])* $name:ident { $($state:ident = $number:literal, $word:literal;)* }) => {
        $(#[$about])*
        #[derive(Clone, Copy, Debug, PartialEq, Eq, PartialOrd, Ord, Hash)]
        #[repr(u8)]
        pub enum $name {
            $(#[doc = concat!($number, ": ", $word, ".")] $state = $number,)*
        }

        impl $name {
            /// All of them, by number.
            pub const ALL: &'static [$name] = &[$($name::$state),*];

            /// Document 01's number.
            pub const fn number(self) -> u8 {
                self as u8
            }

            /// The state of a number; none where no state has it.
            pub const fn from_number(number: u8) -> Option<$name> {
                match number {
                    $($number => Some($name::$state),)*
                    _ => None,
                }
            }

            /// E87's word, or document 01's where E87 has none.
            pub const fn word(self) -> &'static str {
                match self {
                    $($name::$state => $word,)*
                }
            }
        }

        impl TryFrom<u8> for $name {
            type Error = NoSuchState;

            fn try_from(number: u8) -> Result<$name, NoSuchState> {
                $name::from_number(number).ok_or(NoSuchState(number))
            }
        }

        impl From<$name> for u8 {
            fn from(state: $name) -> u8 {
                state.number()
            }
        }

        impl fmt::Display for $name {
            fn fmt(&self, f: &mut fmt::Formatter<'_>) -> fmt::Result {
                f.pad(self.word())
            }
        }
    };
}

states! {
    /// A port's transfer state, model 1.
    Transfer {
        OutOfService = 0, "OUT OF SERVICE";
        ReadyToLoad = 1, "READY TO LOAD";
        ReadyToUnload = 2, "READY TO UNLOAD";
        Blocked = 3, "TRANSFER BLOCKED";
    }
}

states! {
    /// A port's access mode, model 2, and the value of ChangeAccess.
    AccessMode {
        Manual = 0, "MANUAL";
        Auto = 1, "AUTO";
    }
}

states! {
    /// A port's reservation, model 3.
    Reservation {
        NotReserved = 0, "NOT RESERVED";
        Reserved = 1, "RESERVED";
    }
}

states! {
    /// A port's tie to a carrier, model 4: E87's association.
    Association {
        NotAssociated = 0, "NOT ASSOCIATED";
        Associated = 1, "ASSOCIATED";
    }
}

states! {
    /// A carrier's ID status, model 5.
    IdStatus {
        NotRead = 1, "ID NOT READ";
        WaitingForHost = 2, "ID WAITING FOR HOST";
        Ok = 3, "ID VERIFICATION OK";
        Failed = 4, "ID VERIFICATION FAILED";
    }
}

states! {
    /// A carrier's slot map status, model 6.
    SlotStatus {
        NotRead = 1, "SLOT MAP NOT READ";
        WaitingForHost = 2, "SLOT MAP WAITING FOR HOST";
        Ok = 3, "SLOT MAP VERIFICATION OK";
        Failed = 4, "SLOT MAP VERIFICATION FAILED";
    }
}

states! {
    /// A carrier's accessing status, model 7.
    Accessing {
        NotAccessed = 1, "NOT ACCESSED";
        InAccess = 2, "IN ACCESS";
        Complete = 3, "CARRIER COMPLETE";
        Stopped = 4, "CARRIER STOPPED";
    }
}

states! {
    /// A carrier's prediction of ready to unload, model 8.
    PredictionState {
        Disabled = 1, "PREDICTION DISABLED";
        WaitingForCarrier = 2, "WAITING FOR CARRIER";
        WaitingForPrediction = 3, "WAITING FOR PREDICTION";
        Predicted = 4, "PREDICTED";
        Aborted = 5, "PREDICTION ABORTED";
        Completed = 6, "PREDICTION COMPLETED";
    }
}

states! {
    /// A port's AccessModeViolation alarm, model 9.
    Alarm {
        Off = 0, "off";
        On = 1, "on";
    }
}

states! {
    /// Whether a pod is held at a port, which no report shows.
    Held {
        NotHeld = 0, "not held";
        Held = 1, "held";
    }
}

states! {
    /// A port's movement, which no report shows.
    Movement {
        None = 0, "idle";
        Loading = 1, "loading";
        Unloading = 2, "unloading";
    }
}

states! {
    /// A port's tag: what became of reading the pod's ID.
    Tag {
        Unread = 0, "unread";
        Read = 1, "read";
        Failed = 2, "failed";
    }
}

states! {
    /// A carrier's place.
    Place {
        Expected = 0, "expected";
        Port = 1, "at a port";
        Buffer = 2, "in the buffer";
    }
}

states! {
    /// A request of CarrierOut.
    RequestState {
        Queued = 0, "queued";
        Started = 1, "started";
    }
}

states! {
    /// A code of a slot map.
    SlotCode {
        Undefined = 0, "UNDEFINED";
        Empty = 1, "EMPTY";
        NotEmpty = 2, "NOT EMPTY";
        CorrectlyOccupied = 3, "CORRECTLY OCCUPIED";
        DoubleSlotted = 4, "DOUBLE SLOTTED";
        CrossSlotted = 5, "CROSS SLOTTED";
    }
}

states! {
    /// The value of ChangeServiceStatus.
    Service {
        Out = 0, "out of service";
        In = 1, "in service";
    }
}

states! {
    /// The value of AccessEnd.
    End {
        Complete = 0, "complete";
        Stopped = 1, "stopped";
    }
}

states! {
    /// The value of LoadStart and UnloadStart: who moves the pod. [`AccessMode`] says for whom the port is.
    Start {
        Manual = 0, "manual";
        Automatic = 1, "automatic";
    }
}

/// A state of one of the nine models, as a report has it.
#[derive(Clone, Copy, Debug, PartialEq, Eq, Hash)]
pub enum State {
    /// Models 5 to 8: the carrier has no record.
    NoRecord,
    /// Model 1.
    Transfer(Transfer),
    /// Model 2.
    Access(AccessMode),
    /// Model 3.
    Reservation(Reservation),
    /// Model 4.
    Tie(Association),
    /// Model 5.
    Id(IdStatus),
    /// Model 6.
    Slot(SlotStatus),
    /// Model 7.
    Accessing(Accessing),
    /// Model 8.
    Prediction(PredictionState),
    /// Model 9.
    Alarm(Alarm),
}

impl State {
    /// The state of a model's number; none where the model has no such number.
    ///
    /// ```
    /// use hawsermole::{states::{IdStatus, State}, Model};
    ///
    /// assert_eq!(State::of(Model::Id, 3), Some(State::Id(IdStatus::Ok)));
    /// assert_eq!(State::of(Model::Id, 0), Some(State::NoRecord));
    /// assert_eq!(State::of(Model::Access, 2), None);
    /// ```
    pub fn of(model: Model, number: u8) -> Option<State> {
        match model {
            Model::Transfer => Transfer::from_number(number).map(State::Transfer),
            Model::Access => AccessMode::from_number(number).map(State::Access),
            Model::Reservation => Reservation::from_number(number).map(State::Reservation),
            Model::Tie => Association::from_number(number).map(State::Tie),
            Model::Alarm => Alarm::from_number(number).map(State::Alarm),
            _ if number == 0 => Some(State::NoRecord),
            Model::Id => IdStatus::from_number(number).map(State::Id),
            Model::Slot => SlotStatus::from_number(number).map(State::Slot),
            Model::Accessing => Accessing::from_number(number).map(State::Accessing),
            Model::Prediction => PredictionState::from_number(number).map(State::Prediction),
        }
    }

    /// Document 01's number within the state's model.
    pub const fn number(self) -> u8 {
        match self {
            State::NoRecord => 0,
            State::Transfer(state) => state.number(),
            State::Access(state) => state.number(),
            State::Reservation(state) => state.number(),
            State::Tie(state) => state.number(),
            State::Id(state) => state.number(),
            State::Slot(state) => state.number(),
            State::Accessing(state) => state.number(),
            State::Prediction(state) => state.number(),
            State::Alarm(state) => state.number(),
        }
    }

    /// E87's word; "no state" where the carrier has no record.
    pub const fn word(self) -> &'static str {
        match self {
            State::NoRecord => "no state",
            State::Transfer(state) => state.word(),
            State::Access(state) => state.word(),
            State::Reservation(state) => state.word(),
            State::Tie(state) => state.word(),
            State::Id(state) => state.word(),
            State::Slot(state) => state.word(),
            State::Accessing(state) => state.word(),
            State::Prediction(state) => state.word(),
            State::Alarm(state) => state.word(),
        }
    }
}

impl fmt::Display for State {
    fn fmt(&self, f: &mut fmt::Formatter<'_>) -> fmt::Result {
        f.pad(self.word())
    }
}

#[cfg(test)]
mod tests {
    use super::*;
    use std::string::ToString;

    /// Numbers of one enum go both ways, and no number beside them is taken.
    macro_rules! both_ways {
        ($name:ident, $numbers:expr) => {
            let named: std::vec::Vec<u8> = $name::ALL.iter().map(|state| *state as u8).collect();
            assert_eq!(named, $numbers.collect::<std::vec::Vec<u8>>());
            for number in 0..=255 {
                let state = $name::from_number(number);
                assert_eq!(state.map(u8::from), $numbers.find(|&known| known == number));
                assert_eq!($name::try_from(number), state.ok_or(NoSuchState(number)));
            }
        };
    }

    #[test]
    fn numbers_go_both_ways() {
        both_ways!(Transfer, (0..=3));
        both_ways!(AccessMode, (0..=1));
        both_ways!(Reservation, (0..=1));
        both_ways!(Association, (0..=1));
        both_ways!(IdStatus, (1..=4));
        both_ways!(SlotStatus, (1..=4));
        both_ways!(Accessing, (1..=4));
        both_ways!(PredictionState, (1..=6));
        both_ways!(Alarm, (0..=1));
        both_ways!(Held, (0..=1));
        both_ways!(Start, (0..=1));
        both_ways!(Movement, (0..=2));
        both_ways!(Tag, (0..=2));
        both_ways!(Place, (0..=2));
        both_ways!(SlotCode, (0..=5));
        both_ways!(Service, (0..=1));
        both_ways!(End, (0..=1));
    }

    #[test]
    fn a_state_of_a_model_keeps_number_and_word() {
        for model in Model::ALL {
            for number in 0..=255 {
                let state = State::of(model, number);
                assert_eq!(state.is_some(), model.state(number) != "out of range", "{model} {number}");
                if let Some(state) = state {
                    assert_eq!((state.number(), state.to_string().as_str()), (number, model.state(number)));
                }
            }
        }
    }

    #[test]
    fn words_are_padded_as_texts_are() {
        assert_eq!(std::format!("{:>7}|{:<7}|", AccessMode::Auto, Tag::Read), "   AUTO|read   |");
        assert_eq!(NoSuchState(9).to_string(), "no state has the number 9");
    }
}
