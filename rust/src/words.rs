//! E87's words for document 01's numbers, in one place for everybody who prints them.
//!
//! Where document 01 has no word for a number (only a tool that isn't sound holds such a number),
//! the word is `out of range`. [`states`](crate::states) has the same words as enums.
use crate::states::*;
use crate::Model;

const OUT: &str = "out of range";

/// A state model by name.
pub const fn model(model: Model) -> &'static str {
    match model {
        Model::Transfer => "transfer state",
        Model::Access => "access mode",
        Model::Reservation => "reservation state",
        Model::Tie => "association state",
        Model::Id => "ID status",
        Model::Slot => "slot map status",
        Model::Accessing => "accessing status",
        Model::Prediction => "ready to unload prediction status",
        Model::Alarm => "AccessModeViolation alarm",
    }
}

/// A port's transfer state, model 1.
pub fn transfer(number: u8) -> &'static str {
    Transfer::from_number(number).map_or(OUT, Transfer::word)
}

/// A port's access mode, model 2.
pub fn access(number: u8) -> &'static str {
    AccessMode::from_number(number).map_or(OUT, AccessMode::word)
}

/// A port's reservation, model 3.
pub fn reservation(number: u8) -> &'static str {
    Reservation::from_number(number).map_or(OUT, Reservation::word)
}

/// A port's tie, model 4.
pub fn tie(number: u8) -> &'static str {
    Association::from_number(number).map_or(OUT, Association::word)
}

/// A carrier's ID status, model 5.
pub fn id(number: u8) -> &'static str {
    State::of(Model::Id, number).map_or(OUT, State::word)
}

/// A carrier's slot map status, model 6.
pub fn slot(number: u8) -> &'static str {
    State::of(Model::Slot, number).map_or(OUT, State::word)
}

/// A carrier's accessing status, model 7.
pub fn accessing(number: u8) -> &'static str {
    State::of(Model::Accessing, number).map_or(OUT, State::word)
}

/// A carrier's prediction of ready to unload, model 8.
pub fn prediction(number: u8) -> &'static str {
    State::of(Model::Prediction, number).map_or(OUT, State::word)
}

/// A port's AccessModeViolation alarm, model 9.
pub fn alarm(number: u8) -> &'static str {
    Alarm::from_number(number).map_or(OUT, Alarm::word)
}

/// Whether a pod is held at a port.
pub fn held(number: u8) -> &'static str {
    Held::from_number(number).map_or(OUT, Held::word)
}

/// Who starts to load or unload.
pub fn start(number: u8) -> &'static str {
    Start::from_number(number).map_or(OUT, Start::word)
}

/// A port's movement.
pub fn movement(number: u8) -> &'static str {
    Movement::from_number(number).map_or(OUT, Movement::word)
}

/// A port's tag: what became of reading the pod's ID.
pub fn tag(number: u8) -> &'static str {
    Tag::from_number(number).map_or(OUT, Tag::word)
}

/// A carrier's place.
pub fn place(number: u8) -> &'static str {
    Place::from_number(number).map_or(OUT, Place::word)
}

/// A request of CarrierOut.
pub fn request(started: u8) -> &'static str {
    RequestState::from_number(started).map_or(OUT, RequestState::word)
}

/// A code of a slot map.
///
/// ```
/// assert_eq!(hawsermole::words::slot_code(3), "CORRECTLY OCCUPIED");
/// assert_eq!(hawsermole::words::slot_code(6), "out of range");
/// ```
pub fn slot_code(number: u8) -> &'static str {
    SlotCode::from_number(number).map_or(OUT, SlotCode::word)
}

#[cfg(test)]
mod tests {
    use super::*;

    type Table = fn(u8) -> &'static str;

    /// Each table with the last number that has a word.
    #[test]
    fn every_number_of_the_documents_has_a_word() {
        let tables: [(Table, u8); 16] = [
            (transfer, 3),
            (access, 1),
            (reservation, 1),
            (tie, 1),
            (id, 4),
            (slot, 4),
            (accessing, 4),
            (prediction, 6),
            (alarm, 1),
            (held, 1),
            (start, 1),
            (movement, 2),
            (tag, 2),
            (place, 2),
            (request, 1),
            (slot_code, 5),
        ];
        for (table, last) in tables {
            assert!((0..=last).all(|number| table(number) != OUT));
            assert_eq!((table(last + 1), table(255)), (OUT, OUT));
        }
    }

    #[test]
    fn numbers_meet_their_words() {
        assert_eq!((transfer(0), transfer(3)), ("OUT OF SERVICE", "TRANSFER BLOCKED"));
        assert_eq!((transfer(1), transfer(2)), ("READY TO LOAD", "READY TO UNLOAD"));
        assert_eq!((access(0), access(1)), ("MANUAL", "AUTO"));
        assert_eq!((id(1), id(2)), ("ID NOT READ", "ID WAITING FOR HOST"));
        assert_eq!((slot(3), slot(4)), ("SLOT MAP VERIFICATION OK", "SLOT MAP VERIFICATION FAILED"));
        assert_eq!((accessing(2), accessing(4)), ("IN ACCESS", "CARRIER STOPPED"));
        assert_eq!((prediction(2), prediction(6)), ("WAITING FOR CARRIER", "PREDICTION COMPLETED"));
        assert_eq!((alarm(0), alarm(1), held(0), held(1)), ("off", "on", "not held", "held"));
        assert_eq!((start(0), start(1)), ("manual", "automatic"));
    }
}
