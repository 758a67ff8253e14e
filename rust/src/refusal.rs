//! Why an input is refused.
use core::fmt;

/// Why an input was refused: document 01's eight reasons, the two of request P5 and one each of requests P7, P8 and P9,
/// of which the lowest that applies is given; or why a message was, by request P3: the first that its reading meets,
/// and the lowest at one item; or that a reply had no room, by request P13.
///
/// ```
/// use hawsermole::{Input, Refusal, Tool};
///
/// let mut tool = Tool::setup(1, 0).unwrap();
/// let refusal = tool.step(&Input::Open { name: b"AB" }).unwrap_err();
/// assert_eq!(refusal, Refusal::NoRecord);
/// assert_eq!(refusal.number(), 2);
/// assert_eq!(refusal.to_string(), "the name has no record");
/// ```
#[derive(Clone, Copy, Debug, PartialEq, Eq, PartialOrd, Ord, Hash)]
#[repr(u8)]
pub enum Refusal {
    /// 1: a port, place, value or name is outside its range, the input number isn't 1 to 36, or the state isn't sound;
    /// also codes that are no slot map, or no [`ExpectedMap`](crate::ExpectedMap) in rows 1 and 3, a text in which
    /// there is no [`Name`](crate::Name::in_text), and more than [`WAFERS`](crate::WAFERS).
    OutOfRange = 1,
    /// 2: the name has no record, where the row says so.
    NoRecord = 2,
    /// 3: the name is taken.
    NameTaken = 3,
    /// 4: the port is reserved or tied, where the row says so; in rows 12 and 13 also that a CarrierOut is started to
    /// it.
    ReservedOrTied = 4,
    /// 5: the row's conditions on state don't hold.
    Conditions = 5,
    /// 6: 16 carriers are expected already.
    ExpectedFull = 6,
    /// 7: not verified.
    NotVerified = 7,
    /// 8: the buffer place is taken, or the opener is in use.
    PlaceOrOpenerTaken = 8,
    /// 9: 16 requests of CarrierOut are queued already, this carrier's among them: a buffer holds no more than 16.
    QueueFull = 9,
    /// 10: the carrier's CarrierOut is queued already, to whatever port, started or not.
    QueuedAlready = 10,
    /// 11: the clock is earlier than the last that was accepted.
    ClockEarlier = 11,
    /// 12: a time of a [`Wafer`](crate::Wafer) isn't one that it may be, or the predicted time is past the last second
    /// that a clock has, 4,294,967,295.
    TimeOutOfRange = 12,
    /// 13: an automatic [`Start`](crate::states::Start) at a port whose access mode is MANUAL.
    AutomaticInManual = 13,
    /// 14: the reply is longer than the room lent for it. Nothing was written, and the tool got no input.
    RoomTooSmall = 14,
    /// 20: the message ends inside an item, or before one that a list counts.
    CutShort = 20,
    /// 21: a format code that isn't one of the fourteen; JIS-8 too.
    UnknownCode = 21,
    /// 22: no length byte, or a length no multiple of the element size.
    BadLength = 22,
    /// 23: a list inside a list at depth six, even an empty one.
    TooDeep = 23,
    /// 24: an item after the first 128.
    TooManyItems = 24,
    /// 25: the item ends before the message does.
    BytesLeftOver = 25,
    /// 26: another shape, or an action that isn't one of the four.
    ShapeOrAction = 26,
}

impl Refusal {
    /// All twenty-one, by number.
    pub const ALL: [Refusal; 21] = [
        Refusal::OutOfRange,
        Refusal::NoRecord,
        Refusal::NameTaken,
        Refusal::ReservedOrTied,
        Refusal::Conditions,
        Refusal::ExpectedFull,
        Refusal::NotVerified,
        Refusal::PlaceOrOpenerTaken,
        Refusal::QueueFull,
        Refusal::QueuedAlready,
        Refusal::ClockEarlier,
        Refusal::TimeOutOfRange,
        Refusal::AutomaticInManual,
        Refusal::RoomTooSmall,
        Refusal::CutShort,
        Refusal::UnknownCode,
        Refusal::BadLength,
        Refusal::TooDeep,
        Refusal::TooManyItems,
        Refusal::BytesLeftOver,
        Refusal::ShapeOrAction,
    ];

    /// The documents' number: 1 to 13, 14 for a reply, and 20 to 26 for a message.
    pub const fn number(self) -> u8 {
        self as u8
    }

    /// Whether a message was refused as it was read, so that the tool got no input: 20 to 26.
    ///
    /// ```
    /// use hawsermole::Refusal;
    ///
    /// assert!(Refusal::CutShort.is_of_message() && !Refusal::NoRecord.is_of_message());
    /// ```
    pub const fn is_of_message(self) -> bool {
        self.number() >= Refusal::CutShort.number()
    }

    /// The refusal of a number; none for 0 (accepted) and for numbers that no refusal has.
    ///
    /// ```
    /// use hawsermole::Refusal;
    ///
    /// assert_eq!(Refusal::from_number(7), Some(Refusal::NotVerified));
    /// assert_eq!(Refusal::from_number(0), None);
    /// assert_eq!(Refusal::from_number(15), None);
    /// assert_eq!(Refusal::from_number(26), Some(Refusal::ShapeOrAction));
    /// ```
    pub fn from_number(number: u32) -> Option<Refusal> {
        Refusal::ALL.into_iter().find(|refusal| u32::from(refusal.number()) == number)
    }

    /// The reason in the documents' words.
    pub const fn text(self) -> &'static str {
        match self {
            Refusal::OutOfRange => {
                "a port, place, value or name is outside its range, the input number isn't 1 to 36, \
                 or the state isn't sound"
            }
            Refusal::NoRecord => "the name has no record",
            Refusal::NameTaken => "the name is taken",
            Refusal::ReservedOrTied => "the port is reserved or tied",
            Refusal::Conditions => "the row's conditions on state don't hold",
            Refusal::ExpectedFull => "16 carriers are expected already",
            Refusal::NotVerified => "not verified",
            Refusal::PlaceOrOpenerTaken => "the buffer place is taken, or the opener is in use",
            Refusal::QueueFull => "the queue for CarrierOut is full",
            Refusal::QueuedAlready => "CarrierOut is queued already",
            Refusal::ClockEarlier => "the clock is earlier than the last accepted",
            Refusal::TimeOutOfRange => "a wafer's time or the predicted time is out of range",
            Refusal::AutomaticInManual => "an automatic start in MANUAL",
            Refusal::RoomTooSmall => "the room lent is too small",
            Refusal::CutShort => "the message is cut short",
            Refusal::UnknownCode => "unknown format code",
            Refusal::BadLength => "no length byte, or a length no multiple of the element size",
            Refusal::TooDeep => "lists too deep",
            Refusal::TooManyItems => "too many items",
            Refusal::BytesLeftOver => "bytes left over",
            Refusal::ShapeOrAction => "another shape or action",
        }
    }
}

impl fmt::Display for Refusal {
    fn fmt(&self, f: &mut fmt::Formatter<'_>) -> fmt::Result {
        f.pad(self.text())
    }
}

impl core::error::Error for Refusal {}

/// The proved functions answer 0, or the number of a refusal, and nothing else.
pub(crate) fn refused(answer: u32) -> Result<(), Refusal> {
    match answer {
        0 => Ok(()),
        _ => Err(Refusal::from_number(answer).expect("every answer but 0 is a refusal's number")),
    }
}

#[cfg(test)]
mod tests {
    use super::*;
    use std::string::ToString;

    #[test]
    fn numbers_go_both_ways() {
        for (number, refusal) in (1..=14).chain(20..=26).zip(Refusal::ALL) {
            assert_eq!(refusal.number(), number);
            assert_eq!(refusal.is_of_message(), number > 14);
            assert_eq!(Refusal::from_number(u32::from(refusal.number())), Some(refusal));
        }
        for odd in [0, 15, 19, 27, 255, 256, 257, 276, u32::MAX] {
            assert_eq!(Refusal::from_number(odd), None);
        }
    }

    #[test]
    fn reasons_are_the_documents_words() {
        assert_eq!(Refusal::NotVerified.to_string(), "not verified");
        assert_eq!(Refusal::ExpectedFull.to_string(), "16 carriers are expected already");
        assert_eq!(Refusal::QueueFull.to_string(), "the queue for CarrierOut is full");
        assert_eq!(Refusal::ClockEarlier.to_string(), "the clock is earlier than the last accepted");
        assert!(Refusal::TimeOutOfRange.to_string().ends_with("or the predicted time is out of range"));
        assert_eq!(Refusal::AutomaticInManual.to_string(), "an automatic start in MANUAL");
        assert_eq!(Refusal::BytesLeftOver.to_string(), "bytes left over");
        assert_eq!(Refusal::RoomTooSmall.to_string(), "the room lent is too small");
        assert!(Refusal::OutOfRange.to_string().ends_with("or the state isn't sound"));
    }
}
