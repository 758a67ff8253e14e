//! The slot map that the host expects of a carrier.
use crate::tool::SLOTS;
use crate::words::slot_code;
use core::fmt;

const EMPTY: u8 = 1;
const CORRECTLY_OCCUPIED: u8 = 3;

/// The slot map that the host expects of a carrier: 25 codes, each 1 (EMPTY) or 3 (CORRECTLY OCCUPIED).
///
/// It goes with Bind or CarrierNotification. A SlotMap that equals it at all 25 slots makes the slot map status OK at
/// once; with any other, the host is asked.
///
/// ```
/// use hawsermole::{ExpectedMap, Input, Tool};
///
/// let codes = [3; 25];
/// let map = ExpectedMap::new(&codes)?;
/// let mut tool = Tool::setup(1, 0)?;
/// for input in [
///     Input::BindWithMap { port: 1, name: b"AB", map },
///     Input::LoadStart { port: 1, start: 0 },
///     Input::LoadDone { port: 1 },
///     Input::IdRead { port: 1, name: b"AB" },
///     Input::Open { name: b"AB" },
/// ] {
///     tool.step(&input)?;
/// }
/// assert_eq!(tool.expected_map(b"AB"), Some(&codes));
///
/// // One slot differs: the host is asked.
/// let mut read = codes;
/// read[24] = 1;
/// let reports = tool.clone().step(&Input::SlotMap { name: b"AB", codes: &read })?;
/// assert_eq!(reports.to_string(), "6 AB 1>2");
///
/// // All 25 are equal: no need to ask.
/// let reports = tool.step(&Input::SlotMap { name: b"AB", codes: &codes })?;
/// assert_eq!(reports.to_string(), "6 AB 1>3");
/// # Ok::<(), Box<dyn std::error::Error>>(())
/// ```
#[derive(Clone, Copy, Debug, PartialEq, Eq, Hash)]
pub struct ExpectedMap<'a> {
    codes: &'a [u8; SLOTS],
}

impl<'a> ExpectedMap<'a> {
    /// The map of these codes, slot 1 first.
    ///
    /// ```
    /// use hawsermole::{ExpectedMap, MapError};
    ///
    /// assert_eq!(ExpectedMap::new(&[1; 25])?.codes(), &[1; 25]);
    /// assert_eq!(ExpectedMap::new(&[1; 24]), Err(MapError::Length(24)));
    /// assert_eq!(ExpectedMap::new(&[4; 25]), Err(MapError::Code { slot: 1, code: 4 }));
    /// # Ok::<(), MapError>(())
    /// ```
    pub fn new(codes: &'a [u8]) -> Result<ExpectedMap<'a>, MapError> {
        let codes: &[u8; SLOTS] = codes.try_into().map_err(|_| MapError::Length(codes.len()))?;
        match codes.iter().position(|code| ![EMPTY, CORRECTLY_OCCUPIED].contains(code)) {
            Some(place) => Err(MapError::Code { slot: place + 1, code: codes[place] }),
            None => Ok(ExpectedMap { codes }),
        }
    }

    /// Its 25 codes.
    pub const fn codes(&self) -> &'a [u8; SLOTS] {
        self.codes
    }
}

/// Why codes are no [`ExpectedMap`]. The machine refuses them with [`Refusal::OutOfRange`](crate::Refusal::OutOfRange).
#[derive(Clone, Copy, Debug, PartialEq, Eq, Hash)]
pub enum MapError {
    /// There are so many codes, and not 25.
    Length(usize),
    /// A slot, the first is 1, has another code than 1 and 3.
    Code {
        /// 1 to 25.
        slot: usize,
        /// The code that it has.
        code: u8,
    },
}

impl fmt::Display for MapError {
    fn fmt(&self, f: &mut fmt::Formatter<'_>) -> fmt::Result {
        match self {
            MapError::Length(length) => write!(f, "an expected map has {SLOTS} codes, not {length}"),
            MapError::Code { slot, code } => {
                let [empty, occupied] = [EMPTY, CORRECTLY_OCCUPIED].map(slot_code);
                write!(
                    f,
                    "an expected map has the codes {EMPTY} ({empty}) and {CORRECTLY_OCCUPIED} ({occupied})"
                )?;
                write!(f, " alone, not {code} as at slot {slot}")
            }
        }
    }
}

impl core::error::Error for MapError {}

#[cfg(test)]
mod tests {
    use super::*;
    use std::string::ToString;

    #[test]
    fn maps_hold_the_two_codes_alone() {
        for slot in 1..=SLOTS {
            for code in 0..=255 {
                let mut codes = [EMPTY; SLOTS];
                codes[slot - 1] = code;
                let expected = match code {
                    1 | 3 => Ok(codes),
                    _ => Err(MapError::Code { slot, code }),
                };
                assert_eq!(ExpectedMap::new(&codes).map(|map| *map.codes()), expected);
            }
        }
    }

    #[test]
    fn maps_have_25_codes() {
        for length in (0..=300).filter(|&length| length != SLOTS) {
            assert_eq!(ExpectedMap::new(&[3; 300][..length]), Err(MapError::Length(length)));
        }
    }

    #[test]
    fn errors_say_what_a_map_has() {
        assert_eq!(MapError::Length(24).to_string(), "an expected map has 25 codes, not 24");
        let words =
            "an expected map has the codes 1 (EMPTY) and 3 (CORRECTLY OCCUPIED) alone, not 5 as at slot 7";
        assert_eq!(MapError::Code { slot: 7, code: 5 }.to_string(), words);
    }
}
