//! Carrier names, as the tool holds them and as they are sent.
use crate::raw;
use core::fmt;

/// The most bytes that a carrier's name has.
pub const NAME_BYTES: usize = 16;
/// The most bytes that a name has as it is sent, with the blanks at its end.
pub const TEXT_BYTES: usize = 32;

const BLANK: u8 = 0x20;

/// A carrier's name as a tool or a report holds it: at most 16 bytes. In a sound tool each is 0x21 to 0x7E.
/// As it is sent, with an [`Input`](crate::Input), it may have blanks (0x20) at its end: [`in_text`](Name::in_text).
///
/// ```
/// use hawsermole::{Input, Tool};
///
/// let mut tool = Tool::setup(1, 0).unwrap();
/// assert!(tool.ports().next().unwrap().tie.is_none());
/// tool.step(&Input::Bind { port: 1, name: b"FOUP-7" }).unwrap();
/// let tie = tool.ports().next().unwrap().tie;
/// assert_eq!(tie.as_bytes(), b"FOUP-7");
/// assert_eq!(tie.to_string(), "FOUP-7");
/// ```
#[derive(Clone, Copy, PartialEq, Eq, Hash)]
pub struct Name {
    bytes: [u8; NAME_BYTES],
}

impl Name {
    pub(crate) fn new(bytes: [u8; NAME_BYTES]) -> Name {
        Name { bytes }
    }

    /// The name that an input with this text has: the text without the blanks at its end. `Err` says why the text is
    /// no name; an input that takes a name refuses it with [`Refusal::OutOfRange`](crate::Refusal::OutOfRange).
    ///
    /// ```
    /// use hawsermole::{Input, Name, NameError, Tool};
    ///
    /// let name = Name::in_text(b"FOUP-7          ")?;
    /// assert_eq!(name.as_bytes(), b"FOUP-7");
    ///
    /// // A padded name and the plain one are the same input.
    /// let mut tool = Tool::setup(1, 0)?;
    /// tool.step(&Input::Bind { port: 1, name: b"FOUP-7          " })?;
    /// assert_eq!(tool.ports().next().unwrap().tie, name);
    /// assert!(tool.step(&Input::CancelBind { port: 1, name: b"FOUP-7" }).is_ok());
    ///
    /// assert_eq!(Name::in_text(b"FOUP 7"), Err(NameError::Blank { place: 5 }));
    /// assert_eq!(Name::in_text(b"    "), Err(NameError::Nothing));
    /// # Ok::<(), Box<dyn std::error::Error>>(())
    /// ```
    pub fn in_text(text: &[u8]) -> Result<Name, NameError> {
        let name = &text[..raw::name_length(text)];
        if name.is_empty() {
            return Err(NameError::of(text).expect("a text is refused for one of five reasons"));
        }
        let mut bytes = [0; NAME_BYTES];
        bytes[..name.len()].copy_from_slice(name);
        Ok(Name { bytes })
    }

    /// The name's bytes, without the zeros that fill it up; empty for "no name".
    pub fn as_bytes(&self) -> &[u8] {
        let length = self.bytes.iter().rposition(|&byte| byte != 0).map_or(0, |last| last + 1);
        &self.bytes[..length]
    }

    /// Whether this is "no name".
    pub fn is_none(&self) -> bool {
        self.as_bytes().is_empty()
    }
}

/// The name as text; a byte that no name of a sound tool has is written `\xNN`.
impl fmt::Display for Name {
    fn fmt(&self, f: &mut fmt::Formatter<'_>) -> fmt::Result {
        write_text(self.as_bytes(), f)
    }
}

/// Any bytes as text: those that a name may have as they are, the others `\xNN`.
pub(crate) fn write_text(bytes: &[u8], f: &mut fmt::Formatter<'_>) -> fmt::Result {
    for &byte in bytes {
        match byte {
            0x21..=0x7E => write!(f, "{}", char::from(byte))?,
            _ => write!(f, "\\x{byte:02x}")?,
        }
    }
    Ok(())
}

impl fmt::Debug for Name {
    fn fmt(&self, f: &mut fmt::Formatter<'_>) -> fmt::Result {
        write!(f, "Name(\"{self}\")")
    }
}

/// Why a text is no name: the first of request P4's reasons that applies. Places are counted from 1.
#[derive(Clone, Copy, Debug, PartialEq, Eq, Hash)]
pub enum NameError {
    /// The text has so many bytes, more than 32.
    TextLength(usize),
    /// A blank stands elsewhere than at the end.
    Blank {
        /// Of the first blank.
        place: usize,
    },
    /// Nothing is left without the blanks at the end.
    Nothing,
    /// So many bytes are left without the blanks at the end, more than 16.
    Length(usize),
    /// A byte that no name has: outside 0x21 to 0x7E.
    Byte {
        /// Of the first such byte.
        place: usize,
        /// That byte.
        byte: u8,
    },
}

impl NameError {
    /// None for a text that is a name.
    fn of(text: &[u8]) -> Option<NameError> {
        let left = text.iter().rposition(|&byte| byte != BLANK).map_or(0, |last| last + 1);
        let first = |wanted: fn(&u8) -> bool| text[..left].iter().position(wanted).map(|place| place + 1);
        let too_long = (text.len() > TEXT_BYTES).then_some(NameError::TextLength(text.len()));
        let blank = first(|&byte| byte == BLANK).map(|place| NameError::Blank { place });
        let other = first(|byte| !(0x21..=0x7E).contains(byte));
        too_long
            .or(blank)
            .or((left == 0).then_some(NameError::Nothing))
            .or((left > NAME_BYTES).then_some(NameError::Length(left)))
            .or(other.map(|place| NameError::Byte { place, byte: text[place - 1] }))
    }
}

impl fmt::Display for NameError {
    fn fmt(&self, f: &mut fmt::Formatter<'_>) -> fmt::Result {
        match self {
            NameError::TextLength(length) => write!(f, "the text has {length} bytes, more than 32"),
            NameError::Blank { place } => {
                write!(f, "the text has a blank elsewhere than at the end, as byte {place}")
            }
            NameError::Nothing => write!(f, "nothing is left without the blanks at the end"),
            NameError::Length(left) => {
                write!(f, "{left} bytes are left without the blanks at the end, more than 16")
            }
            NameError::Byte { place, byte } => {
                write!(f, "the text has a byte that no name has, 0x{byte:02x} as byte {place}")
            }
        }
    }
}

impl core::error::Error for NameError {}

#[cfg(test)]
mod tests {
    use super::*;
    use std::format;
    use std::string::ToString;
    use std::vec::Vec;

    fn name(text: &[u8]) -> Name {
        let mut bytes = [0; NAME_BYTES];
        bytes[..text.len()].copy_from_slice(text);
        Name::new(bytes)
    }

    #[test]
    fn names_end_before_their_trailing_zeros() {
        assert_eq!(name(b"").as_bytes(), b"");
        assert_eq!(name(b"A").as_bytes(), b"A");
        assert_eq!(name(b"0123456789abcdef").as_bytes(), b"0123456789abcdef");
        assert_eq!(name(b"A\0B").as_bytes(), b"A\0B");
    }

    #[test]
    fn no_name_is_all_zeros() {
        assert!(name(b"").is_none());
        assert!(!name(b"A").is_none());
    }

    #[test]
    fn names_print_as_text() {
        assert_eq!(format!("{}", name(b"AB-7")), "AB-7");
        assert_eq!(format!("{}", name(b"a'\"\\~!")), "a'\"\\~!");
        assert_eq!(format!("{}", name(b"A\x01\xff")), "A\\x01\\xff");
        assert_eq!(format!("{:?}", name(b"AB")), "Name(\"AB\")");
    }
    /// Letters, then blanks.
    fn padded(letters: usize, blanks: usize) -> Vec<u8> {
        [&b"A".repeat(letters)[..], &b" ".repeat(blanks)].concat()
    }

    #[test]
    fn blanks_at_the_end_are_no_part_of_a_name() {
        for letters in 1..=NAME_BYTES {
            for blanks in 0..=TEXT_BYTES - letters {
                let text = padded(letters, blanks);
                assert_eq!(Name::in_text(&text).unwrap().as_bytes(), &text[..letters]);
            }
        }
    }

    #[test]
    fn texts_that_are_no_name_say_why() {
        let why = |text: &[u8]| Name::in_text(text).unwrap_err();
        assert_eq!(why(&padded(1, 32)), NameError::TextLength(33));
        assert_eq!(why(b"A B  "), NameError::Blank { place: 2 });
        assert_eq!(why(b" A"), NameError::Blank { place: 1 });
        assert_eq!((why(b""), why(&padded(0, 32))), (NameError::Nothing, NameError::Nothing));
        assert_eq!(why(&padded(17, 15)), NameError::Length(17));
        assert_eq!(why(b"AB\0\0"), NameError::Byte { place: 3, byte: 0 });
        assert_eq!(why(b"A\x7f "), NameError::Byte { place: 2, byte: 0x7f });
    }

    /// Several may apply: the first of them in the rule's order is said.
    #[test]
    fn reasons_come_in_the_rules_order() {
        let why = |text: &[u8]| Name::in_text(text).unwrap_err();
        assert_eq!(why(&b" \0".repeat(17)), NameError::TextLength(34));
        assert_eq!(why(&b"\0 \0".repeat(6)), NameError::Blank { place: 2 });
        assert_eq!(why(&[0; 17]), NameError::Length(17));
    }

    /// A text with some byte at each place.
    fn changed(text: Vec<u8>) -> impl Iterator<Item = Vec<u8>> {
        let bytes = [0, 0x1f, 0x20, 0x21, 0x7e, 0x7f, 0xff];
        (0..text.len()).flat_map(move |place| bytes.map(|byte| (place, byte))).map(move |(place, byte)| {
            let mut text = text.clone();
            text[place] = byte;
            text
        })
    }

    /// Two writings of one rule: the proved one and the one that finds words for it.
    #[test]
    fn reasons_are_found_exactly_where_the_archive_refuses() {
        let mut met = [0, 0];
        for letters in [0, 1, 2, 15, 16, 17, 32] {
            for text in [0, 1, 15, 16, 31].into_iter().flat_map(|blanks| changed(padded(letters, blanks))) {
                let refused = raw::name_length(&text) == 0;
                assert_eq!(NameError::of(&text).is_some(), refused, "{text:?}");
                met[usize::from(refused)] += 1;
            }
        }
        assert!(met[0] > 100 && met[1] > 100, "{met:?}");
    }

    #[test]
    fn reasons_in_words() {
        let text = |text: &[u8]| Name::in_text(text).unwrap_err().to_string();
        assert_eq!(text(&padded(1, 40)), "the text has 41 bytes, more than 32");
        assert_eq!(text(b"A B"), "the text has a blank elsewhere than at the end, as byte 2");
        assert_eq!(text(b" "), "nothing is left without the blanks at the end");
        assert_eq!(text(&padded(20, 1)), "20 bytes are left without the blanks at the end, more than 16");
        assert_eq!(text(b"A\x7f"), "the text has a byte that no name has, 0x7f as byte 2");
    }
}
