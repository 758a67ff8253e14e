//! P4: names padded with blanks.
//!
//! Blanks at the end of a name are dropped, and the row gets what is left. The rows of document 01
//! look at it once more; that costs little, and so they stay as they are.

use super::Given;
use crate::rows::{Refusal, Result};
use crate::state::NAME_LEN;

const BLANK: u8 = 0x20;

/// The most bytes that a name may come with, blanks included.
pub const PADDED_LEN: usize = 32;

/// Why a text has no name in it: the first of these that holds.
#[derive(Clone, Copy, PartialEq, Eq, Debug)]
pub enum NoName {
    /// More than 32 bytes, whatever they are.
    TooLong,
    BlankElsewhere,
    NothingLeft,
    /// More than 16 bytes are left.
    TooMuchLeft,
    /// A byte that is left isn't 0x21 to 0x7E.
    OtherByte,
}

/// The name in a text: the text without the blanks at its end.
#[inline]
pub fn read(text: &[u8]) -> core::result::Result<&[u8], NoName> {
    let length = text.iter().rposition(|&byte| byte != BLANK).map_or(0, |last| last + 1);
    let name = &text[..length];
    if text.len() > PADDED_LEN {
        Err(NoName::TooLong)
    } else if name.contains(&BLANK) {
        Err(NoName::BlankElsewhere)
    } else if name.is_empty() {
        Err(NoName::NothingLeft)
    } else if name.len() > NAME_LEN {
        Err(NoName::TooMuchLeft)
    } else if name.iter().any(|byte| !(0x21..=0x7E).contains(byte)) {
        Err(NoName::OtherByte)
    } else {
        Ok(name)
    }
}

/// The name in a text, if there is one.
#[inline]
pub fn name_of(text: &[u8]) -> Option<&[u8]> {
    read(text).ok()
}

/// The rows that take a name.
#[inline]
pub const fn takes_name(number: u32) -> bool {
    matches!(number, 1..=8 | 16 | 19..=23 | 29 | 32..=35)
}

const CANCEL_BIND: u32 = 2;

/// The name that the row gets. Where one may be missing, only a length of zero is missing; a row
/// that takes no name doesn't look at what stands there.
#[inline]
pub(super) fn given<'a>(given: &Given<'a>) -> Result<&'a [u8]> {
    let missing = given.number == CANCEL_BIND && given.name.is_empty();
    if missing || !takes_name(given.number) {
        return Ok(given.name);
    }
    name_of(given.name).ok_or(Refusal::Range)
}
