//! P3: SECS-II from the host bridge.
//!
//! The text of an S3F17 is read in two passes. The walk lists the items in the order they begin,
//! with a stack of how many elements each open list still has; the shape is then judged on that
//! list. What comes out is an input of row 1, 3, 5 or 6, or the number of a refusal.

#[cfg(feature = "std")]
mod dump;
mod format;
mod shape;
mod value;
mod walk;

#[cfg(feature = "std")]
pub use dump::dump;
pub use format::{code, element_size, format_name, FORMATS};
pub use shape::Order;
pub use value::{Attribute, Value};
pub use walk::{Item, MAX_DEPTH, MAX_ITEMS};

use super::{step, Tool};
use crate::state::Reports;
use walk::{walk, Walk};

/// Why a message gives no input.
#[derive(Clone, Copy, PartialEq, Eq, Debug)]
#[repr(u32)]
pub enum Refused {
    CutShort = 20,
    UnknownCode = 21,
    BadLength = 22,
    TooDeep = 23,
    TooMany = 24,
    LeftOver = 25,
    /// Another shape or action.
    Shape = 26,
}

/// A message with what was read of it.
pub struct Reading<'a> {
    message: &'a [u8],
    walk: Walk,
    /// The input that it asks for.
    pub order: Result<Order<'a>, Refused>,
}

/// Reads the text of an S3F17.
pub fn read(message: &[u8]) -> Reading<'_> {
    let walk = walk(message);
    let order = if let Some(refused) = walk.refused {
        Err(refused)
    } else if walk.end < message.len() {
        Err(Refused::LeftOver)
    } else {
        shape::order(message, walk.items()).ok_or(Refused::Shape)
    };
    Reading { message, walk, order }
}

impl<'a> Reading<'a> {
    /// 0, or 20 to 26.
    pub fn refusal(&self) -> u32 {
        self.order.as_ref().err().map_or(0, |&refused| refused as u32)
    }

    /// The items begun that met none of 20 to 24, in the order they begin.
    pub fn items(&self) -> &[Item] {
        self.walk.items()
    }

    /// The attributes as they were sent; none where the message is refused.
    pub fn attributes(&self) -> impl Iterator<Item = Attribute<'a>> + '_ {
        let items = if self.order.is_ok() { self.items() } else { &[] };
        shape::attributes(self.message, items)
    }
}

/// What a message gives.
#[derive(Clone, Copy, PartialEq, Eq, Debug)]
pub struct SecsAnswer {
    /// 0, or 20 to 26: then the tool got no input.
    pub refusal: u32,
    /// How many items were begun and met none of 20 to 24.
    pub items: u32,
    /// The tool's answer to the input.
    pub answer: Option<u32>,
}

/// Reads a message and gives the tool the input that it asks for. A message that is refused leaves
/// the tool as it was, with no report.
pub fn secs_step(t: &mut Tool, message: &[u8], out: &mut Reports) -> SecsAnswer {
    *out = Reports::NONE;
    let reading = read(message);
    let answer = reading.order.as_ref().ok().map(|o| step(t, o.number, o.port, 0, o.name, o.codes(), out));
    SecsAnswer { refusal: reading.refusal(), items: reading.items().len() as u32, answer }
}
