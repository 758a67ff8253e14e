//! The items of a message, in the order they begin.

use core::ops::Range;

use super::{code, element_size, Refused};

/// The most items of a message.
pub const MAX_ITEMS: usize = 128;

/// The most lists within each other.
pub const MAX_DEPTH: usize = 6;

/// An item, by where it stands in its message. At most 128 items of at most 16 MB each come before
/// it, so that its place fits.
#[derive(Clone, Copy, PartialEq, Eq, Debug)]
pub struct Item {
    /// Where its format byte stands.
    pub at: u32,
    pub code: u8,
    /// How many length bytes it has.
    pub length_bytes: u8,
    /// One more than the lists around it.
    pub depth: u8,
    /// The elements of a list; of another item the bytes of data.
    pub length: u32,
}

impl Item {
    const UNUSED: Item = Item { at: 0, code: 0, length_bytes: 0, depth: 0, length: 0 };

    #[inline]
    pub fn is_list(&self) -> bool {
        self.code == code::LIST
    }

    /// Where its data stand; a list has none of its own.
    #[inline]
    pub fn data(&self) -> Range<usize> {
        let start = self.at as usize + 1 + self.length_bytes as usize;
        let bytes = if self.is_list() { 0 } else { self.length as usize };
        start..start + bytes
    }
}

/// How far a message could be walked.
pub struct Walk {
    item: [Item; MAX_ITEMS],
    count: usize,
    /// Where the item would begin that comes next.
    pub end: usize,
    pub refused: Option<Refused>,
}

impl Walk {
    #[inline]
    pub fn items(&self) -> &[Item] {
        &self.item[..self.count]
    }
}

/// The open lists, by how many elements each still has. The message itself is the first: a list of
/// one item that has no bytes of its own.
struct Open {
    left: [u32; MAX_DEPTH + 1],
    count: usize,
}

impl Open {
    const MESSAGE: Open = Open { left: [1, 0, 0, 0, 0, 0, 0], count: 1 };

    /// The depth of the item that comes next; nothing where none is due.
    #[inline]
    fn next(&mut self) -> Option<u8> {
        while self.count > 0 && self.left[self.count - 1] == 0 {
            self.count -= 1;
        }
        *self.left[..self.count].last_mut()? -= 1;
        Some(self.count as u8)
    }

    #[inline]
    fn list(&mut self, elements: u32) {
        self.left[self.count] = elements;
        self.count += 1;
    }
}

/// Walks over the items until none is due or one is refused.
pub fn walk(message: &[u8]) -> Walk {
    let mut walk = Walk { item: [Item::UNUSED; MAX_ITEMS], count: 0, end: 0, refused: None };
    let mut open = Open::MESSAGE;
    while let Some(depth) = open.next() {
        match begin(message, walk.end, depth, walk.count) {
            Err(refused) => {
                walk.refused = Some(refused);
                break;
            }
            Ok(item) => {
                walk.item[walk.count] = item;
                walk.count += 1;
                walk.end = item.data().end;
                if item.is_list() {
                    open.list(item.length);
                }
            }
        }
    }
    walk
}

/// The item that begins at a place, `begun` items after the first; or the lowest refusal that holds
/// for it. Its layout doesn't depend on whether its code is known.
#[inline]
fn begin(message: &[u8], at: usize, depth: u8, begun: usize) -> Result<Item, Refused> {
    let rest = &message[at..];
    let (format, rest) = rest.split_first().ok_or(Refused::CutShort)?;
    let (code, length_bytes) = (format >> 2, format & 3);
    let (high_first, rest) = rest.split_at_checked(length_bytes as usize).ok_or(Refused::CutShort)?;
    let length = high_first.iter().fold(0, |length: u32, &byte| length << 8 | byte as u32);
    let item = Item { at: at as u32, code, length_bytes, depth, length };
    if item.data().len() > rest.len() {
        return Err(Refused::CutShort);
    }
    let size = element_size(code).ok_or(Refused::UnknownCode)?;
    if length_bytes == 0 || !length.is_multiple_of(size) {
        return Err(Refused::BadLength);
    }
    if item.is_list() && depth as usize > MAX_DEPTH {
        return Err(Refused::TooDeep);
    }
    if begun == MAX_ITEMS {
        return Err(Refused::TooMany);
    }
    Ok(item)
}
