//! The items of a message as they lie in it, for people to read. How many there are and where reading stopped is the
//! archive's to say; nothing is judged here.
use crate::values::cut;
use std::fmt;

pub const LIST: u8 = 0o00;
const BINARY: u8 = 0o10;
const BOOLEAN: u8 = 0o11;
pub const ASCII: u8 = 0o20;
const F8: u8 = 0o40;
const F4: u8 = 0o44;
pub const U1: u8 = 0o51;

/// The formats that are read: code, SEMI E5's mnemonic, bytes of one element.
const FORMATS: [(u8, &str, usize); 14] = [
    (LIST, "L", 1),
    (BINARY, "B", 1),
    (BOOLEAN, "BOOLEAN", 1),
    (ASCII, "A", 1),
    (0o30, "I8", 8),
    (0o31, "I1", 1),
    (0o32, "I2", 2),
    (0o34, "I4", 4),
    (F8, "F8", 8),
    (F4, "F4", 4),
    (0o50, "U8", 8),
    (U1, "U1", 1),
    (0o52, "U2", 2),
    (0o54, "U4", 4),
];

/// The mnemonic of a code and the bytes of one element; none for a code that isn't read.
pub fn format(code: u8) -> Option<(&'static str, usize)> {
    FORMATS.iter().find(|format| format.0 == code).map(|&(_, name, size)| (name, size))
}

/// The format byte and the length bytes of an item.
pub struct Head {
    pub code: u8,
    pub lengths: usize,
    /// The bytes of data, or the elements of a list.
    pub count: usize,
    /// Where they begin.
    pub body: usize,
}

/// The head that begins at a byte; none if the message ends in it.
pub fn head(message: &[u8], at: usize) -> Option<Head> {
    let format = *message.get(at)?;
    let lengths = usize::from(format & 3);
    let bytes = message.get(at + 1..at + 1 + lengths)?;
    let count = bytes.iter().fold(0, |count, &byte| count << 8 | usize::from(byte));
    Some(Head { code: format >> 2, lengths, count, body: at + 1 + lengths })
}

/// An item that was read.
#[derive(Clone, Copy)]
pub struct Item<'a> {
    pub at: usize,
    /// How many lists it stands in.
    pub depth: usize,
    pub code: u8,
    /// Of a list; else 0.
    pub elements: usize,
    /// Of any other item.
    pub data: &'a [u8],
}

/// The first items of a message, as many as the archive has read.
pub fn items(message: &[u8], count: u32) -> Vec<Item<'_>> {
    let (mut items, mut at) = (Vec::new(), 0);
    let mut left: Vec<usize> = Vec::new();
    for _ in 0..count {
        while left.last() == Some(&0) {
            left.pop();
        }
        let depth = left.len();
        let head = head(message, at).expect("an item that was read has a head");
        if let Some(elements) = left.last_mut() {
            *elements -= 1;
        }
        let list = head.code == LIST;
        let (elements, bytes) = if list { (head.count, 0) } else { (0, head.count) };
        if list {
            left.push(elements);
        }
        let data = &message[head.body..head.body + bytes];
        items.push(Item { at, depth, code: head.code, elements, data });
        at = head.body + bytes;
    }
    items
}

impl Item<'_> {
    /// Its line in the tree: the byte at which it begins, and itself, further in for each list it stands in.
    pub fn line(&self) -> String {
        format!("  {:>5}  {}{}", self.at, "  ".repeat(self.depth), cut(&self.to_string()))
    }

    /// A number or boolean item whose values aren't one.
    pub fn holds_other_than_one(&self) -> bool {
        let (_, size) = format(self.code).expect("a code that was read");
        ![LIST, BINARY, ASCII].contains(&self.code) && self.data.len() != size
    }

    pub fn is_text(&self, text: &str) -> bool {
        self.code == ASCII && self.data == text.as_bytes()
    }
}

/// `L,5`, `A "Bind"`, `U1 7`, `F4 1.5 (3fc00000)`, `B 01 ff`; `-` where there is no value.
impl fmt::Display for Item<'_> {
    fn fmt(&self, f: &mut fmt::Formatter<'_>) -> fmt::Result {
        let (name, size) = format(self.code).expect("a code that was read");
        match self.code {
            LIST => write!(f, "{name},{}", self.elements),
            ASCII => write!(f, "{name} \"{}\"", self.data.escape_ascii()),
            _ if self.data.is_empty() => write!(f, "{name} -"),
            _ => {
                let values = self.data.chunks(size).map(|value| shown(self.code, value));
                write!(f, "{name} {}", values.collect::<Vec<String>>().join(" "))
            }
        }
    }
}

/// One value of a number, boolean or binary item, its bytes with the high one first.
fn shown(code: u8, value: &[u8]) -> String {
    let bits = value.iter().fold(0, |bits, &byte| bits << 8 | u64::from(byte));
    let unused = 64 - 8 * value.len() as u32;
    match code {
        BINARY => format!("{bits:02x}"),
        F4 => format!("{:?} ({bits:08x})", f32::from_bits(bits as u32)),
        F8 => format!("{:?} ({bits:016x})", f64::from_bits(bits)),
        0o30..=0o37 => ((bits << unused) as i64 >> unused).to_string(),
        _ => bits.to_string(),
    }
}

#[cfg(test)]
mod tests {
    use super::*;

    /// The items of a list of one item, which is given.
    fn one(bytes: &[u8]) -> String {
        let message = [&[1, 1], bytes].concat();
        let read = items(&message, 2);
        assert_eq!((read[0].to_string().as_str(), read[1].at, read[1].depth), ("L,1", 2, 1));
        read[1].to_string()
    }

    #[test]
    fn items_in_their_formats() {
        assert_eq!(one(b"\x41\x04Bind"), "A \"Bind\"");
        assert_eq!(one(b"\x42\x00\x03a\"\xff"), "A \"a\\\"\\xff\"");
        assert_eq!(one(b"\x43\0\0\0"), "A \"\"");
        assert_eq!(one(&[0x21, 2, 1, 0xff]), "B 01 ff");
        assert_eq!(one(&[0x25, 1, 1]), "BOOLEAN 1");
        assert_eq!(one(&[0xA5, 2, 7, 255]), "U1 7 255");
        assert_eq!(one(&[0xA9, 2, 1, 0]), "U2 256");
        assert_eq!(one(&[0xB1, 4, 255, 255, 255, 255]), "U4 4294967295");
        assert_eq!(one(&[0xA1, 8, 255, 255, 255, 255, 255, 255, 255, 255]), "U8 18446744073709551615");
        assert_eq!(one(&[0x65, 1, 0x80]), "I1 -128");
        assert_eq!(one(&[0x69, 2, 0xff, 0xfe]), "I2 -2");
        assert_eq!(one(&[0x71, 4, 0x7f, 0xff, 0xff, 0xff]), "I4 2147483647");
        assert_eq!(one(&[0x61, 8, 0x80, 0, 0, 0, 0, 0, 0, 0]), "I8 -9223372036854775808");
        assert_eq!(one(&[0x91, 4, 0x3f, 0xc0, 0, 0]), "F4 1.5 (3fc00000)");
        assert_eq!(one(&[0x91, 4, 0x7f, 0xc0, 0, 1]), "F4 NaN (7fc00001)");
        assert_eq!(one(&[0x81, 8, 0x80, 0, 0, 0, 0, 0, 0, 0]), "F8 -0.0 (8000000000000000)");
        assert_eq!(one(&[0xA5, 0]), "U1 -");
        assert_eq!(one(&[3, 0, 0, 0]), "L,0");
    }

    #[test]
    fn depths_and_places() {
        let message = [1, 3, 1, 1, 1, 0, 0xA5, 1, 7, 1, 2, 0xA5, 1, 8, 0xA5, 1, 9];
        let all: Vec<(usize, usize)> = items(&message, 7).iter().map(|item| (item.at, item.depth)).collect();
        assert_eq!(all, [(0, 0), (2, 1), (4, 2), (6, 1), (9, 1), (11, 2), (14, 2)]);
        assert_eq!(items(&message, 2).len(), 2);
    }
}
