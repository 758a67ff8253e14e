//! Values of items, each held as what it was sent as.

use super::{code, Item};

/// An attribute of a message.
#[derive(Clone, Copy, PartialEq, Debug)]
pub struct Attribute<'a> {
    pub name: &'a [u8],
    pub value: Value<'a>,
}

/// The value of an item. A boolean keeps its byte, of which any but 0 is true; a float keeps its
/// bits.
#[derive(Clone, Copy, PartialEq, Debug)]
pub enum Value<'a> {
    /// How many elements it has.
    List(u32),
    Binary(&'a [u8]),
    Boolean(u8),
    Ascii(&'a [u8]),
    I1(i8),
    I2(i16),
    I4(i32),
    I8(i64),
    U1(u8),
    U2(u16),
    U4(u32),
    U8(u64),
    F4(f32),
    F8(f64),
}

impl<'a> Value<'a> {
    /// Nothing where a number or boolean holds none or several, or where the code is unknown.
    pub fn of(message: &'a [u8], item: &Item) -> Option<Value<'a>> {
        let data = &message[item.data()];
        Some(match item.code {
            code::LIST => Value::List(item.length),
            code::BINARY => Value::Binary(data),
            code::ASCII => Value::Ascii(data),
            code => return Value::number(code, data),
        })
    }

    /// One number or boolean, with its high byte first.
    pub fn number(code: u8, data: &'a [u8]) -> Option<Value<'a>> {
        Some(match code {
            code::BOOLEAN => Value::Boolean(u8::from_be_bytes(data.try_into().ok()?)),
            code::I1 => Value::I1(i8::from_be_bytes(data.try_into().ok()?)),
            code::I2 => Value::I2(i16::from_be_bytes(data.try_into().ok()?)),
            code::I4 => Value::I4(i32::from_be_bytes(data.try_into().ok()?)),
            code::I8 => Value::I8(i64::from_be_bytes(data.try_into().ok()?)),
            code::U1 => Value::U1(u8::from_be_bytes(data.try_into().ok()?)),
            code::U2 => Value::U2(u16::from_be_bytes(data.try_into().ok()?)),
            code::U4 => Value::U4(u32::from_be_bytes(data.try_into().ok()?)),
            code::U8 => Value::U8(u64::from_be_bytes(data.try_into().ok()?)),
            code::F4 => Value::F4(f32::from_be_bytes(data.try_into().ok()?)),
            code::F8 => Value::F8(f64::from_be_bytes(data.try_into().ok()?)),
            _ => return None,
        })
    }
}
