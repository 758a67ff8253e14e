//! The items of a message as text.

use std::fmt::Write;
use std::string::String;

use super::{code, element_size, format_name, read, Item, Value};

/// A line for each item begun, in the order they begin: where it stands, its depth, format and
/// length, and for all but lists the data, in hex and as what they mean. The last line has the
/// refusal and how many items there are.
///
/// ```text
/// 0 1 L 5
/// 2 2 U4 4 00000001 = 1
/// 8 2 A 4 42696e64 = "Bind"
/// ```
pub fn dump(message: &[u8]) -> String {
    let reading = read(message);
    let mut out = String::new();
    for item in reading.items() {
        line(message, item, &mut out);
    }
    let _ = writeln!(out, "end {} {}", reading.refusal(), reading.items().len());
    out
}

fn line(message: &[u8], item: &Item, out: &mut String) {
    let name = format_name(item.code).unwrap_or("?");
    let _ = write!(out, "{} {} {name} {}", item.at, item.depth, item.length);
    if !item.is_list() {
        let data = &message[item.data()];
        let hex: String = data.iter().map(|byte| std::format!("{byte:02x}")).collect();
        let _ = write!(out, " {} =", if hex.is_empty() { "-" } else { &hex });
        meaning(item.code, data, out);
    }
    out.push('\n');
}

/// A text in quotes; bytes and numbers one by one.
fn meaning(code: u8, data: &[u8], out: &mut String) {
    if code == code::ASCII {
        let _ = write!(out, " \"{}\"", data.escape_ascii());
        return;
    }
    let size = element_size(code).unwrap_or(1) as usize;
    for one in data.chunks(size) {
        let _ = match Value::number(code, one) {
            Some(Value::Boolean(byte)) => write!(out, " {}", byte != 0),
            Some(Value::I1(n)) => write!(out, " {n}"),
            Some(Value::I2(n)) => write!(out, " {n}"),
            Some(Value::I4(n)) => write!(out, " {n}"),
            Some(Value::I8(n)) => write!(out, " {n}"),
            Some(Value::U1(n)) => write!(out, " {n}"),
            Some(Value::U2(n)) => write!(out, " {n}"),
            Some(Value::U4(n)) => write!(out, " {n}"),
            Some(Value::U8(n)) => write!(out, " {n}"),
            Some(Value::F4(n)) => write!(out, " {n:?}"),
            Some(Value::F8(n)) => write!(out, " {n:?}"),
            _ => write!(out, " {}", one[0]),
        };
    }
}
