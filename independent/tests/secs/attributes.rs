//! An attribute value is held as what it was sent as, F4 and F8 included, bits untouched.

use super::*;
use independent::requests::secs::Value;

/// The value of the only attribute of a message.
fn held(value: Tree, look: impl FnOnce(&Value)) {
    let text = message("Bind", &[pair("Usage", value)]).encode_shortest();
    let reading = read(&text);
    let all: Vec<_> = reading.attributes().collect();
    let [attribute] = &all[..] else { panic!("{all:?}") };
    assert_eq!(attribute.name, b"Usage");
    look(&attribute.value);
}

#[test]
fn numbers_and_texts() {
    let cases = [
        (data(code::BINARY, &[0, 255]), Value::Binary(&[0, 255])),
        (data(code::BINARY, &[]), Value::Binary(&[])),
        (ascii("A\0 \u{7F}"), Value::Ascii(b"A\0 \x7F")),
        (data(code::BOOLEAN, &[0]), Value::Boolean(0)),
        (data(code::BOOLEAN, &[1]), Value::Boolean(1)),
        (data(code::BOOLEAN, &[0xFE]), Value::Boolean(0xFE)),
        (data(code::I1, &[0x80]), Value::I1(-128)),
        (data(code::I2, &[0x80, 1]), Value::I2(-32767)),
        (data(code::I4, &[0xFF, 0xFF, 0xFF, 0xFE]), Value::I4(-2)),
        (data(code::I8, &[0x80, 0, 0, 0, 0, 0, 0, 0]), Value::I8(i64::MIN)),
        (u1(200), Value::U1(200)),
        (data(code::U2, &[1, 2]), Value::U2(258)),
        (data(code::U4, &[0xFF; 4]), Value::U4(u32::MAX)),
        (data(code::U8, &[0, 0, 0, 1, 0, 0, 0, 0]), Value::U8(1 << 32)),
        (list(&[]), Value::List(0)),
        (list(&[u1(1), list(&[u1(2)])]), Value::List(2)),
    ];
    for (tree, value) in cases {
        held(tree, |held| assert_eq!(*held, value));
    }
}

/// Every kind of float: zeros, subnormals, infinities, quiet and signalling NaNs of either sign.
#[test]
fn floats_keep_their_bits() {
    let parts =
        [0u32, 1, 0x3F80_0000, 0x7F7F_FFFF, 0x7F80_0000, 0x7F80_0001, 0x7FC0_0000, 0x7FFF_FFFF, 0x00FF_00FF];
    for bits in parts.into_iter().flat_map(|bits| [bits, bits | 1 << 31]) {
        held(data(code::F4, &bits.to_be_bytes()), |held| match held {
            Value::F4(x) => assert_eq!(x.to_bits(), bits),
            other => panic!("{other:?}"),
        });
        for bits in [bits as u64, (bits as u64) << 32, (bits as u64) << 32 | 1] {
            held(data(code::F8, &bits.to_be_bytes()), |held| match held {
                Value::F8(x) => assert_eq!(x.to_bits(), bits),
                other => panic!("{other:?}"),
            });
        }
    }
}

#[test]
fn in_order_and_with_their_names() {
    let all = [pair("SlotMap", slots(&[1; 25])), pair("", u1(7)), pair("Usage", ascii("PRODUCT"))];
    for (action, _) in ACTIONS {
        let text = message(action, &all).encode_shortest();
        let reading = read(&text);
        let all: Vec<_> = reading.attributes().map(|a| (a.name, a.value)).collect();
        let (map, seven) = ((&b"SlotMap"[..], Value::List(25)), (&b""[..], Value::U1(7)));
        assert_eq!(all, [map, seven, (b"Usage", Value::Ascii(b"PRODUCT"))]);
    }
}

#[test]
fn a_message_that_is_refused_has_none() {
    let good = message("Bind", &[pair("Usage", u1(1))]).encode_shortest();
    let action = message("Bound", &[pair("Usage", u1(1))]).encode_shortest();
    for text in [&good[..good.len() - 1], &[&good[..], &[0]].concat(), &action, b""] {
        assert_eq!(read(text).attributes().count(), 0);
    }
    assert_eq!(read(&good).attributes().count(), 1);
}
