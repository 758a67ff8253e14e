//! The text of an answer.

use super::*;
use independent::gen::requests::secs::tree_of;
use independent::gen::Rng;
use independent::requests::reply::{acknowledge, error_code, length, reply, tree, ROOM_TOO_SMALL};
use independent::requests::secs::dump;

/// The text of an answer, in a room of its length.
fn text(number: u32, texts: &Texts) -> Vec<u8> {
    let mut room = vec![0xA5; length(number, texts)];
    assert_eq!(reply(number, texts, &mut room), Ok(room.len()));
    room
}

#[test]
fn texts_by_hand() {
    with_texts(|texts| {
        assert_eq!(text(0, texts), [0x01, 2, 0xA5, 1, 0, 0x01, 0]);
        let (one, errors) = ([0x01, 2, 0xA5, 1, 3], [0x01, 1, 0x01, 2]);
        let own = [0xA9, 2, 0, 1, 0x41, 1, b'R'];
        assert_eq!(text(1, texts), [&one[..], &errors, &own].concat());
        let head = [0x01, 2, 0xA5, 1, 5, 0x01, 1, 0x01, 2, 0xA9, 2, 0, 2, 0x41, 80];
        assert_eq!(text(2, texts), [&head[..], words(2).as_bytes()].concat());
        // High byte first, and the text of the other numbers.
        let head = [0x01, 2, 0xA5, 1, 5, 0x01, 1, 0x01, 2, 0xA9, 2, 0x01, 0x02, 0x41, 25];
        assert_eq!(text(258, texts), [&head[..], OTHER.as_bytes()].concat());
        let all = "0 1 L 2\n2 2 U1 1 05 = 5\n5 2 L 1\n7 3 L 2\n9 4 U2 2 0102 = 258\n";
        let items = format!("{all}13 4 A 25 {} = \"{OTHER}\"\nend 26 6\n", hex(OTHER));
        assert_eq!(dump(&text(258, texts)), items);
    });
}

fn hex(text: &str) -> String {
    text.bytes().map(|byte| format!("{byte:02x}")).collect()
}

#[test]
fn acknowledge_bytes() {
    for number in (0..=70_000).chain([1 << 31, u32::MAX - 1, u32::MAX]) {
        let byte = match number {
            0 => 0,
            1 | 20 | 21 | 22 | 23 | 24 | 25 | 26 => 3,
            _ => 5,
        };
        assert_eq!(acknowledge(number), byte);
    }
}

#[test]
fn codes_above_a_u2_are_the_highest() {
    for number in 0..=65_535 {
        assert_eq!(error_code(number) as u32, number);
    }
    for number in [65_536, 65_537, 131_071, 131_073, 1 << 31, u32::MAX] {
        assert_eq!(error_code(number), 65_535);
        // Not the text of number 1, which is what is left of 65,537 where its high bits are lost.
        with_texts(|texts| assert_eq!(text(number, texts), text(65_535, texts)));
    }
}

/// P3's reader reads back the tree that was written, and the text has the shortest length bytes.
#[test]
fn every_number_is_read_back() {
    with_texts(|texts| {
        for number in 0..=65_535 {
            let (written, tree) = (text(number, texts), tree(number, texts));
            assert_eq!(tree_of(&written).as_ref(), Some(&tree));
            assert_eq!(tree.encode_shortest(), written);
        }
    });
}

/// Rooms of every length to three past the text: 14 exactly where the text is longer, and no byte is
/// touched then, nor one past the text.
#[test]
fn rooms_of_every_length() {
    let mut rng = Rng::new(41);
    with_texts(|texts| {
        for number in (0..=40).chain([255, 256, 65_535, 65_536, u32::MAX]) {
            let text = text(number, texts);
            for length in 0..=text.len() + 3 {
                let before: Vec<u8> = (0..length).map(|_| rng.draw() as u8).collect();
                let mut room = before.clone();
                let given = reply(number, texts, &mut room);
                if length < text.len() {
                    assert_eq!((given, room), (Err(ROOM_TOO_SMALL), before));
                } else {
                    let after = [&text[..], &before[text.len()..]].concat();
                    assert_eq!((given, room), (Ok(text.len()), after));
                }
            }
        }
    });
}
