//! Trees and their texts, and the dump of a text.

use super::*;
use independent::gen::requests::random_sound_tool;
use independent::gen::requests::secs::{hostile, random_message, slot_map_message, tree_of};
use independent::gen::Rng;
use independent::requests::secs::dump;

#[test]
fn texts_by_hand() {
    assert_eq!(list(&[]).encode_shortest(), [0x01, 0]);
    assert_eq!(u1(7).encode_shortest(), [0xA5, 1, 7]);
    assert_eq!(u1(7).encode(&mut || 2), [0xA6, 0, 1, 7]);
    assert_eq!(u1(7).encode(&mut || 3), [0xA7, 0, 0, 1, 7]);
    assert_eq!(ascii("AB").encode_shortest(), *b"\x41\x02AB");
    for (length, head) in [
        (255, &[0x41, 255][..]),
        (256, &[0x42, 1, 0]),
        (65_535, &[0x42, 255, 255]),
        (65_536, &[0x43, 1, 0, 0]),
    ] {
        let text = Tree::ascii(&vec![b'A'; length]).encode_shortest();
        assert_eq!((&text[..head.len()], text.len()), (head, head.len() + length));
    }
    let mut next = 0;
    let mut in_turn = || {
        next += 1;
        next
    };
    assert_eq!(list(&[u1(1), u1(2)]).encode(&mut in_turn), [1, 2, 0xA6, 0, 1, 1, 0xA7, 0, 0, 1, 2]);
}

/// A tree is read back from its text, with any length bytes; and a text that is one item is its
/// tree's.
#[test]
fn trees_are_read_back() {
    let mut rng = Rng::new(31);
    let (mut trees, mut texts) = (0, 0);
    for _ in 0..20_000 {
        let t = random_sound_tool(&mut rng);
        let text = if rng.chance(70) { random_message(&t, &mut rng) } else { hostile(&mut rng) };
        let Some(tree) = tree_of(&text) else {
            assert!(!matches!(given(&text).0, 0 | 26));
            continue;
        };
        texts += 1;
        assert_eq!(Some(&tree), crate::plain::plain_walk(&text).tree.as_ref());
        let reading = read(&text);
        let mut length_bytes = reading.items().iter().map(|item| item.length_bytes as usize);
        assert_eq!(tree.encode(&mut || length_bytes.next().unwrap()), text);
        for least in 1..=3 {
            assert_eq!(tree_of(&tree.encode(&mut || least)), Some(tree.clone()));
        }
        assert!(tree.encode_shortest().len() <= text.len());
        trees += (tree.items() > 6) as u32;
    }
    assert!(texts > 5_000 && trees > 3_000, "{texts} {trees}");
}

#[test]
fn a_dump_by_hand() {
    let attributes = [
        pair("SlotMap", list(&[u1(3), u1(200)])),
        pair("F", list(&[data(code::F4, &[0x3F, 0x80, 0, 0]), data(code::F8, &[0xC0, 4, 0, 0, 0, 0, 0, 0])])),
        pair(
            "\"\n",
            list(&[data(code::BOOLEAN, &[0, 7]), data(code::BINARY, &[0, 255]), data(code::I2, &[])]),
        ),
        pair("I", list(&[data(code::I1, &[0xFF, 1]), data(code::I8, &[0xFF; 8])])),
    ];
    let text = message("Bind", &attributes).encode(&mut || 2);
    let lines = "\
0 1 L 5
3 2 U4 4 00000001 = 1
10 2 A 4 42696e64 = \"Bind\"
17 2 A 2 4142 = \"AB\"
22 2 U1 1 02 = 2
26 2 L 4
29 3 L 2
32 4 A 7 536c6f744d6170 = \"SlotMap\"
42 4 L 2
45 5 U1 1 03 = 3
49 5 U1 1 c8 = 200
53 3 L 2
56 4 A 1 46 = \"F\"
60 4 L 2
63 5 F4 4 3f800000 = 1.0
70 5 F8 8 c004000000000000 = -2.5
81 3 L 2
84 4 A 2 220a = \"\\\"\\n\"
89 4 L 3
92 5 BOOLEAN 2 0007 = false true
97 5 B 2 00ff = 0 255
102 5 I2 0 - =
105 3 L 2
108 4 A 1 49 = \"I\"
112 4 L 2
115 5 I1 2 ff01 = -1 1
120 5 I8 8 ffffffffffffffff = -1
end 26 27
";
    assert_eq!(dump(&text), lines);
    assert_eq!(
        dump(&text[..20]),
        [&lines.lines().take(3).collect::<Vec<_>>()[..], &["end 20 3\n"]].concat().join("\n")
    );
    assert_eq!(dump(b""), "end 20 0\n");
}

#[test]
fn a_message_with_a_map() {
    let text = slot_map_message();
    let order = read(&text).order.unwrap();
    assert_eq!((order.number, order.port, order.name, order.map), (1, 1, &b"CARRIER-01"[..], Some([3; 25])));
    assert_eq!(given(&text), (0, 34));
}
