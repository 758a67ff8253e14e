//! 20 to 25: items, their layout, how deep and how many.

use super::*;
use independent::requests::secs::{element_size, format_name};

use crate::plain::KNOWN;

#[test]
fn every_code() {
    for code in 0..64 {
        let known = KNOWN.iter().find(|known| known.0 == code);
        assert_eq!(format_name(code), known.map(|known| known.1));
        assert_eq!(element_size(code), known.map(|known| known.2 as u32));
        // One element, or as many bytes as the largest element has.
        let expected = match known {
            Some((0, ..)) => (26, 2),
            Some(_) => (26, 1),
            None => (21, 0),
        };
        let data = if code == 0 { vec![0x41, 0] } else { vec![0; known.map_or(8, |known| known.2)] };
        let length = if code == 0 { 1 } else { data.len() as u8 };
        assert_eq!(given(&[&[code << 2 | 1, length][..], &data].concat()), expected, "{code:o}");
    }
    // JIS-8 is among the unknown.
    assert_eq!(given(&[0o21 << 2 | 1, 0]), (21, 0));
}

#[test]
fn nothing_at_all() {
    assert_eq!(given(&[]), (20, 0));
}

/// The length has its high byte first, in one, two or three bytes, not necessarily the shortest.
#[test]
fn length_bytes() {
    for (text, more) in [(&[0x41, 2][..], 2), (&[0x42, 0, 2], 2), (&[0x43, 0, 0, 2], 2), (&[0x42, 1, 0], 256)]
    {
        for bytes in 0..more + 3 {
            let expected = match bytes {
                _ if bytes < more => (20, 0),
                _ if bytes > more => (25, 1),
                _ => (26, 1),
            };
            assert_eq!(given(&[text, &vec![b'A'; bytes]].concat()), expected);
        }
    }
    let long = [&[0x43, 1, 0, 0][..], &[b'A'; 65_536]].concat();
    assert_eq!(given(&long), (26, 1));
    assert_eq!(given(&long[..long.len() - 1]), (20, 0));
    assert_eq!(given(&[&[0x43, 0, 1, 0][..], &[b'A'; 256]].concat()), (26, 1));
}

/// Cut at the format byte, the length bytes and the data; and any prefix of a message is cut short.
#[test]
fn cut_short() {
    for text in [&[0x41][..], &[0x42, 0], &[0x43, 0, 0], &[0x41, 1], &[0x41, 2, b'A'], &[2], &[3, 0, 0]] {
        assert_eq!(given(text), (20, 0));
    }
    let tree = message("Bind", &[pair("SlotMap", slots(&[3; 25])), pair("Usage", data(code::F8, &[0; 8]))]);
    for least in 1..=3 {
        let text = tree.encode(&mut || least);
        let mut before = 0;
        for end in 0..text.len() {
            let (refusal, items) = given(&text[..end]);
            assert_eq!(refusal, 20);
            assert!(items >= before && items < tree.items());
            before = items;
        }
        assert_eq!(given(&text), (0, tree.items()));
    }
}

/// A list may announce more elements than there are: 20 comes at the one that is missing.
#[test]
fn a_list_that_announces_more() {
    assert_eq!(given(&[1, 1]), (20, 1));
    assert_eq!(given(&[3, 0xFF, 0xFF, 0xFF]), (20, 1));
    assert_eq!(given(&[1, 3, 0xA5, 1, 0, 0xA5, 1, 0]), (20, 3));
    // What comes before has its say first.
    assert_eq!(given(&[1, 3, 0xA5, 1, 0, 0xFD, 0]), (21, 2));
    assert_eq!(given(&[1, 0xFF, 0xA8]), (22, 1));
}

/// The lowest that holds at an item.
#[test]
fn the_lowest_at_one_item() {
    // Unknown code: cut, without length bytes, with them.
    assert_eq!(given(&[0xFD, 1]), (20, 0));
    assert_eq!(given(&[0xFD]), (20, 0));
    assert_eq!(given(&[0xFC]), (21, 0));
    assert_eq!(given(&[0xFD, 1, 0]), (21, 0));
    // U2 of length 3.
    assert_eq!(given(&[0xA9, 3, 0]), (20, 0));
    assert_eq!(given(&[0xA9, 3, 0, 0, 0]), (22, 0));
    // At depth seven: no length byte, cut, good.
    let six = [1, 1].repeat(6);
    assert_eq!(given(&[&six[..], &[0]].concat()), (22, 6));
    assert_eq!(given(&[&six[..], &[1]].concat()), (20, 6));
    assert_eq!(given(&[&six[..], &[3, 0, 0]].concat()), (20, 6));
    assert_eq!(given(&[&six[..], &[1, 0]].concat()), (23, 6));
    assert_eq!(given(&[&six[..], &[1, 1]].concat()), (23, 6));
    assert_eq!(given(&six), (20, 6));
    assert_eq!(given(&[&six[..], &[0xFD, 0]].concat()), (21, 6));
}

/// The first item that is refused counts, not the lowest number.
#[test]
fn the_first_met() {
    let bad: [(&[u8], u32); 5] =
        [(&[0xFD, 0], 21), (&[0xA8], 22), (&[0xA9, 1, 0], 22), (&[0x41, 9], 20), (&[0xA5], 20)];
    for (one, number) in bad {
        for (other, _) in bad {
            assert_eq!(given(&[&[1, 5, 0xA5, 1, 0][..], one, other].concat()), (number, 2));
        }
    }
    // Too deep comes before what is cut behind it.
    assert_eq!(given(&[&[1, 1].repeat(7)[..], &[0xFD]].concat()), (23, 6));
}

/// A length that is no multiple of the element size, for every format and length.
#[test]
fn multiples() {
    for (code, _, size) in &KNOWN[1..] {
        for length in 0..=40 {
            let text = [&[code << 2 | 1, length as u8][..], &vec![0; length]].concat();
            assert_eq!(given(&text), if length % size == 0 { (26, 1) } else { (22, 0) });
        }
        assert_eq!(given(&[code << 2]), (22, 0));
    }
    assert_eq!(given(&[0]), (22, 0));
}

/// Lists to a depth of six; other items one deeper.
#[test]
fn depth() {
    for depth in 1..=40 {
        let lists = [1, 1].repeat(depth - 1);
        let expected = if depth <= 6 { (26, depth) } else { (23, 6) };
        assert_eq!(given(&[&lists[..], &[1, 0]].concat()), expected);
        let expected = if depth <= 7 { (26, depth) } else { (23, 6) };
        assert_eq!(given(&[&lists[..], &[0xA5, 1, 0]].concat()), expected);
    }
    // Beside each other they may be as many as there are items.
    assert_eq!(given(&[vec![1, 100], [1, 0].repeat(100)].concat()), (26, 101));
    // Deep, up again and deep once more.
    let deep = [[1, 1].repeat(4), vec![1, 0]].concat();
    assert_eq!(given(&[&[1, 3][..], &deep, &deep, &deep].concat()), (26, 16));
    let deeper = [[1, 1].repeat(5), vec![1, 0]].concat();
    assert_eq!(given(&[&[1, 3][..], &deep, &deeper, &deep].concat()), (23, 11));
}

/// 128 items and no more; the 129th may be refused with less.
#[test]
fn how_many() {
    for element in [&[1, 0][..], &[0xA5, 1, 0], &[0x41, 0]] {
        for elements in [126, 127, 128, 129, 255] {
            let expected = if elements <= 127 { (26, 1 + elements as usize) } else { (24, 128) };
            assert_eq!(given(&[&[1, elements][..], &element.repeat(elements as usize)].concat()), expected);
        }
    }
    let full = [&[1, 0xFF][..], &[0xA5, 1, 0].repeat(127)].concat();
    for (last, number) in [
        (&[][..], 20),
        (&[0xA5], 20),
        (&[0x41, 1], 20),
        (&[0xFD, 1], 20),
        (&[0xFD, 0], 21),
        (&[0xFC], 21),
        (&[0xA8], 22),
        (&[0xA9, 1, 0], 22),
        (&[1, 0], 24),
        (&[0xA5, 1, 0], 24),
    ] {
        assert_eq!(given(&[&full[..], last].concat()), (number, 128));
    }
    // Too deep and too many at once.
    let full = [&[1, 0xFF][..], &[0xA5, 1, 0].repeat(122), &[1, 1].repeat(5), &[1, 0]].concat();
    assert_eq!(given(&full), (23, 128));
}

/// 25 only after a walk that met nothing; 26 only where no bytes are left over.
#[test]
fn left_over() {
    let good = message("Bind", &[]).encode_shortest();
    for more in [&[0][..], &[1, 0], &[0xFF; 300], &good] {
        assert_eq!(given(&[&good[..], more].concat()), (25, BARE));
        assert_eq!(given(&[&[1, 0][..], more].concat()), (25, 1));
        assert_eq!(given(&[&[0x41, 0][..], more].concat()), (25, 1));
    }
    assert_eq!(given(&[0xFD, 0, 0]), (21, 0));
    assert_eq!(given(&[1, 0]), (26, 1));
}
