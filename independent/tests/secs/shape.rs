//! 26, and what a message of the right shape asks for.

use super::*;

use crate::plain::KNOWN;

/// Row, port, name and codes of a message that is read.
fn order(tree: &Tree) -> (u32, u32, Vec<u8>, Vec<u8>) {
    assert_eq!(given_tree(tree), (0, tree.items()));
    let text = tree.encode_shortest();
    let order = read(&text).order.unwrap();
    (order.number, order.port, order.name.to_vec(), order.codes().to_vec())
}

fn refused(tree: &Tree) {
    assert_eq!(given_tree(tree), (26, tree.items()), "{tree:?}");
}

/// The message with one of its five elements replaced.
fn with(at: usize, element: Tree) -> Tree {
    let Tree::List(mut five) = message("Bind", &[]) else { unreachable!() };
    five[at] = element;
    Tree::List(five)
}

/// The bytes as SEMI E5 lays them out.
#[test]
fn a_message_by_hand() {
    let text = b"\x01\x05\xB1\x04\x00\x00\x00\x01\x41\x04Bind\x41\x02AB\xA5\x01\x02\x01\x00";
    assert_eq!(message("Bind", &[]).encode_shortest(), text);
    assert_eq!(given(text), (0, 6));
    assert_eq!(order(&message("Bind", &[])), (1, 2, b"AB".to_vec(), vec![]));
}

#[test]
fn the_four_actions() {
    let map: Vec<u8> = (0..25).collect();
    for (action, row) in ACTIONS {
        let port = if row == 3 { 0 } else { 2 };
        assert_eq!(order(&message(action, &[])), (row, port, b"AB".to_vec(), vec![]));
        // The map goes on in rows 1 and 3, whatever its codes.
        let codes = if row <= 3 { map.clone() } else { vec![] };
        let tree = message(action, &[pair("SlotMap", slots(&map))]);
        assert_eq!(order(&tree), (row, port, b"AB".to_vec(), codes));
    }
}

#[test]
fn other_actions() {
    let texts = [
        "",
        "bind",
        "BIND",
        "Bin",
        "Bind ",
        " Bind",
        "Bind\0",
        "BindBind",
        "CancelBind",
        "CarrierOut",
        "CarrierIn",
        "CancelCarrierNotification",
        "CarrierNotificatio",
        "ProceedWithCarrier\0",
        "CancelCarrierOut",
        "Open",
    ];
    for action in texts {
        refused(&message(action, &[]));
    }
    for (action, _) in ACTIONS {
        for at in 0..action.len() {
            let mut text = action.as_bytes().to_vec();
            text[at] ^= 0x20;
            refused(&with(1, Tree::ascii(&text)));
            refused(&with(1, Tree::ascii(&action.as_bytes()[..at])));
        }
    }
}

/// A list of five, neither fewer nor more.
#[test]
fn five_elements() {
    let Tree::List(five) = message("Bind", &[]) else { unreachable!() };
    for length in 0..5 {
        refused(&list(&five[..length]));
        let mut four = five.clone();
        four.remove(length);
        refused(&Tree::List(four));
        let mut six = five.clone();
        six.insert(length, five[length].clone());
        refused(&Tree::List(six));
    }
    refused(&list(&[list(&five)]));
    refused(&ascii("Bind"));
    refused(&u1(1));
    refused(&data(code::BINARY, &[]));
}

/// Each of the five in each format, with one value.
#[test]
fn formats_of_the_five() {
    for (format, name, size) in KNOWN {
        let element = if format == 0 { list(&[]) } else { data(format, &vec![1; size]) };
        let good = [
            name.starts_with('U'),
            // A text of one byte is no action.
            false,
            name == "A",
            name == "U1",
            name == "L",
        ];
        for (at, good) in good.into_iter().enumerate() {
            let tree = with(at, element.clone());
            if good {
                order(&tree);
            } else {
                refused(&tree);
            }
        }
    }
    // Binary isn't a number, and a list of one isn't its element.
    refused(&with(0, data(code::BINARY, &[1])));
    refused(&with(3, list(&[u1(1)])));
}

/// Name of any length and bytes: the tool judges it.
#[test]
fn any_name() {
    let all: Vec<u8> = (0..=255).collect();
    for name in [&b""[..], b" ", b"A", b"AB   ", b"\0\xFF\x7F", &[b'A'; 17], &[b'A'; 33], &all, &[0xFF; 300]]
    {
        for (action, row) in ACTIONS {
            let Tree::List(mut five) = message(action, &[]) else { unreachable!() };
            five[2] = Tree::ascii(name);
            let port = if row == 3 { 0 } else { 2 };
            assert_eq!(order(&Tree::List(five)), (row, port, name.to_vec(), vec![]));
        }
    }
}

/// Every port of one byte, which row 3 drops; 0 is "not given".
#[test]
fn any_port() {
    for port in 0..=255 {
        for (action, row) in ACTIONS {
            let Tree::List(mut five) = message(action, &[]) else { unreachable!() };
            five[3] = u1(port);
            let expected = if row == 3 { 0 } else { port as u32 };
            assert_eq!(order(&Tree::List(five)).1, expected);
        }
    }
}

/// A number or boolean item holds one value, in every place of the message. So a port or data id of
/// length zero, as E87.1 sends one that isn't used, is refused.
#[test]
fn one_value() {
    for (format, name, size) in &KNOWN[1..] {
        let number = !["A", "B"].contains(name);
        for values in 0..4 {
            let element = data(*format, &vec![0; values * size]);
            let good = !number || values == 1;
            let places = [
                message("Bind", &[pair("Usage", element.clone())]),
                message("CancelCarrier", &[pair("Usage", list(&[list(&[u1(1), element.clone()])]))]),
                message("Bind", &[pair("SlotMap", slots(&[3; 25])), pair("Usage", element.clone())]),
            ];
            for tree in places {
                if good {
                    order(&tree);
                } else {
                    refused(&tree);
                }
            }
            for (at, wanted) in [(0, name.starts_with('U')), (3, *name == "U1")] {
                if wanted && values == 1 {
                    order(&with(at, element.clone()));
                } else {
                    refused(&with(at, element.clone()));
                }
            }
        }
    }
}

#[test]
fn attributes_are_pairs_with_a_text_first() {
    let name = || ascii("Usage");
    let bad = [
        list(&[]),
        list(&[name()]),
        list(&[name(), u1(1), u1(2)]),
        list(&[u1(1), u1(2)]),
        list(&[u1(1), name()]),
        list(&[data(code::BINARY, b"Usage"), u1(1)]),
        list(&[list(&[name()]), u1(1)]),
        list(&[list(&[name(), u1(1)])]),
        name(),
        u1(1),
        data(code::ASCII, b""),
    ];
    let good = pair("Usage", u1(1));
    for one in bad {
        refused(&message("Bind", std::slice::from_ref(&one)));
        refused(&message("Bind", &[good.clone(), one.clone()]));
        refused(&message("Bind", &[one.clone(), good.clone()]));
        refused(&message("Bind", &[pair("SlotMap", slots(&[3; 25])), one]));
    }
    // Not a list at all, empty or not.
    for one in [data(code::ASCII, b""), data(code::BINARY, b""), ascii("SlotMap"), u1(0)] {
        refused(&with(4, one));
    }
    // A pair that stands where the list of pairs should.
    refused(&with(4, good.clone()));
    // As many as there is room for, with any value.
    let many = vec![good; (128 - BARE) / 3];
    assert_eq!(order(&message("Bind", &many)).3, []);
    for (format, _, size) in &KNOWN[1..] {
        order(&message("Bind", &[pair("", data(*format, &vec![0xFF; *size]))]));
    }
    order(&message("Bind", &[pair("Usage", list(&[]))]));
    order(&message("Bind", &[pair("Usage", list(&[u1(1), ascii("A"), list(&[list(&[])])]))]));
}

/// A SlotMap that stands first is a list of 25 U1, in all four rows.
#[test]
fn the_shape_of_a_slot_map() {
    let mut bad: Vec<Tree> = (0..=60).filter(|&n| n != 25).map(|n| slots(&vec![3; n])).collect();
    for (format, name, size) in &KNOWN[1..] {
        for at in [0, 12, 24] {
            let mut one: Vec<Tree> = vec![u1(3); 25];
            one[at] = data(*format, &vec![0; *size]);
            if *name != "U1" {
                bad.push(Tree::List(one));
            }
        }
        bad.push(data(*format, &vec![3; 200 / size * size]));
    }
    let mut within = vec![u1(3); 25];
    within[7] = list(&[u1(3)]);
    bad.push(Tree::List(within));
    bad.push(list(&[slots(&[3; 25])]));
    bad.push(data(code::U1, &[3; 25]));
    bad.push(data(code::BINARY, &[3; 25]));
    bad.push(data(code::ASCII, &[3; 25]));
    bad.push(list(&[slots(&[3; 12]), slots(&[3; 13])]));
    for value in bad {
        for (action, _) in ACTIONS {
            refused(&message(action, &[pair("SlotMap", value.clone())]));
        }
    }
    for length in [0, 2] {
        let mut one = vec![u1(3); 25];
        one[24] = data(code::U1, &vec![3; length]);
        refused(&message("Bind", &[pair("SlotMap", Tree::List(one))]));
    }
}

/// Every code of every slot goes on as it is.
#[test]
fn the_codes_of_a_slot_map_are_not_judged() {
    for slot in 0..25 {
        for code in 0..=255 {
            let mut codes = [3; 25];
            codes[slot] = code;
            assert_eq!(order(&message("Bind", &[pair("SlotMap", slots(&codes))])).3, codes);
        }
    }
}

/// Only the attribute that stands first, and only by its exact name; any other is dropped.
#[test]
fn a_first_attribute_slot_map() {
    let (map, usage) = (pair("SlotMap", slots(&[3; 25])), pair("Usage", u1(1)));
    let odd = pair("SlotMap", u1(1));
    for (action, row) in ACTIONS {
        let codes = if row <= 3 { vec![3; 25] } else { vec![] };
        assert_eq!(order(&message(action, std::slice::from_ref(&map))).3, codes);
        for second in [usage.clone(), odd.clone(), pair("SlotMap", slots(&[1; 25]))] {
            assert_eq!(order(&message(action, &[map.clone(), second])).3, codes);
        }
        assert_eq!(order(&message(action, &[usage.clone(), map.clone()])).3, []);
        assert_eq!(order(&message(action, &[usage.clone(), odd.clone()])).3, []);
        refused(&message(action, &[odd.clone(), map.clone()]));
        for name in ["slotmap", "SlotMap ", "SlotMa", "SlotMap\0", " SlotMap", "", "SlotMaps"] {
            assert_eq!(order(&message(action, &[pair(name, slots(&[3; 25]))])).3, []);
            assert_eq!(order(&message(action, &[pair(name, u1(1))])).3, []);
        }
    }
}
