//! Document 01's run to check by hand, and the edges it lists.

use independent::gen::padded;
use independent::{setup, sound, step, Plain, Report, Reports, Tool};

fn tool(p: u32, b: u32) -> Tool {
    let mut t = Tool::NONE;
    assert_eq!(setup(p, b, &mut t), 0);
    assert!(sound(&t));
    t
}

/// "model subject old>new; ..." as the document writes it.
fn parse(reports: &str) -> Reports {
    let mut out = Reports::NONE;
    for text in reports.split("; ").filter(|text| *text != "none") {
        let mut words = text.split(' ');
        let model: u8 = words.next().unwrap().parse().unwrap();
        let subject = words.next().unwrap();
        let (old, new) = words.next().unwrap().split_once('>').unwrap();
        out.items[out.count as usize] = Report {
            model,
            port: if model <= 4 { subject.parse().unwrap() } else { 0 },
            name: if model <= 4 { [0; 16] } else { padded(subject.as_bytes()) },
            old: old.parse().unwrap(),
            new: new.parse().unwrap(),
        };
        out.count += 1;
    }
    out
}

#[derive(Clone, Copy)]
struct Given<'a>(u32, u32, u32, &'a str, &'a [u8]);

fn give(t: &mut Tool, Given(number, port, value, name, codes): Given) -> (u32, Reports) {
    // Whatever stood in the reports before is overwritten.
    let mut out =
        Reports { count: 9, items: [Report { model: 9, port: 9, name: [9; 16], old: 9, new: 9 }; 10] };
    let before = *t;
    let answer = step(t, number, port, value, name.as_bytes(), codes, &mut out);
    if answer != 0 {
        assert_eq!(before.bytes(), t.bytes());
        assert_eq!(out, Reports::NONE);
    }
    (answer, out)
}

fn answer(t: &mut Tool, number: u32, port: u32, value: u32, name: &str) -> u32 {
    give(t, Given(number, port, value, name, &[])).0
}

#[test]
fn the_twelve_rows() {
    let threes = [3; 25];
    let rows: [(Given, u32, &str); 12] = [
        (Given(1, 1, 0, "AB", &[]), 0, "3 1 0>1; 4 1 0>1; 5 AB 0>1; 6 AB 0>1; 7 AB 0>1"),
        (Given(13, 1, 0, "", &[]), 0, "1 1 1>3; 3 1 1>0"),
        (Given(14, 1, 0, "", &[]), 0, "none"),
        (
            Given(16, 1, 0, "AC", &[]),
            0,
            "4 1 1>1; 5 AB 1>0; 5 AC 0>2; 6 AB 1>0; 6 AC 0>1; 7 AB 1>0; 7 AC 0>1",
        ),
        (Given(19, 0, 0, "AC", &[]), 7, "none"),
        (Given(5, 0, 0, "AC", &[]), 0, "5 AC 2>3"),
        (Given(19, 0, 0, "AC", &[]), 0, "none"),
        (Given(20, 0, 0, "AC", &threes), 0, "6 AC 1>2"),
        (Given(21, 0, 0, "AC", &[]), 7, "none"),
        (Given(5, 0, 0, "AC", &[]), 0, "6 AC 2>3"),
        (Given(21, 0, 0, "AC", &[]), 0, "7 AC 1>2"),
        (Given(6, 0, 0, "AC", &[]), 5, "none"),
    ];
    let mut t = tool(2, 0);
    for (k, (given, answer, reports)) in rows.into_iter().enumerate() {
        assert_eq!(give(&mut t, given), (answer, parse(reports)), "row {}", k + 1);
        assert!(sound(&t));
    }
}

#[test]
fn set_up() {
    for p in [0, 1, 2, 3, 4, 5, 255, 256, 257, 1 << 31, u32::MAX] {
        for b in [0, 1, 15, 16, 17, 255, 256, 257, 272, 1 << 31, u32::MAX] {
            let mut t = Tool::from_bytes(&[0xAB; 1891]).unwrap();
            let good = (1..=4).contains(&p) && b <= 16;
            assert_eq!(setup(p, b, &mut t), !good as u32);
            assert_eq!(sound(&t), good);
            if good {
                let mut bytes = [0; 1891];
                (bytes[0], bytes[1]) = (p as u8, b as u8);
                for port in 0..p as usize {
                    bytes[3 + 22 * port] = 1;
                }
                assert_eq!(t.bytes(), bytes);
            } else {
                assert_eq!(t.bytes(), [0; 1891]);
                for number in 0..=27 {
                    assert_eq!(answer(&mut t, number, 1, 1, "A"), 1);
                }
            }
        }
    }
}

#[test]
fn layout() {
    let mut t = tool(2, 0);
    assert_eq!(answer(&mut t, 1, 2, 0, "AB"), 0);
    let mut bytes = [0; 1891];
    bytes[..3].copy_from_slice(&[2, 0, 1]);
    bytes[3] = 1;
    bytes[25..30].copy_from_slice(&[1, 0, 1, b'A', b'B']);
    bytes[91..93].copy_from_slice(b"AB");
    bytes[91 + 18] = 2;
    bytes[91 + 47..91 + 50].copy_from_slice(&[1, 1, 1]);
    assert_eq!(t.bytes(), bytes);
    let (_, out) = give(&mut t, Given(3, 0, 0, "C", &[]));
    let mut bytes = [0; 201];
    bytes[0] = 3;
    for k in 0..3 {
        bytes[1 + 20 * k] = 5 + k as u8;
        bytes[3 + 20 * k] = b'C';
        bytes[20 + 20 * k] = 1;
    }
    assert_eq!(out.bytes(), bytes);
}

#[test]
fn lengths_of_names() {
    let mut t = tool(1, 1);
    assert_eq!(answer(&mut t, 3, 0, 0, ""), 1);
    assert_eq!(answer(&mut t, 3, 0, 0, "A"), 0);
    assert_eq!(answer(&mut t, 3, 0, 0, "ABCDEFGHIJKLMNOP"), 0);
    assert_eq!(answer(&mut t, 3, 0, 0, "ABCDEFGHIJKLMNOPQ"), 1);
    assert_eq!(answer(&mut t, 3, 0, 0, &"A".repeat(300)), 1);
    assert_eq!(answer(&mut t, 3, 0, 0, &"A".repeat(257)), 1);
    let mut out = Reports::NONE;
    for byte in 0..=255 {
        let mut t = tool(1, 0);
        let good = (0x21..=0x7E).contains(&byte);
        assert_eq!(step(&mut t, 3, 0, 0, &[byte], &[], &mut out), !good as u32);
        let mut t = tool(1, 0);
        assert_eq!(step(&mut t, 3, 0, 0, &[b'A', b'B', byte, b'C'], &[], &mut out), !good as u32);
    }
}

#[test]
fn numbers_of_ports() {
    for p in 1..=4 {
        for number in [1, 7, 9, 10, 11, 12, 13, 14, 15, 16, 17, 18, 24, 25, 26] {
            for port in [0, p + 1, 255, 256, 256 + p, 1 << 16 | 1, 1 << 31, 1 << 31 | 1, u32::MAX] {
                assert_eq!(answer(&mut tool(p, 1), number, port, 1, "A"), 1, "{number} {port}");
            }
            for port in 1..=p {
                assert_ne!(answer(&mut tool(p, 1), number, port, 1, "A"), 1, "{number} {port}");
            }
        }
        // Where the port need not be given, 0 is none, and any other is looked at.
        for number in [2, 5, 6] {
            assert_eq!(answer(&mut tool(p, 1), number, 0, 0, "A"), 2);
            assert_eq!(answer(&mut tool(p, 1), number, p, 0, "A"), 2);
            assert_eq!(answer(&mut tool(p, 1), number, p + 1, 0, "A"), 1);
            assert_eq!(answer(&mut tool(p, 1), number, 256, 0, "A"), 1);
        }
    }
}

#[test]
fn numbers_of_inputs() {
    for number in [0, 27, 28, 255, 256, 257, 259, 1 << 16 | 3, 1 << 31, u32::MAX] {
        assert_eq!(answer(&mut tool(1, 0), number, 1, 0, "A"), 1);
    }
    for number in 1..=26 {
        // In row 18 it is the place that is out of range.
        assert_eq!(answer(&mut tool(1, 0), number, 1, 1, "A") == 1, matches!(number, 18 | 20));
    }
}

#[test]
fn sixteen_expected() {
    let mut t = tool(1, 0);
    for k in 0..16 {
        assert_eq!(answer(&mut t, 3, 0, 0, &format!("C{k}")), 0);
    }
    assert_eq!(answer(&mut t, 3, 0, 0, "C16"), 6);
    assert_eq!(answer(&mut t, 1, 1, 0, "C16"), 6);
    assert_eq!(answer(&mut t, 3, 0, 0, "C3"), 3);
    assert_eq!(answer(&mut t, 4, 0, 0, "C3"), 0);
    assert_eq!(answer(&mut t, 1, 1, 0, "C16"), 0);
    assert_eq!(answer(&mut t, 3, 0, 0, "C17"), 6);
    assert_eq!(answer(&mut t, 2, 1, 0, ""), 0);
    assert_eq!(answer(&mut t, 3, 0, 0, "C17"), 0);
    let names: Vec<_> = t.carriers().iter().map(|c| c.name).collect();
    let kept = (0..16).filter(|k| *k != 3).chain([17]);
    assert_eq!(names, kept.map(|k| padded(format!("C{k}").as_bytes())).collect::<Vec<_>>());
}

#[test]
fn a_read_never_meets_six() {
    let mut t = tool(1, 0);
    for k in 0..16 {
        assert_eq!(answer(&mut t, 3, 0, 0, &format!("C{k}")), 0);
    }
    assert_eq!(answer(&mut t, 13, 1, 0, ""), 0);
    assert_eq!(answer(&mut t, 14, 1, 0, ""), 0);
    assert_eq!(answer(&mut t, 16, 1, 0, "NEW"), 0);
    assert_eq!(t.count, 17);
    assert!(sound(&t));
}

#[test]
fn move_in_without_a_buffer() {
    for place in [0, 1, 2, 16, 17, 256, 257, u32::MAX] {
        assert_eq!(answer(&mut tool(1, 0), 18, 1, place, ""), 1);
    }
    for place in [0, 3, 256, 257, 258, u32::MAX] {
        assert_eq!(answer(&mut tool(1, 2), 18, 1, place, ""), 1);
    }
    for place in [1, 2] {
        assert_eq!(answer(&mut tool(1, 2), 18, 1, place, ""), 5);
    }
}

#[test]
fn slot_maps() {
    let mut t = tool(1, 0);
    assert_eq!(answer(&mut t, 1, 1, 0, "A"), 0);
    for number in [13, 14] {
        assert_eq!(answer(&mut t, number, 1, 0, ""), 0);
    }
    assert_eq!(answer(&mut t, 16, 1, 0, "A"), 0);
    assert_eq!(answer(&mut t, 19, 0, 0, "A"), 0);
    for length in [0, 1, 24, 26, 281, 300] {
        assert_eq!(give(&mut t, Given(20, 0, 0, "A", &vec![3; length])).0, 1);
    }
    for at in 0..25 {
        for code in [6, 7, 255] {
            let mut codes = [5; 25];
            codes[at] = code;
            assert_eq!(give(&mut t, Given(20, 0, 0, "A", &codes)).0, 1);
            // Bad codes come before no record.
            assert_eq!(give(&mut t, Given(20, 0, 0, "B", &codes)).0, 1);
        }
    }
    assert_eq!(give(&mut t, Given(20, 0, 0, "B", &[5; 25])).0, 2);
    assert_eq!(give(&mut t, Given(20, 0, 0, "", &[5; 25])).0, 1);
    let codes: Vec<u8> = (0..25).map(|k| k % 6).collect();
    assert_eq!(give(&mut t, Given(20, 0, 0, "A", &codes)).0, 0);
    assert_eq!(&t.carrier[0].map[..], codes);
    assert_eq!(give(&mut t, Given(20, 0, 0, "A", &codes)).0, 5);
}

#[test]
fn parts_that_a_row_does_not_name_are_ignored() {
    let long = "A".repeat(300);
    for number in 9..=15 {
        let mut t = tool(1, 1);
        let mut u = tool(1, 1);
        let answer = give(&mut t, Given(number, 1, 1, "", &[])).0;
        assert_eq!(give(&mut u, Given(number, 1, 1, &long, &[9; 300])).0, answer);
        assert_eq!(t, u);
    }
    assert_eq!(give(&mut tool(1, 1), Given(3, u32::MAX, u32::MAX, "A", &[9; 300])).0, 0);
    assert_eq!(give(&mut tool(1, 1), Given(1, 1, u32::MAX, "A", &[9; 300])).0, 0);
    assert_eq!(give(&mut tool(1, 1), Given(13, 1, u32::MAX, &long, &[9; 300])).0, 0);
}

#[test]
fn errors_that_tempt() {
    // AUTO to AUTO on a reserved port.
    let mut t = tool(1, 0);
    assert_eq!(answer(&mut t, 9, 1, 1, ""), 0);
    assert_eq!(answer(&mut t, 11, 1, 0, ""), 0);
    assert_eq!(answer(&mut t, 9, 1, 1, ""), 0);
    assert_eq!(answer(&mut t, 9, 1, 0, ""), 4);
    assert_eq!(answer(&mut t, 9, 1, 2, ""), 1);
    // The reservation isn't restored after LoadFail.
    assert_eq!(answer(&mut t, 13, 1, 0, ""), 0);
    assert_eq!(answer(&mut t, 15, 1, 0, ""), 0);
    assert_eq!((t.port[0].transfer, t.port[0].reserved), (1, 0));

    // A cancelled carrier in the buffer isn't opened, though its ID is OK.
    let mut t = tool(1, 2);
    assert_eq!(answer(&mut t, 3, 0, 0, "A"), 0);
    for (number, value, name) in [(13, 0, ""), (14, 0, ""), (16, 0, "A"), (18, 2, "")] {
        assert_eq!(answer(&mut t, number, 1, value, name), 0);
    }
    assert_eq!(answer(&mut t, 6, 1, 0, "A"), 5); // it has no port
    assert_eq!(answer(&mut t, 6, 0, 0, "A"), 0);
    assert_eq!((t.carrier[0].id, t.carrier[0].spot), (3, 2));
    assert_eq!(answer(&mut t, 19, 0, 0, "A"), 7);
    // Out, and in again: still cancelled.
    for (number, value, name) in [(7, 0, "A"), (6, 0, "A"), (8, 0, "A"), (18, 1, "")] {
        assert_eq!(answer(&mut t, number, 1, value, name), 0, "{number}");
    }
    assert_eq!(answer(&mut t, 19, 0, 0, "A"), 7);
}
