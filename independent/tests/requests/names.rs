//! P4: blanks at the end of a name are dropped, and every row that takes a name gets what is left.

use super::*;
use independent::gen::requests::{random_run_input, random_sound_tool, random_text};
use independent::gen::{Input, Rng};
use independent::requests::names::{name_of, read, takes_name, NoName};

use crate::plain::{plain_name, same, NAMED};

fn blanks(length: usize) -> Vec<u8> {
    vec![b' '; length]
}

/// The name with blanks after it, so many bytes in all.
fn pad(name: &str, length: usize) -> Vec<u8> {
    let mut text = name.as_bytes().to_vec();
    text.resize(length, b' ');
    text
}

/// What an input gives whose name is any text: answer, state and reports.
fn outcome(t: &Tool, i: &Input) -> (u32, Tool, Reports) {
    let (mut after, mut out) = (*t, Reports { count: 200, ..Reports::NONE });
    let answer = step_input(&mut after, i, &mut out);
    assert!(answer == 0 || same(&after, t) && out == Reports::NONE);
    (answer, after, out)
}

fn input(number: u32, port: u32, name: &[u8]) -> Input {
    let codes = if number == 20 { THREES.to_vec() } else { Vec::new() };
    Input { number, port, name: name.to_vec(), codes, ..Input::default() }
}

fn answered(t: &Tool, number: u32, port: u32, name: &[u8]) -> u32 {
    outcome(t, &input(number, port, name)).0
}

const SIXTEEN: &str = "ABCDEFGHIJKLMNOP";

#[test]
fn blanks_at_the_end_are_dropped() {
    for name in ["A", "~", "!", "AB", "A'B", SIXTEEN] {
        for length in name.len()..=32 {
            assert_eq!(read(&pad(name, length)), Ok(name.as_bytes()));
        }
    }
}

#[test]
fn more_than_32_bytes_are_judged_before_blanks_are_dropped() {
    for length in [33, 34, 40, 256 + 2, 300, 65_538] {
        assert_eq!(read(&pad("AB", length)), Err(NoName::TooLong));
        assert_eq!(read(&blanks(length)), Err(NoName::TooLong));
        assert_eq!(read(&vec![b'A'; length]), Err(NoName::TooLong));
    }
}

#[test]
fn a_blank_elsewhere() {
    for text in [" A", "A B", "  A", "A  B", " A ", "A B ", "ABCDEFGHIJKLMNO P", " ABCDEFGHIJKLMNOP"] {
        assert_eq!(read(text.as_bytes()), Err(NoName::BlankElsewhere));
    }
    // At each place of a name but the last.
    for at in 0..15 {
        let mut text = SIXTEEN.as_bytes().to_vec();
        text[at] = b' ';
        assert_eq!(read(&text), Err(NoName::BlankElsewhere));
    }
}

#[test]
fn nothing_left() {
    for length in 0..=32 {
        assert_eq!(read(&blanks(length)), Err(NoName::NothingLeft));
    }
}

#[test]
fn sixteen_left_and_seventeen() {
    for length in 16..=32 {
        assert_eq!(read(&pad(SIXTEEN, length)), Ok(SIXTEEN.as_bytes()));
    }
    for left in 17..=32 {
        for length in left..=32 {
            assert_eq!(read(&pad(&"A".repeat(left), length)), Err(NoName::TooMuchLeft));
        }
    }
}

/// Only 0x20 is a blank: nothing else is dropped, and nothing else but 0x21 to 0x7E is in a name.
#[test]
fn every_byte() {
    for byte in 0..=255 {
        let good = (0x21..=0x7E).contains(&byte);
        for at in 0..4 {
            let mut text = *b"ABCD    ";
            text[at] = byte;
            let expected = match byte {
                0x20 if at == 3 => Ok(&text[..3]),
                0x20 => Err(NoName::BlankElsewhere),
                _ if good => Ok(&text[..4]),
                _ => Err(NoName::OtherByte),
            };
            assert_eq!(read(&text), expected);
        }
        // At the end, and after blanks.
        let ends = [b'A', byte];
        assert_eq!(
            name_of(&ends),
            if good { Some(&ends[..]) } else { Some(&b"A"[..]).filter(|_| byte == 0x20) }
        );
        assert_eq!(name_of(&[b'A', b' ', byte]), Some(&b"A"[..]).filter(|_| byte == 0x20));
    }
}

#[test]
fn every_short_text_and_many_others() {
    const FEW: [u8; 8] = [0, 9, 0x20, 0x21, b'A', 0x7E, 0x7F, 0xFF];
    let mut texts: Vec<Vec<u8>> = vec![Vec::new()];
    let mut from = 0;
    for _ in 0..4 {
        let to = texts.len();
        for k in from..to {
            texts.extend(FEW.map(|byte| [&texts[k][..], &[byte]].concat()));
        }
        from = to;
    }
    assert_eq!(texts.len(), 1 + 8 + 64 + 512 + 4096);
    let mut rng = Rng::new(14);
    texts.extend((0..300_000).map(|_| random_text(&mut rng)));
    let mut names = 0;
    for text in &texts {
        let name = name_of(text);
        assert_eq!(name.map(<[u8]>::to_vec), plain_name(text), "{text:?}");
        names += name.is_some() as u32;
    }
    println!("{names} of {} texts have a name", texts.len());
    assert!(names > 30_000);
}

/// In record, comparison and report.
#[test]
fn the_shortened_name_is_used_throughout() {
    for length in [3, 16, 17, 32] {
        let mut t = tool(1, 0);
        let padded = String::from_utf8(pad("AB", length)).unwrap();
        assert_eq!(accept(&mut t, 3, 0, 0, &padded), "5 AB 0>1; 6 AB 0>1; 7 AB 0>1; 8 AB 0>2");
        assert_eq!(record(&t, "AB").name, *b"AB\0\0\0\0\0\0\0\0\0\0\0\0\0\0");
        for name in ["AB", "AB ", &padded] {
            assert_eq!(answer(&t, 3, 0, name, &[]), 3);
            assert_eq!(answer(&t, 1, 1, name, &[]), 3);
            assert_eq!(answer(&t, 4, 0, name, &[]), 0);
        }
        // Another name, of which this is the beginning.
        assert_eq!(answer(&t, 4, 0, "ABC", &[]), 2);
        assert_eq!(answer(&t, 4, 0, "A", &[]), 2);
        assert_eq!(accept(&mut t, 4, 0, 0, &padded), "5 AB 1>0; 6 AB 1>0; 7 AB 1>0; 8 AB 2>0");
        assert_eq!(t, tool(1, 0));
    }
}

/// The reader that pads gives the name that was bound: a matching read. And another's is another's.
#[test]
fn a_padded_tag_matches() {
    let mut t = tool(2, 0);
    accept(&mut t, 1, 1, 0, "AB");
    accept(&mut t, 1, 2, 0, "AC              ");
    load(&mut t, 1);
    load(&mut t, 2);
    assert_eq!(answer(&t, 16, 1, "AC  ", &[]), 3);
    assert_eq!(accept(&mut t, 16, 1, 0, "AB                              "), "5 AB 1>3");
    assert_eq!(accept(&mut t, 16, 2, 0, "AC"), "5 AC 1>3");
}

/// A bound carrier of each place for each row: what the row answers to its name, padded or not.
#[test]
fn rows_that_take_a_name() {
    let named: Vec<u32> = (0..=40).filter(|&number| takes_name(number)).collect();
    assert_eq!(named, NAMED);
    let mut t = tool(2, 1);
    accept(&mut t, 1, 1, 0, "A");
    let bad = [
        blanks(1),
        blanks(16),
        blanks(32),
        pad("A", 33),
        pad("A", 256 + 1),
        b" A".to_vec(),
        b"A A".to_vec(),
        b"A\0".to_vec(),
        b"A \0".to_vec(),
        b"A\0 ".to_vec(),
        b"A\x7F ".to_vec(),
        b"A\t".to_vec(),
        pad("ABCDEFGHIJKLMNOPQ", 17),
        pad("ABCDEFGHIJKLMNOPQ", 20),
    ];
    for number in NAMED {
        let port = if matches!(number, 7 | 16) { 2 } else { 1 };
        let plain = answered(&t, number, port, b"A");
        assert_ne!(plain, 1, "row {number}");
        for length in 2..=32 {
            assert_eq!(answered(&t, number, port, &pad("A", length)), plain, "row {number}");
        }
        for text in &bad {
            assert_eq!(answered(&t, number, port, text), 1, "row {number}: {text:?}");
        }
    }
}

/// Only a length of zero is a missing name, and only in row 2.
#[test]
fn a_missing_name() {
    let mut t = tool(1, 0);
    accept(&mut t, 1, 1, 0, "A");
    for (port, name, number) in [
        (1, &b""[..], 0),
        (0, b"", 1),
        (1, b" ", 1),
        (0, b" ", 1),
        (1, &[b' '; 16], 1),
        (1, &[b' '; 32], 1),
        (1, &[b' '; 33], 1),
        (1, b"A ", 0),
        (0, b"A ", 0),
        (1, b"B ", 2),
        (1, b"\0", 1),
    ] {
        assert_eq!(answered(&t, 2, port, name), number, "{port} {name:?}");
    }
    for number in NAMED.into_iter().filter(|&number| number != 2) {
        assert_eq!(answered(&t, number, 1, b""), 1, "row {number}");
    }
}

/// 1 comes before everything else that a row is refused for.
#[test]
fn a_bad_name_is_refused_first() {
    let mut t = tool(2, 0);
    accept(&mut t, 1, 1, 0, "A");
    assert_eq!((answered(&t, 1, 1, b"A "), answered(&t, 1, 1, b"B ")), (3, 4));
    accept(&mut t, 13, 2, 0, "");
    assert_eq!((answered(&t, 1, 2, b"B "), answered(&t, 1, 2, b" B")), (5, 1));
    for k in 1..16 {
        accept(&mut t, 3, 0, 0, &format!("C{k} "));
    }
    assert_eq!((answered(&t, 3, 0, b"B "), answered(&t, 3, 0, b"B B")), (6, 1));
    assert_eq!(answered(&t, 1, 1, &blanks(3)), 1);
    assert_eq!((answered(&t, 4, 0, b"B "), answered(&t, 4, 0, &pad("B", 33))), (2, 1));
}

/// However bad the text: a row that takes no name doesn't look at it.
#[test]
fn rows_that_take_no_name() {
    let mut rng = Rng::new(15);
    let mut met = [[0; 2]; 32];
    for _ in 0..60_000 {
        let t = random_sound_tool(&mut rng);
        let i = random_run_input(&t, &mut rng);
        if NAMED.contains(&i.number) || !(1..=31).contains(&i.number) {
            continue;
        }
        let plain = outcome(&t, &Input { name: Vec::new(), ..i.clone() });
        assert_eq!(outcome(&t, &Input { name: random_text(&mut rng), ..i.clone() }), plain);
        assert_eq!(outcome(&t, &Input { name: blanks(33), ..i.clone() }), plain);
        met[i.number as usize][(plain.0 == 0) as usize] += 1;
    }
    println!("{met:?}");
    for number in (1..=31).filter(|number| !NAMED.contains(number)) {
        // Row 30 is never refused.
        let wanted = if number == 30 { 1.. } else { 0.. };
        assert!(met[number as usize][wanted].iter().all(|&met| met > 5), "row {number}: {met:?}");
    }
}

/// A name with blanks and the same without them are the same input, along runs and from states.
#[test]
fn padded_and_plain_are_the_same_input() {
    let mut rng = Rng::new(16);
    let mut compared = 0;
    let mut alike = |t: &Tool, rng: &mut Rng| {
        let i = random_run_input(t, rng);
        let o = outcome(t, &i);
        if let Some(name) = name_of(&i.name) {
            let plain = Input { name: name.to_vec(), ..i.clone() };
            let longer = name.len() + rng.below(33 - name.len() as u32) as usize;
            let padded = Input { name: pad(core::str::from_utf8(name).unwrap(), longer), ..i.clone() };
            assert_eq!(outcome(t, &plain), o, "{i:?}");
            assert_eq!(outcome(t, &padded), o, "{i:?}");
            compared += 1;
        }
        o.1
    };
    for (p, b) in [(1, 0), (4, 0), (2, 3), (4, 16)] {
        let mut t = tool(p, b);
        for _ in 0..10_000 {
            t = alike(&t, &mut rng);
        }
    }
    for _ in 0..20_000 {
        alike(&random_sound_tool(&mut rng), &mut rng);
    }
    assert!(compared > 20_000, "{compared}");
}

/// Document 01's own tool, by which logs are judged, knows no padding.
#[test]
fn document_01_is_as_it_was() {
    let mut t = tool(1, 0).base;
    let mut out = Reports::NONE;
    for name in [&b"A "[..], b" ", b"A               "] {
        assert_eq!(independent::step(&mut t, 3, 0, 0, name, &[], &mut out), 1);
        assert_eq!(independent::step(&mut t, 2, 1, 0, name, &[], &mut out), 1);
    }
    assert_eq!(independent::step(&mut t, 3, 0, 0, b"A", &[], &mut out), 0);
}
