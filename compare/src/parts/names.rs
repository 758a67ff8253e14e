//! P4: names padded with blanks. The edges, with the answers that P4 gives; and the name check by itself, text by text.

use independent::gen::requests::random_text;
use independent::gen::Rng;

use super::{at, input, named, LONGEST, SHORTEST, TOO_LONG};
use crate::laws::{has_name, shortened};
use crate::machine::Both;
use crate::play::{Finding, Player, Tally};

/// Blanks, and bytes beside the limits of what a name may have.
const FEW: [u8; 12] = [0, 9, 0x1F, 0x20, 0x21, b'A', b'B', 0x7E, 0x7F, 0x80, 0xA0, 0xFF];

/// How many texts were compared, and how many of them have a name.
#[derive(Clone, Copy, Default)]
pub struct Texts {
    pub compared: u64,
    pub names: u64,
}

pub fn compare(both: &Both) -> Result<Tally, Finding> {
    let mut tally = Tally::default();
    every_length(both, &mut tally)?;
    bad_texts(both, &mut tally)?;
    missing(both, &mut tally)?;
    not_looked_at(both, &mut tally)?;
    kept_without_blanks(both, &mut tally)?;
    read_with_blanks(both, &mut tally)?;
    Ok(tally)
}

fn padded(name: &[u8], length: usize) -> Vec<u8> {
    let mut text = name.to_vec();
    text.resize(length, b' ');
    text
}

/// Names of 1, 16 and 17 bytes with blanks up to 40 bytes and more.
fn every_length(both: &Both, tally: &mut Tally) -> Result<(), Finding> {
    let mut player = Player::begin(both, tally, 1, 0)?;
    for (name, good) in [(SHORTEST, true), (LONGEST, true), (TOO_LONG, false)] {
        for length in (name.len()..=40).chain([256, 257, 272, 300, 65_536 + 2]) {
            let answer = !(good && length <= 32) as u32;
            player.expect_look(&named(3, &padded(name, length)), answer)?;
        }
    }
    Ok(())
}

/// Texts that have no name in them, in every row that takes one.
fn bad_texts(both: &Both, tally: &mut Tally) -> Result<(), Finding> {
    let mut player = Player::begin(both, tally, 2, 1)?;
    player.expect(input(1, 1, 0, b"A", b""), 0)?;
    let texts = [
        &b" "[..],
        b" A",
        b"A A",
        b"A\0",
        b"A \0",
        b"\0",
        b"A\x7F ",
        b"A\t",
        b"\xA0A ",
        &[b' '; 16],
        &[b' '; 32],
    ];
    for row in [1, 2, 3, 4, 5, 6, 7, 8, 16, 19, 20, 21, 22, 23, 29] {
        for text in texts.into_iter().chain([&padded(b"A", 33)[..], &padded(TOO_LONG, 20)]) {
            player.expect_look(&input(row, 1, 0, text, &[3; 25]), 1)?;
        }
    }
    Ok(())
}

/// Row 2: a name is missing only where its length is zero.
fn missing(both: &Both, tally: &mut Tally) -> Result<(), Finding> {
    let mut player = Player::begin(both, tally, 2, 0)?;
    player.expect(input(1, 1, 0, b"A", b""), 0)?;
    for (port, name, answer) in
        [(1, &b""[..], 0), (0, b"", 1), (1, b"A ", 0), (0, b"A  ", 0), (2, b"A ", 5), (1, b"B ", 2)]
    {
        player.expect_look(&input(2, port, 0, name, b""), answer)?;
    }
    for port in 0..=2 {
        for length in 1..=34 {
            player.expect_look(&input(2, port, 0, &padded(b"", length), b""), 1)?;
        }
    }
    Ok(())
}

/// A row that takes no name doesn't look at it, however bad. With a value of 1 a start is automatic, and refused in MANUAL.
fn not_looked_at(both: &Both, tally: &mut Tally) -> Result<(), Finding> {
    let mut player = Player::begin(both, tally, 1, 1)?;
    let rows = [
        (9, 0),
        (10, 0),
        (11, 0),
        (12, 5),
        (13, 13),
        (14, 5),
        (15, 5),
        (17, 5),
        (18, 5),
        (24, 5),
        (25, 5),
        (26, 5),
        (27, 5),
        (28, 5),
        (30, 0),
        (31, 0),
        (36, 5),
    ];
    for (row, answer) in rows {
        for text in [&b""[..], b"A ", b" ", b"A B", b"\0", &[b' '; 33], &[0xFF; 300]] {
            player.expect_look(&input(row, 1, 1, text, b""), answer)?;
        }
    }
    Ok(())
}

/// In record, comparison and report stands the name without its blanks.
fn kept_without_blanks(both: &Both, tally: &mut Tally) -> Result<(), Finding> {
    for length in [2, 16, 17, 32] {
        let mut player = Player::begin(both, tally, 1, 0)?;
        let text = padded(b"A", length);
        player.expect_reports(&named(3, &text), "5 A 0>1; 6 A 0>1; 7 A 0>1; 8 A 0>2")?;
        player.expect(named(3, &text), 0)?;
        let kept = player.tool.base.carrier[0].name;
        player.demand(kept == *b"A\0\0\0\0\0\0\0\0\0\0\0\0\0\0\0", || {
            "a name is kept without its blanks".into()
        })?;
        player.expect(named(3, b"A"), 3)?;
        player.expect(input(1, 1, 0, b"A   ", b""), 3)?;
        player.expect(named(4, b"A "), 0)?;
        player.expect(named(4, b"A"), 2)?;
    }
    Ok(())
}

/// A reader that pads gives the name that was bound.
fn read_with_blanks(both: &Both, tally: &mut Tally) -> Result<(), Finding> {
    let mut player = Player::begin(both, tally, 1, 0)?;
    for input in [input(1, 1, 0, b"A", b""), at(13, 1), at(14, 1)] {
        player.expect(input, 0)?;
    }
    player.expect_reports(&input(16, 1, 0, &padded(b"A", 32), b""), "5 A 1>3")?;
    player.expect_reports(&input(16, 1, 0, &padded(b"A", 16), b""), "5 A 1>3")?;
    Ok(())
}

/// The name check by itself: all texts of 0 to 3 bytes of a few values, and `total` random ones of 0 to 40 bytes.
pub fn texts(both: &Both, total: u64, rng: &mut Rng) -> Result<Texts, Finding> {
    let mut texts = Texts::default();
    for text in short_texts() {
        one(both, &mut texts, &text)?;
    }
    for _ in 0..total {
        one(both, &mut texts, &random_text(rng))?;
    }
    Ok(texts)
}

fn short_texts() -> Vec<Vec<u8>> {
    let mut all = vec![Vec::new()];
    let mut from = 0;
    for _ in 0..3 {
        let to = all.len();
        for k in from..to {
            all.extend(FEW.map(|byte| [&all[k][..], &[byte]].concat()));
        }
        from = to;
    }
    all
}

fn one(both: &Both, texts: &mut Texts, text: &[u8]) -> Result<(), Finding> {
    let Some(length) = both.name(text) else { return Err(Finding::Name(text.to_vec())) };
    let expected = if has_name(text) { shortened(text).len() as u32 } else { 0 };
    if length != expected {
        let why = format!("{expected} bytes of the text are its name, not {length}");
        return Err(Finding::NameLaw(text.to_vec(), why));
    }
    texts.compared += 1;
    texts.names += (length > 0) as u64;
    Ok(())
}

#[cfg(test)]
mod tests {
    use super::*;

    #[test]
    fn every_short_text_once() {
        let all = short_texts();
        let set: std::collections::BTreeSet<_> = all.iter().collect();
        assert_eq!((all.len(), set.len()), (1 + 12 + 144 + 1728, all.len()));
    }
}
