//! Words of a line and what they stand for: numbers, who starts, names, codes, wafers. Nothing is cut and nothing is
//! guessed.
use hawsermole::states::Start;
use hawsermole::Wafer;

const NUMBER: &str = "a number from 0 to 4294967295";
/// The most bytes of room that a line can ask for.
const ROOM_MOST: u32 = 65_536;
const HEX: &str = "pairs of hex digits, or - for none";
/// No name, no codes.
pub const NONE: &[u8] = b"-";
/// What the codes of a slot map may be written as.
pub const CODES: &str = "25 digits, one for each slot, or pairs of hex digits, or - for none";

/// What who starts may be written as.
pub const START: &str = "manual or automatic, or a number from 0 to 4294967295";

const WHOLE_WAFERS: &str = "whole wafers of 32 hex digits each, or - for none";
/// What a wafer is written as.
pub const WAFER: &str = "PROCESS+HANDLING, both in decimal seconds, such as 90.5+12.25";

/// The words of a line, apart by spaces or tabs.
pub struct Words<'a> {
    rest: &'a [u8],
}

impl<'a> Words<'a> {
    /// The words of a line with or without its end.
    pub fn of(line: &'a [u8]) -> Words<'a> {
        let line = line.strip_suffix(b"\n").unwrap_or(line);
        Words { rest: line.strip_suffix(b"\r").unwrap_or(line) }
    }

    /// The next word, which must be there: `what` and `usage` are for the message.
    pub fn argument(&mut self, what: &str, usage: &str) -> Result<&'a [u8], String> {
        self.next().ok_or_else(|| missing(what, usage))
    }

    /// Nothing is left.
    pub fn end(&mut self, usage: &str) -> Result<(), String> {
        match self.next() {
            None => Ok(()),
            Some(word) => Err(format!("'{}' is one word too many: expected {usage}", shown(word))),
        }
    }
}

impl<'a> Iterator for Words<'a> {
    type Item = &'a [u8];

    fn next(&mut self) -> Option<&'a [u8]> {
        let gap = |byte: &u8| matches!(byte, b' ' | b'\t');
        let start = self.rest.iter().position(|byte| !gap(byte))?;
        let from = &self.rest[start..];
        let (word, rest) = from.split_at(from.iter().position(gap).unwrap_or(from.len()));
        self.rest = rest;
        Some(word)
    }
}

/// The message for a word that isn't there.
pub fn missing(what: &str, usage: &str) -> String {
    format!("{what} missing: expected {usage}")
}

/// The most characters of a word that a message shows.
const SHOWN: usize = 60;
/// The most characters of an input or an item that an explanation shows: a row with a name of 32 bytes has fewer.
const TOLD: usize = 180;

/// A word as it can be shown in a message: the beginning of a long one, and how long it is.
pub fn shown(word: &[u8]) -> String {
    let text: String = word.escape_ascii().map(char::from).take(SHOWN + 1).collect();
    match text.len() > SHOWN {
        true => format!("{}.. ({} bytes)", &text[..SHOWN], word.len()),
        false => text,
    }
}

/// An input or an item as it is told: the beginning of a long one. All of it is ASCII.
pub fn cut(input: &str) -> String {
    match input.get(..TOLD) {
        Some(beginning) if input.len() > TOLD => format!("{beginning}.."),
        _ => input.into(),
    }
}

fn wrong(what: &str, word: &[u8], expected: &str) -> String {
    format!("{what}: '{}' is not {expected}", shown(word))
}

/// Decimal digits alone: no sign, no other base.
pub fn number(what: &str, word: &[u8]) -> Result<u32, String> {
    let digits = word.iter().all(u8::is_ascii_digit).then_some(word);
    let text = digits.and_then(|digits| std::str::from_utf8(digits).ok());
    text.and_then(|text| text.parse().ok()).ok_or_else(|| wrong(what, word, NUMBER))
}

/// Who starts, by the word or the number.
pub fn start(what: &str, word: &[u8]) -> Result<u32, String> {
    let named = Start::ALL.iter().find(|start| start.word().as_bytes() == word);
    match named {
        Some(start) => Ok(start.number().into()),
        None => number(what, word).map_err(|_| wrong(what, word, START)),
    }
}

/// How many bytes of room to lend.
pub fn room(what: &str, word: &[u8]) -> Result<usize, String> {
    let bytes = number(what, word).ok().filter(|&bytes| bytes <= ROOM_MOST);
    bytes
        .map(|bytes| bytes as usize)
        .ok_or_else(|| wrong(what, word, &format!("a number from 0 to {ROOM_MOST}")))
}

/// Bytes in hex, `-` for none.
pub fn hex(what: &str, word: &[u8]) -> Result<Vec<u8>, String> {
    hex_bytes(word).ok_or_else(|| wrong(what, word, HEX))
}

fn hex_bytes(word: &[u8]) -> Option<Vec<u8>> {
    match word {
        NONE => Some(Vec::new()),
        _ if !word.len().is_multiple_of(2) => None,
        _ => word.chunks(2).map(|pair| Some(hex_digit(pair[0])? << 4 | hex_digit(pair[1])?)).collect(),
    }
}

fn hex_digit(digit: u8) -> Option<u8> {
    char::from(digit).to_digit(16).map(|value| value as u8)
}

/// A name as text: any bytes, `-` for none.
pub fn text(word: &[u8]) -> Vec<u8> {
    match word {
        NONE => Vec::new(),
        _ => word.to_vec(),
    }
}

/// The codes of a slot map or of an expected map. 25 is odd, so that single digits are never taken for pairs of
/// hex digits.
pub fn codes(what: &str, word: &[u8]) -> Result<Vec<u8>, String> {
    let single = word.len() == hawsermole::SLOTS && word.iter().all(u8::is_ascii_digit);
    match single {
        true => Ok(word.iter().map(|digit| digit - b'0').collect()),
        false => hex_bytes(word).ok_or_else(|| wrong(what, word, CODES)),
    }
}

/// Wafers in hex: 16 bytes each, process and then handling, the bits of each time with the high byte first.
pub fn wafers(what: &str, word: &[u8]) -> Result<Vec<Wafer>, String> {
    let bytes = hex_bytes(word).filter(|bytes| bytes.len().is_multiple_of(16));
    let bytes = bytes.ok_or_else(|| wrong(what, word, WHOLE_WAFERS))?;
    let time = |bytes: &[u8]| f64::from_be_bytes(bytes.try_into().expect("eight bytes"));
    let wafer = |bytes: &[u8]| Wafer { process: time(&bytes[..8]), handling: time(&bytes[8..]) };
    Ok(bytes.chunks_exact(16).map(wafer).collect())
}

/// A wafer by its times: `90.5+12.25`. A decimal is taken for the f64 that is nearest to it.
pub fn wafer(what: &str, word: &[u8]) -> Result<Wafer, String> {
    let plus = word.iter().position(|&byte| byte == b'+');
    let times = plus.and_then(|plus| {
        let (process, handling) = (seconds(&word[..plus])?, seconds(&word[plus + 1..])?);
        Some(Wafer { process, handling })
    });
    times.ok_or_else(|| wrong(what, word, WAFER))
}

/// Decimal digits with a point among them, or none, and a minus sign before them, or none.
fn seconds(word: &[u8]) -> Option<f64> {
    let digits = |part: &[u8]| !part.is_empty() && part.iter().all(u8::is_ascii_digit);
    let unsigned = word.strip_prefix(b"-").unwrap_or(word);
    let decimal = match unsigned.iter().position(|&byte| byte == b'.') {
        Some(point) => digits(&unsigned[..point]) && digits(&unsigned[point + 1..]),
        None => digits(unsigned),
    };
    let text = std::str::from_utf8(word).ok().filter(|_| decimal)?;
    text.parse().ok()
}

#[cfg(test)]
mod tests {
    use super::*;

    fn words(line: &[u8]) -> Vec<&[u8]> {
        Words::of(line).collect()
    }

    #[test]
    fn words_are_apart_by_spaces_or_tabs() {
        assert_eq!(words(b"Bind 1 AB\n"), [&b"Bind"[..], b"1", b"AB"]);
        assert_eq!(words(b" \t Bind\t\t1  AB \t\r\n"), [&b"Bind"[..], b"1", b"AB"]);
        assert!(words(b"").is_empty() && words(b" \t\r\n").is_empty());
    }

    /// One carriage return at the end of the line is part of its end; any other belongs to a word.
    #[test]
    fn carriage_returns() {
        assert_eq!(words(b"A\r"), [b"A"]);
        assert_eq!(words(b"A\r\r\n"), [b"A\r"]);
        assert_eq!(words(b"A\rB\n"), [b"A\rB"]);
    }

    #[test]
    fn long_words_are_shown_in_part() {
        assert_eq!(shown(&[b'A'; 60]), "A".repeat(60));
        assert_eq!(shown(&[b'A'; 61]), format!("{}.. (61 bytes)", "A".repeat(60)));
        assert_eq!(shown(&[0xff; 3_000_000]), format!("{}.. (3000000 bytes)", "\\xff".repeat(15)));
        assert_eq!((cut(&"A".repeat(180)), cut(&"A".repeat(181))), ("A".repeat(180), "A".repeat(180) + ".."));
    }

    #[test]
    fn numbers_are_decimal_and_not_cut() {
        assert_eq!(number("n", b"0"), Ok(0));
        assert_eq!(number("n", b"007"), Ok(7));
        assert_eq!(number("n", b"4294967295"), Ok(u32::MAX));
        for odd in ["4294967296", "99999999999999999999", "-1", "+1", "0x1", "1.0", "1_0", "", "a", "-"] {
            let message = format!("n: '{odd}' is not a number from 0 to 4294967295");
            assert_eq!(number("n", odd.as_bytes()), Err(message));
        }
        assert_eq!(number("n", b"\xff"), Err("n: '\\xff' is not a number from 0 to 4294967295".into()));
    }

    #[test]
    fn who_starts_is_a_word_or_a_number() {
        let read = |word: &str| start("start", word.as_bytes());
        assert_eq!((read("manual"), read("automatic")), (Ok(0), Ok(1)));
        assert_eq!((read("0"), read("1"), read("4294967295")), (Ok(0), Ok(1), Ok(u32::MAX)));
        for odd in ["Manual", "auto", "AUTO", "hand", "-", "4294967296", ""] {
            let message =
                format!("start: '{odd}' is not manual or automatic, or a number from 0 to 4294967295");
            assert_eq!(read(odd), Err(message));
        }
    }

    #[test]
    fn rooms_have_a_limit() {
        assert_eq!((room("room", b"0"), room("room", b"65536")), (Ok(0), Ok(65_536)));
        for odd in ["65537", "4294967296", "-1", "ten", ""] {
            let message = format!("room: '{odd}' is not a number from 0 to 65536");
            assert_eq!(room("room", odd.as_bytes()), Err(message));
        }
    }

    #[test]
    fn hex_is_pairs_of_either_case() {
        assert_eq!(hex("name", b"4142aBFf00"), Ok(vec![0x41, 0x42, 0xab, 0xff, 0]));
        assert_eq!(hex("name", b"-"), Ok(vec![]));
        for odd in ["4", "414", "4g", "--", "0x41", "+1", "é"] {
            assert!(hex("name", odd.as_bytes()).unwrap_err().starts_with("name: '"), "{odd}");
        }
    }

    #[test]
    fn names_are_any_bytes() {
        assert_eq!(text(b"-"), b"");
        assert_eq!(text(b"--"), b"--");
        assert_eq!(text(b"\xff\x01"), b"\xff\x01");
        assert_eq!(text(&[b'A'; 300]), [b'A'; 300]);
    }

    #[test]
    fn codes_are_25_digits_or_hex() {
        assert_eq!(codes("codes", b"0123450123450123450123459").unwrap()[..7], [0, 1, 2, 3, 4, 5, 0]);
        assert_eq!(codes("codes", &[b'9'; 25]), Ok(vec![9; 25]));
        assert_eq!(codes("codes", &[b'3'; 24]), Ok(vec![0x33; 12]));
        assert_eq!(codes("codes", b"0305"), Ok(vec![3, 5]));
        assert_eq!(codes("codes", b"-"), Ok(vec![]));
        for odd in [&[b'3'; 23][..], &[b'a'; 25], b"3,3,3"] {
            assert!(codes("codes", odd).is_err());
        }
    }

    #[test]
    fn wafers_in_hex() {
        let one = b"4056a000000000004028800000000000";
        assert_eq!(wafers("wafers", one), Ok(vec![Wafer { process: 90.5, handling: 12.25 }]));
        let two = [one.as_slice(), b"80000000000000007FF8000000000000"].concat();
        let odd = Wafer { process: -0.0, handling: f64::NAN };
        assert_eq!(wafers("wafers", &two).unwrap()[1], odd);
        assert_eq!(wafers("wafers", b"-"), Ok(vec![]));
        assert_eq!(wafers("wafers", &b"00".repeat(16 * 26)).unwrap().len(), 26);
        for odd in ["0", "00", "4056a00000000000", "4056a0000000000040288000000000000", "--"] {
            let message = format!("wafers: '{odd}' is not whole wafers of 32 hex digits each, or - for none");
            assert_eq!(wafers("wafers", odd.as_bytes()), Err(message));
        }
        assert!(wafers("wafers", &one[..31]).is_err() && wafers("wafers", &[b'g'; 32]).is_err());
    }

    #[test]
    fn wafers_by_their_times() {
        let read = |word: &str| wafer("wafer", word.as_bytes());
        assert_eq!(read("90.5+12.25"), Ok(Wafer { process: 90.5, handling: 12.25 }));
        assert_eq!(read("007+0"), Ok(Wafer { process: 7.0, handling: 0.0 }));
        assert_eq!(read("-0+-1.5"), Ok(Wafer { process: -0.0, handling: -1.5 }));
        assert_eq!(read("0.1+1048576"), Ok(Wafer { process: 0.1, handling: 1_048_576.0 }));
        assert!(read(&format!("{}+0", "9".repeat(400))).unwrap().process.is_infinite());
        for odd in [
            "90.5", "+", "1+", "+1", "1++1", "1+2+3", "1.+1", ".5+1", "1e3+1", "NaN+1", "inf+0", "1,5+1", "-",
        ] {
            let message = format!(
                "wafer: '{odd}' is not PROCESS+HANDLING, both in decimal seconds, such as 90.5+12.25"
            );
            assert_eq!(read(odd), Err(message));
        }
    }
}
