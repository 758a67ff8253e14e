//! An entry of a log: its layout, read and written.
use crate::script::Sent;
use hawsermole::{Model, Parts, Report, Subject, SLOTS};

/// How many bytes stand before the first entry.
pub const HEAD_BYTES: usize = 7;
/// The one row that has codes in a log.
pub const SLOT_MAP: u32 = 20;

/// The mark, the version, P and B.
pub fn head(ports: u8, places: u8) -> Vec<u8> {
    [b"CMT\0\x01".as_slice(), &[ports, places]].concat()
}

/// A report of a log, whose numbers may be any.
#[derive(Debug, PartialEq, Eq)]
pub struct Told {
    pub model: u8,
    pub about: About,
    pub old: u8,
    pub new: u8,
}

/// Document 01's models are 1 to 7: no log has request P7's or P9's.
pub fn of_document_01(report: &Report) -> bool {
    report.model <= Model::Accessing
}

/// What a report of a log speaks of: a name in models 5 to 7, else a port.
#[derive(Debug, PartialEq, Eq)]
pub enum About {
    Port(u8),
    Name(Vec<u8>),
}

impl From<Report> for Told {
    fn from(report: Report) -> Told {
        let about = match report.subject {
            Subject::Port(port) => About::Port(port),
            Subject::Carrier(name) => About::Name(name.as_bytes().into()),
        };
        Told { model: report.model.number(), about, old: report.old, new: report.new }
    }
}

/// An entry as it stands in a log.
#[derive(Debug, PartialEq, Eq)]
pub struct Entry<'a> {
    pub input: Parts<'a>,
    pub answer: u8,
    pub reports: Vec<Told>,
}

/// The entry that begins some bytes. `Err` says which part the end of the bytes meets.
pub fn read(bytes: &[u8]) -> Result<Entry<'_>, String> {
    let mut left = Left(bytes);
    let number = left.byte("input number")?.into();
    let port = left.byte("port")?.into();
    let value = left.byte("second number")?.into();
    let name = left.text("")?;
    let codes = left.take(if number == SLOT_MAP { SLOTS } else { 0 }, "codes")?;
    let answer = left.byte("answer")?;
    let count = left.byte("report count")?;
    let reports = (1..=count).map(|place| report(&mut left, place)).collect::<Result<_, _>>()?;
    Ok(Entry { input: Parts { number, port, value, name, codes, ..Parts::default() }, answer, reports })
}

fn report(left: &mut Left, place: u8) -> Result<Told, String> {
    let part = |what: &str| format!("{what} of report {place}");
    let model = left.byte(&part("model"))?;
    let about = match model {
        5..=7 => About::Name(left.text(&part(""))?.into()),
        _ => About::Port(left.byte(&part("port"))?),
    };
    Ok(Told { model, about, old: left.byte(&part("old state"))?, new: left.byte(&part("new state"))? })
}

/// The bytes that are left of a log.
struct Left<'a>(&'a [u8]);

impl<'a> Left<'a> {
    fn take(&mut self, count: usize, what: &str) -> Result<&'a [u8], String> {
        let missing = || match self.0 {
            [] => format!("before the {what}"),
            some => format!("inside the {what}, after {} of {count} bytes", some.len()),
        };
        let (taken, rest) = self.0.split_at_checked(count).ok_or_else(missing)?;
        self.0 = rest;
        Ok(taken)
    }

    fn byte(&mut self, what: &str) -> Result<u8, String> {
        self.take(1, what).map(|bytes| bytes[0])
    }

    /// A name, its length before it.
    fn text(&mut self, of: &str) -> Result<&'a [u8], String> {
        let length = self.byte(&format!("name length{of}"))?;
        self.take(length.into(), &format!("name{of}"))
    }
}

/// Why a log can't hold an input.
pub fn misfit(sent: &Sent) -> Option<String> {
    let numbers = [("input number", sent.number), ("port", sent.port), ("value", sent.value)];
    if let Some((what, number)) = numbers.into_iter().find(|(_, number)| *number > 255) {
        return Some(format!("{what} {number}: a log has one byte for it"));
    }
    if (sent.clock, sent.time) != (0, 0) || !sent.wafers.is_empty() {
        return Some("clock, time or wafers: a log has none, since document 01 has no predictions".into());
    }
    let (name, codes) = (sent.name.len(), sent.codes.len());
    if name > 255 {
        return Some(format!("a name of {name} bytes: a log holds at most 255"));
    }
    match sent.number {
        SLOT_MAP if codes != SLOTS => Some(format!("{codes} codes: in a log SlotMap has {SLOTS}")),
        number if number != SLOT_MAP && codes != 0 => {
            Some("codes: a log has them with SlotMap alone, since document 01 has no expected maps".into())
        }
        _ => None,
    }
}

/// Writes an entry; the log can hold the input.
pub fn write(log: &mut Vec<u8>, sent: &Sent, answer: u8, reports: &[Report]) {
    let numbers = [sent.number, sent.port, sent.value];
    log.extend(numbers.map(|number| number as u8));
    write_text(log, &sent.name);
    log.extend(&sent.codes);
    log.extend([answer, reports.len() as u8]);
    for report in reports {
        log.push(report.model.number());
        match report.subject {
            Subject::Port(port) => log.push(port),
            Subject::Carrier(name) => write_text(log, name.as_bytes()),
        }
        log.extend([report.old, report.new]);
    }
}

fn write_text(log: &mut Vec<u8>, text: &[u8]) {
    log.push(text.len() as u8);
    log.extend(text);
}

#[cfg(test)]
mod tests {
    use super::*;
    use crate::print::Answer;
    use hawsermole::{Input, Tool, Wafer};

    fn bound() -> (Vec<u8>, Answer) {
        let given = Tool::setup(1, 0).unwrap().step(&Input::Bind { port: 1, name: b"AB" });
        let sent = Sent { number: 1, port: 1, name: b"AB".into(), ..Sent::default() };
        let mut log = Vec::new();
        let reports: Vec<Report> = given.clone().unwrap().filter(of_document_01).collect();
        write(&mut log, &sent, 0, &reports);
        (log, given)
    }

    #[test]
    fn what_is_written_is_read() {
        let (log, given) = bound();
        let on_ports = b"\x01\x01\0\x02AB\0\x05\x03\x01\0\x01\x04\x01\0\x01";
        let expected = [on_ports.as_slice(), b"\x05\x02AB\0\x01\x06\x02AB\0\x01\x07\x02AB\0\x01"].concat();
        assert_eq!(log, expected);
        let entry = read(&log).unwrap();
        assert_eq!(entry.input, Input::Bind { port: 1, name: b"AB" }.parts());
        assert_eq!(entry.answer, 0);
        let told = given.unwrap().filter(of_document_01).map(Told::from);
        assert_eq!(entry.reports, told.collect::<Vec<_>>());
    }

    #[test]
    fn the_part_that_is_missing_is_named() {
        let (log, _) = bound();
        let missing = |length: usize| read(&log[..length]).unwrap_err();
        assert_eq!(missing(0), "before the input number");
        assert_eq!(missing(3), "before the name length");
        assert_eq!(missing(5), "inside the name, after 1 of 2 bytes");
        assert_eq!(missing(6), "before the answer");
        assert_eq!(missing(8), "before the model of report 1");
        assert_eq!(missing(log.len() - 1), "before the new state of report 5");
        assert!((0..log.len()).all(|length| read(&log[..length]).is_err()));
    }

    #[test]
    fn inputs_that_no_log_holds() {
        let sent = |number, port, name: &[u8], codes: &[u8]| Sent {
            number,
            port,
            name: name.into(),
            codes: codes.into(),
            ..Sent::default()
        };
        assert_eq!(misfit(&sent(27, 255, &[b'A'; 255], b"")), None);
        assert_eq!(misfit(&sent(20, 0, b"A", &[3; 25])), None);
        assert_eq!(misfit(&sent(13, 256, b"", b"")).unwrap(), "port 256: a log has one byte for it");
        assert_eq!(misfit(&sent(256, 0, b"", b"")).unwrap(), "input number 256: a log has one byte for it");
        let long = misfit(&sent(19, 0, &[b'A'; 256], b"")).unwrap();
        assert_eq!(long, "a name of 256 bytes: a log holds at most 255");
        assert_eq!(misfit(&sent(20, 0, b"A", &[3; 24])).unwrap(), "24 codes: in a log SlotMap has 25");
        let wafer = Wafer { process: 0.0, handling: 0.0 };
        for (clock, time, wafers) in [(1, 0, vec![]), (0, 1, vec![]), (0, 0, vec![wafer])] {
            let timed = misfit(&Sent { clock, time, wafers, ..sent(31, 0, b"", b"") }).unwrap();
            assert!(timed.starts_with("clock, time or wafers: a log has none"), "{timed}");
        }
        assert!(misfit(&sent(1, 1, b"A", &[3; 25]))
            .unwrap()
            .starts_with("codes: a log has them with SlotMap alone"));
    }
}
