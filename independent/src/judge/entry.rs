//! Entries of a log.

use super::Refused;
use crate::rows::step_known_sound;
use crate::state::{Report, Reports, Tool, MAP_LEN};

pub(super) const SLOT_MAP: u8 = 20;

/// The bytes that are still to be read.
pub(super) struct Rest<'a>(pub(super) &'a [u8]);

impl<'a> Rest<'a> {
    #[inline]
    pub(super) fn byte(&mut self) -> Result<u8, Refused> {
        let (&byte, rest) = self.0.split_first().ok_or(Refused::CutShort)?;
        self.0 = rest;
        Ok(byte)
    }

    #[inline]
    fn bytes(&mut self, count: usize) -> Result<&'a [u8], Refused> {
        let (bytes, rest) = self.0.split_at_checked(count).ok_or(Refused::CutShort)?;
        self.0 = rest;
        Ok(bytes)
    }

    /// A length and as many bytes.
    #[inline]
    fn name(&mut self) -> Result<&'a [u8], Refused> {
        let length = self.byte()?;
        self.bytes(length as usize)
    }
}

/// An input and what the tool gave for it, as the log shows them.
pub(super) struct Entry<'a> {
    number: u8,
    port: u8,
    value: u8,
    name: &'a [u8],
    codes: &'a [u8],
    answer: u8,
    count: u8,
    /// The bytes of so many reports.
    reports: &'a [u8],
}

impl<'a> Entry<'a> {
    /// Reads an entry to its end, whatever it shows.
    #[inline]
    pub(super) fn read(rest: &mut Rest<'a>) -> Result<Entry<'a>, Refused> {
        let (number, port, value) = (rest.byte()?, rest.byte()?, rest.byte()?);
        let name = rest.name()?;
        let codes = if number == SLOT_MAP { rest.bytes(MAP_LEN)? } else { &[] };
        let (answer, count) = (rest.byte()?, rest.byte()?);
        let begin = rest.0;
        for _ in 0..count {
            Shown::read(rest)?;
        }
        let reports = &begin[..begin.len() - rest.0.len()];
        Ok(Entry { number, port, value, name, codes, answer, count, reports })
    }

    /// Gives the tool the input, and tells whether the entry shows what comes of it. The tool is one
    /// that a run reaches, and so it is sound.
    #[inline]
    pub(super) fn agrees(&self, t: &mut Tool) -> bool {
        let (number, port, value) = (self.number as u32, self.port as u32, self.value as u32);
        let mut out = Reports::NONE;
        let answer = step_known_sound(t, number, port, value, self.name, self.codes, &mut out);
        let mut shown = Rest(self.reports);
        answer == self.answer as u32
            && out.count == self.count
            && out.as_slice().iter().all(|report| Shown::read(&mut shown) == Ok(Shown::of(report)))
    }
}

/// What a report is about.
#[derive(PartialEq)]
enum Subject<'a> {
    Port(u8),
    Name(&'a [u8]),
}

/// A report as a log shows it.
#[derive(PartialEq)]
struct Shown<'a> {
    model: u8,
    subject: Subject<'a>,
    old: u8,
    new: u8,
}

impl<'a> Shown<'a> {
    /// A model outside 1 to 7 is read with a port.
    #[inline]
    fn read(rest: &mut Rest<'a>) -> Result<Shown<'a>, Refused> {
        let model = rest.byte()?;
        let subject = match model {
            5..=7 => Subject::Name(rest.name()?),
            _ => Subject::Port(rest.byte()?),
        };
        let (old, new) = (rest.byte()?, rest.byte()?);
        Ok(Shown { model, subject, old, new })
    }

    #[inline]
    fn of(report: &'a Report) -> Shown<'a> {
        let &Report { model, port, ref name, old, new } = report;
        let subject = match model {
            5..=7 => Subject::Name(name.split(|&byte| byte == 0).next().unwrap_or(name)),
            _ => Subject::Port(port),
        };
        Shown { model, subject, old, new }
    }
}
