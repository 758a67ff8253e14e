//! Judges of logs that are wrong on purpose, about P14.

use super::*;
use crate::parts::judge::{self, Judges, Logs, Said};
use independent::gen::unpadded;
use independent::Tool as Base;

type Step = fn(&mut Base, &Input, &mut Reports) -> u32;

/// A judge that does as P14 says, but for what it does otherwise.
#[derive(Clone, Copy)]
struct Sloppy {
    /// Whether mark and version may begin so.
    begins: fn(&[u8]) -> bool,
    /// B is read before P is judged.
    set_up_at_once: bool,
    /// Rows that have codes, and models that have a name.
    has_codes: fn(u8) -> bool,
    has_name: fn(u8) -> bool,
    /// An entry is judged as soon as its answer is there.
    before_its_end: bool,
    /// The log is read to its end, also behind an entry that disagrees.
    reads_on: bool,
    /// What the count of reports is taken for, and how many of them are compared.
    count: fn(u8) -> u8,
    most: usize,
    /// What a report's name is taken for.
    name: fn(&[u8]) -> &[u8],
    /// What is told of the entry that disagrees, and of its place.
    told: fn(u64, usize) -> (u64, usize),
    step: Step,
}

const RIGHT: Sloppy = Sloppy {
    begins: |begin| b"CMT\0\x01".starts_with(begin),
    set_up_at_once: false,
    has_codes: |number| number == 20,
    has_name: |model| (5..=7).contains(&model),
    before_its_end: false,
    reads_on: false,
    count: |count| count,
    most: 255,
    name: |name| name,
    told: |entry, at| (entry, at),
    step: |tool, i, reports| independent::step(tool, i.number, i.port, i.value, &i.name, &i.codes, reports),
};

/// A report: model, subject as bytes, old and new state.
type Shown = (u8, Vec<u8>, u8, u8);

impl Sloppy {
    fn judge(&self, log: &[u8]) -> Said {
        let cut = |entry| Said { answer: 29, entry, at: None };
        let mut tool = match self.set_up(log) {
            Ok(tool) => tool,
            Err(answer) => return Said { answer, entry: 0, at: None },
        };
        let (mut at, mut entry) = (7, 0);
        while at < log.len() {
            let begin = at;
            match self.entry(log, &mut at, &mut tool) {
                None => return cut(entry),
                Some(false) if self.reads_on && !self.whole(log, at, tool) => return cut(entry),
                Some(false) => {
                    let (entry, at) = (self.told)(entry, begin);
                    return Said { answer: 1, entry, at: Some(at as u64) };
                }
                Some(true) => entry += 1,
            }
        }
        Said { answer: 0, entry, at: Some(log.len() as u64) }
    }

    fn set_up(&self, log: &[u8]) -> Result<Base, u32> {
        for length in 1..=5 {
            let begin = log.get(..length).ok_or(29u32)?;
            if !(self.begins)(begin) {
                return Err(27);
            }
        }
        let ports = log.get(5).copied().ok_or(29u32)? as u32;
        let places = log.get(6).map(|&places| places as u32).ok_or(29u32);
        if self.set_up_at_once {
            places?;
        }
        let mut tool = Base::NONE;
        let good = independent::setup(ports, 0, &mut tool) == 0
            && independent::setup(ports, places?, &mut tool) == 0;
        good.then_some(tool).ok_or(28)
    }

    /// Whether the entry agrees; nothing where it is cut short.
    fn entry(&self, log: &[u8], at: &mut usize, tool: &mut Base) -> Option<bool> {
        let (input, answer) = self.input(log, at)?;
        let mut out = Reports::NONE;
        let same = (self.step)(tool, &input, &mut out) == answer as u32;
        if self.before_its_end && !same {
            return Some(false);
        }
        let shown = self.reports(log, at)?;
        Some(same && self.same(&shown, &out))
    }

    fn whole(&self, log: &[u8], mut at: usize, mut tool: Base) -> bool {
        while at < log.len() {
            if self.entry(log, &mut at, &mut tool).is_none() {
                return false;
            }
        }
        true
    }

    fn input(&self, log: &[u8], at: &mut usize) -> Option<(Input, u8)> {
        let numbers: [u8; 3] = taken(log, at, 3)?.try_into().ok()?;
        let length = byte(log, at)?;
        let name = taken(log, at, length as usize)?.to_vec();
        let codes = if (self.has_codes)(numbers[0]) { taken(log, at, 25)?.to_vec() } else { Vec::new() };
        let [number, port, value] = numbers.map(u32::from);
        Some((Input { number, port, value, name, codes, ..Input::default() }, byte(log, at)?))
    }

    fn reports(&self, log: &[u8], at: &mut usize) -> Option<Vec<Shown>> {
        let count = (self.count)(byte(log, at)?);
        let one = |at: &mut usize| {
            let model = byte(log, at)?;
            let length = if (self.has_name)(model) { byte(log, at)? } else { 1 };
            let subject = taken(log, at, length as usize)?.to_vec();
            Some((model, subject, byte(log, at)?, byte(log, at)?))
        };
        (0..count).map(|_| one(at)).collect()
    }

    fn same(&self, shown: &[Shown], out: &Reports) -> bool {
        let given = out.items.iter().take(out.count.into()).map(|r| {
            let subject = if r.model <= 4 { vec![r.port] } else { unpadded(&r.name) };
            (r.model, subject, r.old, r.new)
        });
        let shown = shown.iter().take(self.most);
        given.eq(shown.map(|(model, subject, old, new)| (*model, (self.name)(subject).to_vec(), *old, *new)))
    }
}

fn byte(log: &[u8], at: &mut usize) -> Option<u8> {
    taken(log, at, 1).map(|bytes| bytes[0])
}

fn taken<'a>(log: &'a [u8], at: &mut usize, count: usize) -> Option<&'a [u8]> {
    let bytes = log.get(*at..*at + count)?;
    *at += count;
    Some(bytes)
}

fn compared(proved: &dyn Fn(&[u8]) -> Said, independent: &dyn Fn(&[u8]) -> Said) -> Result<Logs, Finding> {
    judge::compare(&Judges { proved, independent }, 3_000, &mut Rng::new(5))
}

/// The log, as short as it can be, and the two verdicts on it, where one program judges so.
fn found(wrong: &dyn Fn(&[u8]) -> Said) -> (usize, String, String) {
    let Err(Finding::Told(told)) = compared(wrong, &judge::independent) else { panic!("not found") };
    let lines: Vec<&str> = told.lines().collect();
    let [head, log, one, other] = lines[..] else { panic!("{told}") };
    assert_eq!(head, "DIFFERENT. The log");
    let said = |line: &str, who: &str| line.strip_prefix(who).expect("who says so").trim().to_string();
    (log.len() / 2, said(one, "proved"), said(other, "independent"))
}

fn sloppy(wrong: Sloppy) -> (usize, String, String) {
    found(&|log| wrong.judge(log))
}

#[test]
fn the_sloppy_judge_is_right_where_it_does_nothing_otherwise() {
    let logs = compared(&|log| RIGHT.judge(log), &judge::independent).unwrap_or_else(|why| panic!("{why:?}"));
    assert!(logs.unmet().is_empty() && logs.judged > 40_000, "{logs}");
    let [agree, disagree, ..] = logs.met;
    assert!(agree > 3_000 && disagree > 20_000, "{:?}", logs.met);
}

#[test]
fn seven_reports_compared_where_eight_are_shown() {
    let (_, proved, independent) = sloppy(Sloppy { most: 7, ..RIGHT });
    assert_eq!((&proved[..18], &independent[..16]), ("agrees, 4 entries ", "entry 3 at byte "));
}

#[test]
fn other_layouts_are_found() {
    // A model outside 1 to 7 read with a name, or one of 5 to 7 with a port.
    sloppy(Sloppy { has_name: |model| model > 4, ..RIGHT });
    sloppy(Sloppy { has_name: |model| model > 4 || model == 0, ..RIGHT });
    sloppy(Sloppy { has_name: |model| model == 5, ..RIGHT });
    // Codes in every row that document 01 doesn't have, or in none.
    sloppy(Sloppy { has_codes: |number| number == 20 || number > 26, ..RIGHT });
    sloppy(Sloppy { has_codes: |number| number == 20 || number == 0, ..RIGHT });
    sloppy(Sloppy { has_codes: |_| false, ..RIGHT });
    // The count's high bit is lost, or no more than seven are read.
    sloppy(Sloppy { count: |count| count & 0x7F, ..RIGHT });
    sloppy(Sloppy { count: |count| count.min(7), ..RIGHT });
}

#[test]
fn an_entry_judged_before_its_end() {
    let (_, proved, independent) = sloppy(Sloppy { before_its_end: true, ..RIGHT });
    assert_eq!((&proved[..6], &independent[..17]), ("entry ", "refused 29 after "));
}

#[test]
fn twenty_nine_before_twenty_eight() {
    let said = sloppy(Sloppy { set_up_at_once: true, ..RIGHT });
    assert_eq!(said, (6, "refused 29 after 0 entries".into(), "refused 28 after 0 entries".into()));
}

#[test]
fn other_marks_and_versions() {
    let low_first = |begin: &[u8]| b"CMT\0\x01".starts_with(begin) || b"CMT\x01\0".starts_with(begin);
    let (length, proved, independent) = sloppy(Sloppy { begins: low_first, ..RIGHT });
    assert_eq!((length, proved.as_str()), (4, "refused 29 after 0 entries"), "{independent}");
    let small = |begin: &[u8]| b"cmt\0\x01".starts_with(&begin.to_ascii_lowercase());
    assert_eq!(sloppy(Sloppy { begins: small, ..RIGHT }).2, "refused 27 after 0 entries");
    // The mark is judged as a whole: CX is cut short.
    let whole = |begin: &[u8]| begin.len() < 3 || b"CMT\0\x01".starts_with(begin);
    assert_eq!(sloppy(Sloppy { begins: whole, ..RIGHT }).1, "refused 29 after 0 entries");
    let any_version = |begin: &[u8]| b"CMT".starts_with(&begin[..begin.len().min(3)]);
    assert_eq!(sloppy(Sloppy { begins: any_version, ..RIGHT }).2, "refused 27 after 0 entries");
}

#[test]
fn reading_on_after_the_first_difference() {
    let (_, proved, independent) = sloppy(Sloppy { reads_on: true, ..RIGHT });
    assert!(proved.starts_with("refused 29 after "), "{proved} {independent}");
    assert!(independent.starts_with("entry "), "{proved} {independent}");
}

#[test]
fn names_that_are_taken_for_others() {
    sloppy(Sloppy { name: |name| name.strip_suffix(b"\0").unwrap_or(name), ..RIGHT });
    sloppy(Sloppy { name: |name| name.strip_suffix(b" ").unwrap_or(name), ..RIGHT });
}

#[test]
fn another_number_or_place_is_told() {
    let (_, proved, independent) = sloppy(Sloppy { told: |entry, at| (entry + 1, at), ..RIGHT });
    assert!(proved.starts_with("entry 1 at byte 7") && independent.starts_with("entry 0 at byte 7"));
    let (_, proved, _) = sloppy(Sloppy { told: |entry, at| (entry, at + 1), ..RIGHT });
    assert!(proved.starts_with("entry 0 at byte 8"), "{proved}");
    let (length, proved, _) = found(&|log| {
        let said = judge::independent(log);
        Said { entry: if said.answer == 0 { said.entry + 1 } else { said.entry }, ..said }
    });
    assert_eq!((length, proved.as_str()), (7, "agrees, 1 entries to the end at byte 7"));
    let (_, proved, independent) = found(&|log| {
        let said = judge::independent(log);
        Said { entry: if said.answer == 29 { 0 } else { said.entry }, ..said }
    });
    assert_eq!(
        (proved.as_str(), independent.as_str()),
        ("refused 29 after 0 entries", "refused 29 after 1 entries")
    );
}

/// Other machines than document 01's: the tool with its requests, one that forgets a row, and one that forgets all.
#[test]
fn other_machines_are_found() {
    let with_requests: Step = |base, i, reports| {
        let mut tool = Tool { base: *base, ..Tool::NONE };
        let codes = if i.number == 20 { &i.codes[..] } else { &[] };
        let answer =
            independent::requests::step(&mut tool, i.number, i.port, i.value, &i.name, codes, reports);
        *base = tool.base;
        answer
    };
    sloppy(Sloppy { step: with_requests, ..RIGHT });
    let forgets: Step = |base, i, reports| {
        let before = *base;
        let answer = (RIGHT.step)(base, i, reports);
        *base = if i.number == 13 { before } else { *base };
        answer
    };
    sloppy(Sloppy { step: forgets, ..RIGHT });
    let goes_on: fn(&mut Base, &Input, &mut Reports) -> u32 =
        |base, i, reports| (RIGHT.step)(&mut base.clone(), i, reports);
    let (_, proved, independent) = sloppy(Sloppy { step: goes_on, ..RIGHT });
    assert_ne!(proved, independent);
}

/// Whether a start is accepted at a port of this access mode, by this second number.
fn starts(before: &Base, i: &Input, answer: u32, access: u8, value: u32) -> bool {
    let port = before.ports().get((i.port as usize).wrapping_sub(1));
    let there = port.is_some_and(|port| port.access == access);
    [13, 24].contains(&i.number) && answer == 0 && i.value == value && there
}

/// Judges with P9's rows: a start's second number is looked at, the mode restricts it, an alarm is told, or 36 is an
/// input.
#[test]
fn judges_with_alarms_are_found() {
    let looks_at_it: Step = |base, i, reports| {
        let neither = [13, 24].contains(&i.number) && i.value > 1;
        let number = if neither { 0 } else { i.number };
        (RIGHT.step)(base, &Input { number, ..i.clone() }, reports)
    };
    let restricts: Step = |base, i, reports| {
        let before = *base;
        let answer = (RIGHT.step)(base, i, reports);
        if starts(&before, i, answer, 0, 1) {
            (*base, *reports) = (before, Reports::NONE);
            return 13;
        }
        answer
    };
    let tells: Step = |base, i, reports| {
        let answer = (RIGHT.step)(base, i, reports);
        if starts(base, i, answer, 1, 0) {
            let at = reports.count as usize;
            reports.items[at] = Report { model: 9, port: i.port as u8, old: 0, new: 1, ..Report::UNUSED };
            reports.count += 1;
        }
        answer
    };
    let knows_36: Step = |base, i, reports| {
        let there = i.number == 36 && (1..=base.ports as u32).contains(&i.port);
        (RIGHT.step)(base, i, reports) + 4 * there as u32
    };
    for step in [looks_at_it, restricts, tells, knows_36] {
        let (_, proved, independent) = sloppy(Sloppy { step, ..RIGHT });
        assert_ne!(proved, independent);
    }
}

/// Why the documents are against two judges that are wrong alike.
fn against(wrong: &dyn Fn(&[u8]) -> Said) -> String {
    let Err(Finding::Told(told)) = compared(wrong, wrong) else { panic!("not found") };
    let why = told.strip_prefix("BOTH ARE AGAINST THE DOCUMENTS: ").unwrap_or_else(|| panic!("{told}"));
    why.lines().next().unwrap().into()
}

#[test]
fn both_wrong_alike_is_against_the_documents() {
    let wrong = |wrong: Sloppy| against(&|log| wrong.judge(log));
    assert!(wrong(Sloppy { set_up_at_once: true, ..RIGHT }).starts_with("refused 29 after 0 entries. "));
    assert!(wrong(Sloppy { before_its_end: true, ..RIGHT }).starts_with("entry "));
    assert!(wrong(Sloppy { most: 7, ..RIGHT }).starts_with("agrees"));
    assert!(wrong(Sloppy { told: |entry, at| (entry + 1, at), ..RIGHT }).starts_with("entry "));
    let goes_on: fn(&mut Base, &Input, &mut Reports) -> u32 =
        |base, i, reports| (RIGHT.step)(&mut base.clone(), i, reports);
    assert!(wrong(Sloppy { step: goes_on, ..RIGHT }).starts_with("entry "));
    assert!(against(&|log| Said { answer: 0, entry: 0, at: Some(log.len() as u64) })
        .starts_with("agrees, 0 entries"));
}
