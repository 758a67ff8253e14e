//! Programs that are wrong on purpose about the answers of P13.

use super::*;
use crate::answer::{exchanged, replied, Exchange, Replier, Repliers, Reply, Worded, Written};
use crate::parts::replies::{self, Replies};
use independent::requests::reply::Exchanged;
use independent::requests::texts::{is_refusal, Texts};

/// A page of texts, of all lengths from 1 to 24.
fn page() -> String {
    let own = (1..30).filter(|&number| is_refusal(number));
    let own = own
        .map(|number| format!("| {number} | {} |\n", "text ".repeat(5)[..number as usize % 24 + 1].trim()));
    format!("| number | text |\n|---|---|\n{}| other | another number |\n", own.collect::<String>())
}

/// The independent program with a fault planted in what comes out.
struct Miswritten<'a, R, X> {
    right: Worded<'a>,
    reply: R,
    exchange: X,
}

impl<R, X> Replier for Miswritten<'_, R, X>
where
    R: Fn(u32, &[u8], &mut Reply),
    X: Fn(&Tool, &[u8], &mut Exchange),
{
    fn reply(&self, number: u32, room: &mut [u8]) -> Written {
        let mut reply = replied(&self.right, number, room);
        (self.reply)(number, room, &mut reply);
        room.copy_from_slice(&reply.room);
        reply.written
    }

    fn exchange(&self, tool: &mut Tool, message: &[u8], reports: &mut Reports, room: &mut [u8]) -> Exchanged {
        let mut x = exchanged(&self.right, tool, message, room);
        (self.exchange)(tool, room, &mut x);
        (*tool, *reports) = (x.outcome.tool, x.outcome.reports);
        room.copy_from_slice(&x.room);
        x.given
    }
}

/// What is told where one program, or where both, have such a fault.
fn told<R, X>(both: bool, reply: R, exchange: X, part: Part) -> String
where
    R: Fn(u32, &[u8], &mut Reply),
    X: Fn(&Tool, &[u8], &mut Exchange),
{
    let page = page();
    let texts = Texts::read(&page).expect("a good page");
    let (wrong, right) = (Miswritten { right: Worded(texts), reply, exchange }, Worded(texts));
    let independent: &dyn Replier = if both { &wrong } else { &right };
    let repliers = Repliers { proved: &wrong, independent, texts: &texts };
    let Err(Finding::Told(told)) = part(&repliers, &mut Replies::default(), 2_000, &mut Rng::new(5)) else {
        panic!("the fault was not found");
    };
    let begins = if both { "BOTH ARE AGAINST THE DOCUMENTS. " } else { "DIFFERENT. " };
    assert!(told.starts_with(begins), "{told}");
    told
}

type Part = fn(&Repliers, &mut Replies, u64, &mut Rng) -> Result<(), Finding>;

/// A fault in a text is found with the first number that shows it, whether one program has it or both.
fn miswritten(fault: impl Fn(u32, &[u8], &mut Reply)) -> String {
    let nothing = |_: &Tool, _: &[u8], _: &mut Exchange| {};
    let alike = told(true, &fault, nothing, replies::texts);
    let told = told(false, &fault, nothing, replies::texts);
    let line = |told: &str| told.lines().nth(1).map(String::from);
    assert_eq!(line(&told), line(&alike));
    assert!(alike.contains("\nboth         ") && alike.contains("\nP13          "), "{alike}");
    told
}

/// The same for a fault in what a message gives.
fn misanswered(fault: impl Fn(&Tool, &[u8], &mut Exchange)) -> String {
    let nothing = |_: u32, _: &[u8], _: &mut Reply| {};
    let alike = told(true, nothing, &fault, replies::messages);
    assert!(alike.contains("\nsecs ") && alike.contains("\nP13          "), "{alike}");
    told(false, nothing, &fault, replies::messages)
}

fn fits(reply: &Reply) -> bool {
    reply.written.answer == 0
}

/// Where the code's two bytes stand in a text that has them.
const CODE: std::ops::Range<usize> = 11..13;

#[test]
fn the_low_byte_first_is_found() {
    let told = miswritten(|number, _, reply| {
        if number > 0 && fits(reply) {
            reply.room[CODE].reverse();
        }
    });
    assert!(
        told.starts_with("DIFFERENT. The line\nreply 1 17\nproved       0, length 17, the room 0102a50103"),
        "{told}"
    );
    assert!(told.contains("a9020100") && told.contains("a9020001"), "{told}");
}

#[test]
fn fourteen_where_it_just_fits_is_found() {
    let told = miswritten(|_, before, reply| {
        if before.len() == reply.written.length {
            *reply = Reply { written: Written { answer: 14, ..reply.written }, room: before.to_vec() };
        }
    });
    let said =
        "proved       14, length 7, the room as it was\nindependent  0, length 7, the room 0102a501000100\n";
    assert_eq!(told, format!("DIFFERENT. The line\nreply 0 7\n{said}"));
}

#[test]
fn a_byte_written_before_fourteen_is_found() {
    let told = miswritten(|_, _, reply| {
        if !fits(reply) && !reply.room.is_empty() {
            reply.room[0] = 0x01;
        }
    });
    let said = "proved       14, length 0, the room 01\nindependent  14, length 0, the room as it was\n";
    assert_eq!(told, format!("DIFFERENT. The line\nreply 0 1\n{said}"));
}

#[test]
fn another_acknowledge_byte_is_found() {
    for (first, last) in [(20, 26), (1, 1), (14, 14), (27, 27), (65_536, u32::MAX)] {
        let told = miswritten(|number, _, reply| {
            if (first..=last).contains(&number) && fits(reply) {
                reply.room[4] = 8 - reply.room[4];
            }
        });
        assert!(told.starts_with(&format!("DIFFERENT. The line\nreply {first} ")), "{told}");
    }
}

/// The text of the last item behind one length byte more.
#[test]
fn two_length_bytes_are_found() {
    let told = miswritten(|number, before, reply| {
        if number > 0 {
            let text = replied(&Worded(Texts::read(&page()).unwrap()), number, &[0; 200]).room;
            let text = [&text[..13], &[0x42, 0], &text[14..15 + text[14] as usize]].concat();
            let (fits, mut room) = (text.len() <= before.len(), before.to_vec());
            if fits {
                room[..text.len()].copy_from_slice(&text);
            }
            let (answer, length) = if fits { (0, text.len()) } else { (14, 0) };
            *reply = Reply { written: Written { answer, length }, room };
        }
    });
    assert!(
        told.starts_with("DIFFERENT. The line\nreply 1 17\nproved       14, length 0, the room as it was\n"),
        "{told}"
    );
}

#[test]
fn a_byte_past_the_text_is_found() {
    let told = miswritten(|_, _, reply| {
        let length = reply.written.length;
        if let Some(past) = reply.room.get_mut(length).filter(|_| length > 0) {
            *past = 0;
        }
    });
    assert!(
        told.starts_with(
            "DIFFERENT. The line\nreply 0 8\nproved       0, length 7, the room 0102a50100010000\n"
        ),
        "{told}"
    );
    let told = miswritten(|_, before, reply| {
        if fits(reply) && before.len() > reply.written.length + 2 {
            *reply.room.last_mut().unwrap() = 0;
        }
    });
    assert!(told.starts_with("DIFFERENT. The line\nreply 0 10\n"), "{told}");
}

/// Codes that don't fit a U2, of which the high bits are lost.
#[test]
fn lost_bits_are_found() {
    let told = miswritten(|number, _, reply| {
        if number > 65_535 && fits(reply) {
            reply.room[CODE].copy_from_slice(&(number as u16).to_be_bytes());
        }
    });
    assert!(told.starts_with("DIFFERENT. The line\nreply 65536 "), "{told}");
    let told = miswritten(|number, _, reply| reply.written.length += (number >= 1 << 20) as usize);
    assert!(told.starts_with("DIFFERENT. The line\nreply "), "{told}");
    for bits in [8, 16] {
        let told = miswritten(|_, before, reply| {
            if before.len() % (1 << bits) < reply.written.length {
                *reply = Reply { written: Written { answer: 14, ..reply.written }, room: before.to_vec() };
            }
        });
        assert!(told.starts_with(&format!("DIFFERENT. The line\nreply 0 {}\n", 1 << bits)), "{told}");
    }
}

#[test]
fn a_length_that_is_told_with_fourteen_is_found() {
    let told = miswritten(|_, _, reply| reply.written.length += 7 * !fits(reply) as usize);
    assert!(told.starts_with("DIFFERENT. The line\nreply 0 0\nproved       14, length 7, "), "{told}");
}

/// The whole way: 14 that comes after the tool got its input, keeps the reports, loses the items or tells another
/// length; a text written before 14, or none for an accepted input.
#[test]
fn faults_of_the_whole_way_are_found() {
    let late = misanswered(|before, _, x| {
        if x.given.answer == 14 {
            x.outcome.tool.base.port[0].access = before.base.port[0].access ^ 1;
        }
    });
    assert!(late.contains("the state after: byte 4, port 1 access"), "{late}");
    let reports = misanswered(|_, _, x| x.outcome.reports.items[6].old |= (x.given.answer == 14) as u8);
    assert!(reports.contains("the entries past the count"), "{reports}");
    let items = misanswered(|_, _, x| x.given.items *= (x.given.answer != 14) as u32);
    assert!(items.contains("\nproved       14, 0 items, length "), "{items}");
    let length = misanswered(|_, _, x| x.given.length += (x.given.answer == 14) as usize);
    assert!(length.contains("\nproved       14, "), "{length}");
    let written = misanswered(|_, _, x| {
        if x.given.answer == 14 && !x.room.is_empty() {
            x.room[0] ^= 0xFF;
        }
    });
    assert!(written.contains("\nproved       14, "), "{written}");
    let none = misanswered(|_, before, x| {
        if x.given.answer == 0 {
            x.room = before.to_vec();
        }
    });
    assert!(none.contains("\nproved       0, ") && none.contains(", the room as it was\n"), "{none}");
}

/// An answer that is written and not given, or given and not written.
#[test]
fn another_answer_is_found() {
    let told = misanswered(|_, _, x| x.given.answer = if x.given.answer == 26 { 25 } else { x.given.answer });
    assert!(told.contains("\nproved       25, ") && told.contains("\nindependent  26, "), "{told}");
    let told = misanswered(|_, _, x| {
        if x.given.answer == 20 {
            x.room[CODE.end - 1] = 21;
        }
    });
    assert!(told.contains("\nproved       20, 0 items, ") && told.contains("a9020015"), "{told}");
}

#[test]
fn every_answer_is_written() {
    let page = page();
    let texts = Texts::read(&page).expect("a good page");
    let repliers = Repliers { proved: &Worded(texts), independent: &Worded(texts), texts: &texts };
    let met = replies::compare(&repliers, 5_000, &mut Rng::new(5)).unwrap();
    assert!(met.unmet().is_empty(), "{met}");
    assert!(met.texts > 350_000 && met.texts_too_long > 140_000 && met.texts_too_long < met.texts / 2);
    assert_eq!((met.messages, met.messages_too_long), (30_000, 10_000));
    assert_eq!(Replies::default().unmet().len(), 15);
}
