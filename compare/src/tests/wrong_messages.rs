//! Programs that are wrong on purpose about the messages of P3.

use super::*;
use crate::parts::messages::from_hex;
use independent::requests::secs::read;
use independent::Plain;

/// The independent program with a fault planted in what comes out of a message.
struct Misheard<F: Fn(&Tool, &[u8], &mut Bridged)>(F);

impl<F: Fn(&Tool, &[u8], &mut Bridged)> Wrong for Misheard<F> {
    fn secs(&self, tool: &mut Tool, message: &[u8], reports: &mut Reports) -> Heard {
        let before = *tool;
        let heard = Independent.secs(tool, message, reports);
        let mut b = Bridged { outcome: Outcome { answer: 0, tool: *tool, reports: *reports }, heard };
        self.0(&before, message, &mut b);
        (*tool, *reports) = (b.outcome.tool, b.outcome.reports);
        b.heard
    }
}

/// The message of a finding, as short as it can be, and what is told of it.
fn shown(wrong: &dyn Machine) -> (Vec<u8>, String) {
    let both = Both { proved: wrong, independent: &Independent };
    let finding = messages::compare(&both, 20_000, &mut Rng::new(5)).err().expect("a finding");
    assert!(matches!(finding, Finding::Message(..)), "{finding:?}");
    let told = tell(&both, &finding);
    let line = told.lines().find_map(|line| line.strip_prefix("secs ")).expect("a message");
    (if line == "-" { Vec::new() } else { from_hex(line) }, told)
}

fn misheard(fault: impl Fn(&Tool, &[u8], &mut Bridged)) -> (Vec<u8>, String) {
    shown(&Misheard(fault))
}

#[test]
fn a_refused_item_that_is_counted_is_found() {
    let (message, told) = misheard(|_, _, b| b.heard.items += matches!(b.heard.answer, 20..=24) as u32);
    assert!(message.is_empty(), "{told}");
    assert!(told.contains("proved       1 items, read to 0\nindependent  0 items, read to 0\n"), "{told}");
}

#[test]
fn a_reading_that_stops_elsewhere_is_found() {
    let (message, told) = misheard(|_, _, b| b.heard.at += (b.heard.answer == 21) as usize);
    assert_eq!(message.len(), 1, "{told}");
}

/// A code that is unknown and cut short.
#[test]
fn another_order_at_one_item_is_found() {
    let (message, told) = misheard(|_, message, b| {
        let code = message.get(b.heard.at).map(|format| format >> 2);
        if b.heard.answer == 20 && code == Some(0o21) {
            b.heard.answer = 21;
        }
    });
    assert!(message.len() <= 3, "{told}");
    assert!(told.contains("proved       21 0 []\nindependent  20 0 []\n"), "{told}");
}

#[test]
fn another_depth_and_another_count_are_found() {
    let (message, told) = misheard(|_, message, b| {
        if read(message).items().iter().any(|item| item.is_list() && item.depth == 6) {
            b.heard.answer = 23;
        }
    });
    assert_eq!((read(&message).items().len(), message.len()), (6, 12), "{told}");
    let (message, told) = misheard(|_, _, b| {
        if b.heard.items == 128 && b.heard.answer == 26 {
            b.heard.answer = 24;
        }
    });
    assert!(read(&message).items().len() == 128, "{told}");
}

#[test]
fn the_shape_before_what_is_left_over_is_found() {
    let (message, told) = misheard(|_, message, b| {
        if b.heard.answer == 25 && read(&message[..b.heard.at]).refusal() == 26 {
            b.heard.answer = 26;
        }
    });
    assert!(message.len() <= 4, "{told}");
}

#[test]
fn a_refusal_that_leaves_something_is_found() {
    let (_, told) = misheard(|_, _, b| b.outcome.reports.items[6].old = (b.heard.answer == 26) as u8);
    assert!(told.contains("the entries past the count"), "{told}");
    let (_, told) = misheard(|_, _, b| b.outcome.tool.base.port[0].tag ^= (b.heard.answer == 22) as u8);
    assert!(told.contains("the state after: byte 24,"), "{told}");
}

/// Takes a message for another one, where it has these bytes.
fn takes(message: &[u8], one: &[u8], other: &[u8]) -> Vec<u8> {
    let at = message.windows(one.len()).position(|bytes| bytes == one);
    at.map_or(message.to_vec(), |at| [&message[..at], other, &message[at + one.len()..]].concat())
}

/// A port of no value as port 0, JIS-8 as ASCII, an unknown action as Bind, a map that isn't seen.
#[test]
fn messages_taken_for_others_are_found() {
    let port: fn(&[u8]) -> Vec<u8> = |message| takes(message, &[0xA5, 0, 1], &[0xA5, 1, 0, 1]);
    let jis: fn(&[u8]) -> Vec<u8> = |message| {
        let refused = read(message).items().last().map_or(0, |item| item.data().end);
        let mut other = message.to_vec();
        if let Some(format) = other.get_mut(refused).filter(|format| **format >> 2 == 0o21) {
            *format = 0o20 << 2 | *format & 3;
        }
        other
    };
    let action: fn(&[u8]) -> Vec<u8> = |message| takes(message, b"\x41\x04bind", b"\x41\x04Bind");
    let map: fn(&[u8]) -> Vec<u8> = |message| takes(message, b"SlotMap", b"SlotMaq");
    for message in [port, jis, action, map] {
        let (short, told) = shown(&Mistaken { message, ..Mistaken::IN_NOTHING });
        assert!(short.len() <= 130, "{told}");
    }
}

/// Why the documents are against two programs that mishear alike.
fn against_messages(fault: impl Fn(&Tool, &[u8], &mut Bridged)) -> String {
    let wrong = Misheard(fault);
    let both = Both { proved: &wrong, independent: &wrong };
    match messages::compare(&both, 2_000, &mut Rng::new(5)) {
        Err(finding @ Finding::MessageLaw(..)) => {
            let told = tell(&both, &finding);
            assert!(
                told.starts_with("BOTH ARE AGAINST THE DOCUMENTS: ") && told.contains("\nsecs "),
                "{told}"
            );
            told.lines().next().unwrap()["BOTH ARE AGAINST THE DOCUMENTS: ".len()..].into()
        }
        other => panic!("{:?}", other.err()),
    }
}

#[test]
fn both_wrong_alike_about_messages_is_against_the_documents() {
    let why = against_messages(|_, _, b| b.heard.items += (b.heard.answer == 20) as u32);
    assert!(
        why.starts_with("the message is answered 20 after 0 items at 0, not Heard { answer: 20, items: 1"),
        "{why}"
    );
    let why =
        against_messages(|_, _, b| b.heard.answer = if b.heard.answer == 21 { 27 } else { b.heard.answer });
    assert!(why.starts_with("a message has no answer 27"), "{why}");
    let why = against_messages(|_, _, b| b.outcome.reports.count += (b.heard.answer == 23) as u8);
    assert!(why.starts_with("a refusal changes no state and leaves no report"), "{why}");
    let why = against_messages(|_, _, b| b.heard.at += (b.heard.answer == 2) as usize);
    assert!(why.starts_with("20 to 24 stop at an item, 25 before the end, the others at the end"), "{why}");
    // CancelCarrier gives the tool nothing, and is said to be accepted.
    let why = against_messages(|before, message, b| {
        if read(message).order.is_ok_and(|order| order.number == 6) && b.heard.answer == 0 {
            (b.outcome.tool, b.outcome.reports) = (*before, Reports::NONE);
        }
    });
    assert!(why.starts_with("the message asks for row 6 with "), "{why}");
}

#[test]
fn every_answer_is_met() {
    let both = Both { proved: &Independent, independent: &Independent };
    let met = messages::compare(&both, 20_000, &mut Rng::new(5)).unwrap();
    assert!(met.unmet().is_empty() && met.compared > 20_000 && met.ordered > 2_000, "{met}");
    assert!(!messages::Messages::default().unmet().is_empty());
    assert_eq!(Reports::NONE.bytes(), [0; 201]);
}
