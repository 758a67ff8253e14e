//! The tool gets the input that a message asks for, and none from one that is refused.

use super::*;
use independent::gen::requests::secs::{order_tree, random_message};
use independent::gen::requests::{random_run_input, random_sound_tool, step as step_input};
use independent::gen::{Input, Rng};
use independent::requests::secs::{secs_step, SecsAnswer};
use independent::requests::{setup, step, Tool};
use independent::{Plain, Report, Reports};

const DIRTY: Report = Report { model: 9, port: 9, name: [9; 16], old: 9, new: 9 };

fn tool(p: u32, b: u32) -> Tool {
    let mut t = Tool::NONE;
    assert_eq!(setup(p, b, 0, 0, &mut t), 0);
    t
}

/// What a message gives. It is what the input gives that it asks for; a refusal gives nothing.
fn sent(t: &mut Tool, text: &[u8]) -> (SecsAnswer, Reports) {
    let before = *t;
    let mut out = Reports { count: 200, items: [DIRTY; 10] };
    let answer = secs_step(t, text, &mut out);
    assert_eq!((answer.refusal, answer.items as usize), given(text));
    let (mut plainly, mut reports) = (before, Reports::NONE);
    let expected = read(text)
        .order
        .ok()
        .map(|o| step(&mut plainly, o.number, o.port, 0, o.name, o.codes(), &mut reports));
    assert_eq!((answer.answer, t.bytes(), out), (expected, plainly.bytes(), reports));
    assert_eq!(answer.answer.is_some(), answer.refusal == 0);
    (answer, out)
}

fn accept(t: &mut Tool, tree: Tree) -> usize {
    let (answer, out) = sent(t, &tree.encode_shortest());
    assert_eq!(answer.answer, Some(0));
    out.count as usize
}

#[test]
fn a_run_by_messages() {
    let mut t = tool(2, 0);
    let mut out = Reports::NONE;
    assert_eq!(accept(&mut t, message("Bind", &[pair("SlotMap", slots(&[3; 25]))])), 6);
    assert_eq!(t.expected_map(0), Some(&[3; 25]));
    for (number, name) in [(13, ""), (14, ""), (16, "AC")] {
        assert_eq!(step(&mut t, number, 2, 0, name.as_bytes(), &[], &mut out), 0);
    }
    let proceed = list(&[u1(0), ascii("ProceedWithCarrier"), ascii("AC   "), u1(0), list(&[])]);
    assert_eq!(accept(&mut t, proceed), 1);
    let cancel = list(&[u1(0), ascii("CancelCarrier"), ascii("AC"), u1(2), list(&[])]);
    assert_eq!(accept(&mut t, cancel), 2);
    // Row 3's port is dropped, however large.
    let notify =
        list(&[data(code::U8, &[9; 8]), ascii("CarrierNotification"), ascii("B"), u1(255), list(&[])]);
    assert_eq!(accept(&mut t, notify), 4);
}

/// What the reader leaves to the tool is answered by the tool: names, ports, codes, and all else.
#[test]
fn refused_by_the_tool() {
    let mut t = tool(1, 0);
    let order = |action: &str, name: &str, port, attributes: &[Tree]| {
        list(&[u1(0), ascii(action), ascii(name), u1(port), list(attributes)]).encode_shortest()
    };
    let answered = |t: &Tool, text: &[u8]| sent(&mut t.clone(), text).0.answer.unwrap();
    assert_eq!(answered(&t, &order("Bind", "", 1, &[])), 1);
    assert_eq!(answered(&t, &order("Bind", " ", 1, &[])), 1);
    assert_eq!(answered(&t, &order("Bind", "A", 0, &[])), 1);
    assert_eq!(answered(&t, &order("Bind", "A", 2, &[])), 1);
    assert_eq!(answered(&t, &order("Bind", "A ", 1, &[])), 0);
    assert_eq!(answered(&t, &order("ProceedWithCarrier", "A", 0, &[])), 2);
    assert_eq!(answered(&t, &order("CancelCarrier", "A", 255, &[])), 1);
    for code in 0..=255 {
        let map = pair("SlotMap", slots(&[&[code][..], &[3; 24]].concat()));
        let bad = ![1, 3].contains(&code) as u32;
        for action in ["Bind", "CarrierNotification"] {
            assert_eq!(answered(&t, &order(action, "A", 1, std::slice::from_ref(&map))), bad);
        }
        // Rows 5 and 6 drop it.
        assert_eq!(answered(&t, &order("CancelCarrier", "A", 1, &[map])), 2);
    }
    // No tool: the message is read all the same.
    t = Tool::NONE;
    assert_eq!(
        sent(&mut t, &order("Bind", "A", 1, &[])).0,
        SecsAnswer { refusal: 0, items: 6, answer: Some(1) }
    );
    assert_eq!(sent(&mut t, &[1]).0, SecsAnswer { refusal: 20, items: 0, answer: None });
}

/// A message that is made for an input asks for this input.
#[test]
fn messages_for_inputs() {
    let mut rng = Rng::new(32);
    let mut met = [0; 7];
    for _ in 0..60_000 {
        let t = random_sound_tool(&mut rng);
        let i = random_run_input(&t, &mut rng);
        let expressible = i.port < 256 && [0, 25].contains(&i.codes.len());
        if !matches!(i.number, 1 | 3 | 5 | 6) || !expressible {
            continue;
        }
        let text = order_tree(&i, &mut rng).encode_any(&mut rng);
        let reading = read(&text);
        let order = reading.order.unwrap();
        let input = Input {
            number: order.number,
            port: order.port,
            value: 0,
            name: order.name.to_vec(),
            codes: order.codes().to_vec(),
            ..Input::default()
        };
        // Rows 5 and 6 have no codes, row 3 no port; no row of these has a value.
        let port = if i.number == 3 { 0 } else { i.port };
        let codes = if i.number <= 3 { i.codes.clone() } else { Vec::new() };
        assert_eq!(input, Input { port, codes, value: 0, clock: 0, time: 0, ..i.clone() });
        met[i.number as usize] += 1;
    }
    println!("{met:?}");
    assert!([1, 3, 5, 6].iter().all(|&row: &usize| met[row] > 200), "{met:?}");
}

/// Messages and other inputs in turn, along runs and from states.
#[test]
fn many_messages() {
    let mut rng = Rng::new(33);
    let (mut accepted, mut refused, mut unread) = (0, 0, 0);
    let mut one = |t: &mut Tool, rng: &mut Rng| {
        let text = random_message(t, rng);
        match sent(t, &text).0.answer {
            Some(0) => accepted += 1,
            Some(_) => refused += 1,
            None => unread += 1,
        }
    };
    for (p, b) in [(1, 0), (4, 0), (2, 3), (4, 16)] {
        let mut t = tool(p, b);
        for _ in 0..10_000 {
            let i = random_run_input(&t, &mut rng);
            step_input(&mut t, &i, &mut Reports::NONE.clone());
            one(&mut t, &mut rng);
        }
    }
    for _ in 0..20_000 {
        one(&mut random_sound_tool(&mut rng), &mut rng);
    }
    println!("{accepted} accepted, {refused} refused by the tool, {unread} by the reader");
    assert!(accepted > 2_000 && refused > 2_000 && unread > 10_000);
}
