//! Each reading of P14's words.

use super::*;
use independent::gen::Input;
use independent::judge::Log;

#[test]
fn mark_and_version_byte_by_byte() {
    for length in 0..7 {
        assert_eq!(judge(&BEGIN[..length]), refused(29, 0), "{length}");
    }
    assert_eq!(judge(b"CX"), refused(27, 0));
    assert_eq!(judge(b"CM"), refused(29, 0));
    for at in 0..5 {
        for byte in 0..=255 {
            let mut file = BEGIN.to_vec();
            file[at] = byte;
            let verdict = if byte == BEGIN[at] { Verdict::Agrees(0) } else { refused(27, 0) };
            assert_eq!(judge(&file), verdict);
            // Nothing behind the first wrong byte is looked at.
            let cut = if byte == BEGIN[at] { refused(29, 0) } else { refused(27, 0) };
            assert_eq!(judge(&file[..=at]), cut);
            file[5] = 0;
            let set_up = if byte == BEGIN[at] { refused(28, 0) } else { refused(27, 0) };
            assert_eq!(judge(&file), set_up);
        }
    }
    assert_eq!(judge(b"CMT\x01\x00\x02\x00"), refused(27, 0));
    assert_eq!(judge(b"cmt\x00\x01\x02\x00"), refused(27, 0));
}

#[test]
fn every_set_up() {
    for ports in 0..=255 {
        let good_ports = (1..=4).contains(&ports);
        // A wrong P with B missing.
        let cut = if good_ports { refused(29, 0) } else { refused(28, 0) };
        assert_eq!(judge(&[&BEGIN[..5], &[ports]].concat()), cut);
        for places in 0..=255 {
            let good = good_ports && places <= 16;
            let file = [&BEGIN[..5], &[ports, places]].concat();
            assert_eq!(judge(&file), if good { Verdict::Agrees(0) } else { refused(28, 0) });
            // What is behind it doesn't matter then: one byte is an entry cut short.
            let more = [&file[..], &[13]].concat();
            assert_eq!(judge(&more), if good { refused(29, 0) } else { refused(28, 0) });
        }
    }
}

#[test]
fn no_entries_agree() {
    assert_eq!(verdict(&[]), Verdict::Agrees(0));
}

/// Entries are counted from 0.
#[test]
fn the_first_entry_that_disagrees() {
    let good: &[&[u8]] = &[LOAD_START, STARTED];
    let again: &[&[u8]] = &[LOAD_START, &[5, 0]];
    assert_eq!(verdict(&[good, again, again]), Verdict::Agrees(3));
    assert_eq!(verdict(&[again, good]), disagrees(0, 7));
    assert_eq!(verdict(&[good, good]), disagrees(1, 17));
    assert_eq!(verdict(&[good, again, good, again]), disagrees(2, 23));
}

/// Nothing after the first disagreeing entry is read.
#[test]
fn what_follows_a_disagreeing_entry() {
    for tail in [&[][..], &[13], &[13, 1, 0, 255], &[0xFF; 300]] {
        assert_eq!(verdict(&[&[LOAD_START, &[0, 0]], &[tail]]), disagrees(0, 7));
    }
}

/// An entry is read to its end before it is judged: one that shows a difference already and is cut
/// short is 29.
#[test]
fn an_entry_with_a_difference_that_is_cut_short() {
    let entry = [LOAD_START, &[9, 2, 1, 1, 1, 3, 3, 1, 1, 0]].concat();
    assert_eq!(verdict(&[&[&entry]]), disagrees(0, 7));
    for length in 1..entry.len() {
        assert_eq!(verdict(&[&[&entry[..length]]]), refused(29, 0), "{length}");
        assert_eq!(verdict(&[&[LOAD_START, STARTED], &[&entry[..length]]]), refused(29, 1), "{length}");
    }
}

#[test]
fn a_report_count_of_255() {
    let reports = [1, 1, 1, 3].repeat(255);
    let all: &[&[u8]] = &[LOAD_START, &[0, 255], &reports];
    assert_eq!(verdict(&[all]), disagrees(0, 7));
    assert_eq!(verdict(&[all, &[&[1]]]), disagrees(0, 7));
    assert_eq!(verdict(&[&[LOAD_START, &[0, 255], &reports[1..]]]), refused(29, 0));
    assert_eq!(verdict(&[&[LOAD_START, &[0, 255]]]), refused(29, 0));
}

/// Seven and eight: the first seven are those of document 01.
#[test]
fn one_report_more_than_there_are() {
    let bind = b"\x01\x01\x00\x02AB\x00\x05\x03\x01\x00\x01\x04\x01\x00\x01\
        \x05\x02AB\x00\x01\x06\x02AB\x00\x01\x07\x02AB\x00\x01";
    let start = [13, 1, 0, 0, 0, 2, 1, 1, 1, 3, 3, 1, 1, 0];
    let done = [14, 1, 0, 0, 0, 0];
    let before: [&[&[u8]]; 3] = [&[bind], &[&start], &[&done]];
    let seven = b"\x04\x01\x01\x01\x05\x02AB\x01\x00\x05\x02AC\x00\x02\
        \x06\x02AB\x01\x00\x06\x02AC\x00\x01\x07\x02AB\x01\x00\x07\x02AC\x00\x01";
    let read = b"\x10\x01\x00\x02AC";
    let at = file(&before).len();
    let with = |shown: &[&[u8]]| verdict(&[before[0], before[1], before[2], &[read, &shown.concat()]]);
    assert_eq!(with(&[&[0, 7], seven]), Verdict::Agrees(4));
    for more in [[0, 0, 0, 0], [1, 1, 3, 3], [8, 0, 0, 0]] {
        assert_eq!(with(&[&[0, 8], seven, &more]), disagrees(3, at));
    }
    assert_eq!(with(&[&[0, 6], &seven[..34]]), disagrees(3, at));
}

/// A model outside 1 to 7 is read with a port byte, so that its entry disagrees.
#[test]
fn models_outside_1_to_7() {
    for model in (0..=255).filter(|model| !(1..=7).contains(model)) {
        let one: &[&[u8]] = &[LOAD_START, &[0, 1, model, 1, 1, 3]];
        assert_eq!(verdict(&[one]), disagrees(0, 7));
        // Read with a name of 200 bytes it would be cut short.
        assert_eq!(verdict(&[&[LOAD_START, &[0, 1, model, 200, 1, 3]]]), disagrees(0, 7));
        assert_eq!(verdict(&[&[LOAD_START, &[0, 1, model, 0, 1]]]), refused(29, 0));
    }
    for model in 5..=7 {
        assert_eq!(verdict(&[&[LOAD_START, &[0, 1, model, 200, 1, 3]]]), refused(29, 0));
        assert_eq!(verdict(&[&[LOAD_START, &[0, 1, model, 0, 1, 3]]]), disagrees(0, 7));
    }
    for model in 1..=4 {
        let verdict = verdict(&[&[LOAD_START, &[0, 1, model, 1, 1, 3]]]);
        assert_eq!(verdict, if model == 1 { Verdict::Agrees(1) } else { disagrees(0, 7) });
    }
}

/// Input numbers 0 and 27 to 255 have no codes, and document 01 answers 1.
#[test]
fn inputs_without_a_row() {
    for number in (27..=255).chain([0]) {
        for answer in 0..=255 {
            let agrees = if answer == 1 { Verdict::Agrees(2) } else { disagrees(0, 7) };
            let entry: &[&[u8]] = &[&[number, 1, 1, 1, b'A', answer, 0]];
            assert_eq!(verdict(&[entry, &[LOAD_START, STARTED]]), agrees);
        }
        // The next 25 bytes are no codes.
        let entry: &[&[u8]] = &[&[number, 1, 1, 1, b'A'], &[3; 25], &[1, 0]];
        assert_eq!(verdict(&[entry]), disagrees(0, 7));
    }
}

/// Only row 20 has codes; any are read.
#[test]
fn codes_of_row_20_only() {
    for code in 0..=255 {
        let codes = [code; 25];
        let answer = if code <= 5 { 2 } else { 1 };
        let entry: &[&[u8]] = &[&[20, 0, 0, 1, b'A'], &codes, &[answer, 0]];
        assert_eq!(verdict(&[entry]), Verdict::Agrees(1));
        assert_eq!(verdict(&[&[&[20, 0, 0, 1, b'A'], &codes, &[answer + 1, 0]]]), disagrees(0, 7));
        assert_eq!(verdict(&[&[&[20, 0, 0, 1, b'A'], &codes[..24], &[answer, 0]]]), refused(29, 0));
    }
    assert_eq!(verdict(&[&[&[19, 0, 0, 1, b'A', 2, 0]]]), Verdict::Agrees(1));
}

/// Names of any length are read, and those that are none answered 1.
#[test]
fn names_of_every_length() {
    for length in 0..=255u8 {
        let name = vec![b'A'; length as usize];
        let answer = if (1..=16).contains(&length) { 2 } else { 1 };
        let entry: &[&[u8]] = &[&[4, 0, 0, length], &name, &[answer, 0]];
        assert_eq!(verdict(&[entry]), Verdict::Agrees(1));
        assert_eq!(verdict(&[&[&[4, 0, 0, length], &name, &[answer]]]), refused(29, 0));
    }
}

/// No request reaches it: a padded name is none, there are no inputs from 27 on, and LoadStart has no
/// second number.
#[test]
fn document_01_before_any_request() {
    assert_eq!(verdict(&[&[&[3, 0, 0, 3], b"AB ", &[1, 0]]]), Verdict::Agrees(1));
    assert_eq!(verdict(&[&[&[3, 0, 0, 3], b"AB ", NOTIFIED]]), disagrees(0, 7));
    for number in [27, 31, 36] {
        assert_eq!(verdict(&[&[&[number, 1, 0, 0, 5, 0]]]), disagrees(0, 7));
    }
    for second in 0..=255 {
        assert_eq!(verdict(&[&[&[13, 1, second, 0], STARTED]]), Verdict::Agrees(1));
        for refused in [1, 13] {
            assert_eq!(verdict(&[&[&[13, 1, second, 0], &[refused, 0]]]), disagrees(0, 7));
        }
    }
}

/// Starts as they were: access mode restricts none of them, none raises an alarm, LoadDone holds no pod, and Continue
/// is no input, whatever the second number.
#[test]
fn starts_say_neither_manual_nor_automatic() {
    let to_auto: &[&[u8]] = &[&[9, 1, 1, 0, 0, 1, 2, 1, 0, 1]];
    for second in 0..=255 {
        let start: &[&[u8]] = &[&[13, 1, second, 0], STARTED];
        let done: &[&[u8]] = &[&[14, 1, second, 0, 0, 0]];
        let again: &[&[u8]] = &[&[14, 1, second, 0, 5, 0]];
        let unknown: &[&[u8]] = &[&[36, 1, second, 0, 1, 0]];
        let cancel: &[&[u8]] = &[&[17, 1, 0, 0, 0, 0], &[6, 1, 0, 1, b'A', 0, 5, 1, 1, 3, 2, 4, 1, 0, 1]];
        let made: &[&[u8]] = &[b"\x05\x01A\x00\x04\x06\x01A\x00\x01\x07\x01A\x00\x01"];
        let unload: &[&[u8]] = &[&[24, 1, second, 0, 0, 1, 1, 1, 2, 3]];
        let fail: &[&[u8]] = &[&[26, 1, second, 0, 0, 1, 1, 1, 3, 2]];
        for mode in [&[][..], to_auto] {
            let before = if mode.is_empty() { 0 } else { 1 };
            let all = [mode, unknown, start, unknown, done, unknown, again, cancel, made, unload, fail];
            assert_eq!(verdict(&all), Verdict::Agrees(before + 10));
        }
        let alarm: &[&[u8]] = &[&[13, 1, second, 0, 0, 2, 1, 1, 1, 3, 9, 1, 0, 1]];
        assert_eq!(verdict(&[to_auto, alarm]), disagrees(1, 17));
    }
}

/// Row 7 as it was: the carrier is out at once.
#[test]
fn carrier_out_has_no_queue() {
    let input = |number, port, value, name: &[u8]| Input {
        number,
        port,
        value,
        name: name.to_vec(),
        ..Input::default()
    };
    let before = [(1, 0, "A"), (13, 0, ""), (14, 0, ""), (16, 0, "A"), (18, 1, "")];
    let before = before.map(|(number, value, name)| input(number, 1, value, name.as_bytes()));
    let log = Log::of(1, 1, &before).bytes;
    let out = [7, 1, 0, 1, b'A'];
    let with = |shown: &[u8]| judge(&[&log[..], &out, shown].concat());
    assert_eq!(with(&[0, 2, 1, 1, 1, 2, 4, 1, 0, 1]), Verdict::Agrees(6));
    assert_eq!(with(&[0, 0]), disagrees(5, log.len()));
}

/// A report's name is compared with its length: nothing is padding.
#[test]
fn names_in_reports() {
    for name in [&b"AB\0"[..], b"AB ", b"A", b"", b"AC", b"ab", b"AB\0\0\0\0\0\0\0\0\0\0\0\0\0\0"] {
        let report = |model: u8| [&[model, name.len() as u8][..], name, &[0, 1]].concat();
        let one = [&NOTIFIED[..14], &report(7)].concat();
        assert_eq!(verdict(&[&[NOTIFY, &one]]), disagrees(0, 7));
        let all = [&[0, 3][..], &report(5), &report(6), &report(7)].concat();
        assert_eq!(verdict(&[&[NOTIFY, &all]]), disagrees(0, 7));
    }
    assert_eq!(verdict(&[&[NOTIFY, NOTIFIED]]), Verdict::Agrees(1));
}

/// A refusal that is shown with reports, or an accepted input with its reports in another order.
#[test]
fn reports_are_all_and_in_order() {
    assert_eq!(verdict(&[&[LOAD_START, &[0, 0]]]), disagrees(0, 7));
    assert_eq!(verdict(&[&[&[14, 1, 0, 0], &[5, 0]]]), Verdict::Agrees(1));
    assert_eq!(verdict(&[&[&[14, 1, 0, 0], &[5, 1, 1, 1, 1, 3]]]), disagrees(0, 7));
    let turned = b"\x00\x03\x06\x02AB\x00\x01\x05\x02AB\x00\x01\x07\x02AB\x00\x01";
    assert_eq!(verdict(&[&[NOTIFY, turned]]), disagrees(0, 7));
}
