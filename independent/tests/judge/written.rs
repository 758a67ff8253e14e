//! Logs that agree.

use super::*;
use independent::gen::logs::random_log;
use independent::gen::{Input, Rng};
use independent::judge::{fits, Log, Place};
use independent::{setup, step, Plain, Reports, Tool};

fn input(number: u32, port: u32, name: &[u8], codes: &[u8]) -> Input {
    Input { number, port, name: name.to_vec(), codes: codes.to_vec(), ..Input::default() }
}

/// The twelve rows of document 01, byte by byte.
#[test]
fn the_twelve_rows() {
    let bind = b"\x01\x01\x00\x02AB\x00\x05\x03\x01\x00\x01\x04\x01\x00\x01\
        \x05\x02AB\x00\x01\x06\x02AB\x00\x01\x07\x02AB\x00\x01";
    let load_start = [13, 1, 0, 0, 0, 2, 1, 1, 1, 3, 3, 1, 1, 0];
    let load_done = [14, 1, 0, 0, 0, 0];
    let id_read = b"\x10\x01\x00\x02AC\x00\x07\x04\x01\x01\x01\x05\x02AB\x01\x00\x05\x02AC\x00\x02\
        \x06\x02AB\x01\x00\x06\x02AC\x00\x01\x07\x02AB\x01\x00\x07\x02AC\x00\x01";
    let (open_refused, open) = (b"\x13\x00\x00\x02AC\x07\x00", b"\x13\x00\x00\x02AC\x00\x00");
    let proceed_id = b"\x05\x00\x00\x02AC\x00\x01\x05\x02AC\x02\x03";
    let slot_map = b"\x14\x00\x00\x02AC\
        \x03\x03\x03\x03\x03\x03\x03\x03\x03\x03\x03\x03\x03\x03\x03\x03\x03\x03\x03\x03\x03\x03\x03\x03\x03\
        \x00\x01\x06\x02AC\x01\x02";
    let access_refused = b"\x15\x00\x00\x02AC\x07\x00";
    let proceed_slots = b"\x05\x00\x00\x02AC\x00\x01\x06\x02AC\x02\x03";
    let access = b"\x15\x00\x00\x02AC\x00\x01\x07\x02AC\x01\x02";
    let cancel = b"\x06\x00\x00\x02AC\x05\x00";
    let rows: [&[u8]; 12] = [
        bind,
        &load_start,
        &load_done,
        id_read,
        open_refused,
        proceed_id,
        open,
        slot_map,
        access_refused,
        proceed_slots,
        access,
        cancel,
    ];
    let bytes = [&BEGIN[..], &rows.concat()].concat();
    assert_eq!(judge(&bytes), Verdict::Agrees(12));
    let inputs = [
        input(1, 1, b"AB", &[]),
        input(13, 1, b"", &[]),
        input(14, 1, b"", &[]),
        input(16, 1, b"AC", &[]),
        input(19, 0, b"AC", &[]),
        input(5, 0, b"AC", &[]),
        input(19, 0, b"AC", &[]),
        input(20, 0, b"AC", &[3; 25]),
        input(21, 0, b"AC", &[]),
        input(5, 0, b"AC", &[]),
        input(21, 0, b"AC", &[]),
        input(6, 0, b"AC", &[]),
    ];
    assert_eq!(Log::of(2, 0, &inputs).bytes, bytes);
}

#[test]
fn the_places_of_entries() {
    let log = Log::of(2, 0, &[input(13, 1, b"", &[]), input(3, 0, b"AB", &[])]);
    assert_eq!(log.bytes, file(&[&[LOAD_START, STARTED], &[NOTIFY, NOTIFIED]]));
    assert_eq!(log.entries, [Place { begin: 7, answer: 11 }, Place { begin: 17, answer: 23 }]);
    assert_eq!((log.end(0), log.end(1)), (17, log.bytes.len()));
}

#[test]
fn what_a_log_has_room_for() {
    for number in [0, 13, 27, 255] {
        assert!(fits(&input(number, 255, &[b'A'; 255], &[])));
    }
    assert!(!fits(&input(256, 0, b"", &[])) && !fits(&input(13, 256, b"", &[])));
    assert!(!fits(&input(13, 1, &[b'A'; 256], &[])));
    assert!(!fits(&Input { value: 256, ..input(9, 1, b"", &[]) }));
    assert!(fits(&input(20, 0, b"A", &[9; 25])) && fits(&input(1, 1, b"A", &[3; 26])));
    assert!(!fits(&input(20, 0, b"A", &[3; 24])) && !fits(&input(20, 0, b"A", &[])));
}

/// Logs of runs with every set-up, to which the plain judge says the same.
#[test]
fn runs_agree() {
    let mut rng = Rng::new(51);
    let mut accepted = 0;
    for ports in 1..=4 {
        for places in 0..=16 {
            let log = random_log(ports, places, 600, &mut rng);
            assert_eq!(judge(&log.bytes), Verdict::Agrees(600));
            assert_eq!(plain::judge(&log.bytes), Verdict::Agrees(600));
            accepted += log.entries.iter().filter(|place| log.bytes[place.answer] == 0).count();
        }
    }
    println!("{accepted} entries of {} were accepted", 68 * 600);
    assert!(accepted > 20_000);
}

/// Every answer and every report of a long log.
#[test]
fn a_log_shows_what_the_steps_give() {
    let mut rng = Rng::new(52);
    let log = random_log(4, 16, 3_000, &mut rng);
    let mut tool = Tool::NONE;
    setup(4, 16, &mut tool);
    for (k, place) in log.entries.iter().enumerate() {
        let entry = &log.bytes[place.begin..log.end(k)];
        let (i, answer_at) = plain::input_of(entry);
        let mut out = Reports::NONE;
        let answer = step(&mut tool, i.number, i.port, i.value, &i.name, &i.codes, &mut out);
        assert_eq!((answer_at, entry[answer_at] as u32), (place.answer - place.begin, answer));
        assert_eq!(entry[answer_at + 1], out.count);
        assert_eq!(plain::reports_of(&entry[answer_at + 2..]), out.as_slice());
    }
    assert_eq!(tool.bytes(), log.tool.bytes());
}
