//! The whole way: S3F17 in, S3F18 out.

use super::*;
use independent::gen::requests::random_sound_tool;
use independent::gen::requests::secs::{random_message, slot_map_message};
use independent::gen::Rng;
use independent::requests::reply::{exchange, length, reply, Exchanged};
use independent::requests::secs::secs_step;
use independent::requests::{setup, Tool};
use independent::{Plain, Report, Reports};

const DIRTY: Reports =
    Reports { count: 200, items: [Report { model: 9, port: 9, name: [9; 16], old: 9, new: 9 }; 10] };

#[test]
fn a_bind_by_hand() {
    let mut t = Tool::NONE;
    setup(1, 0, 0, 0, &mut t);
    let (mut out, mut room) = (DIRTY, [0xEE; 30]);
    with_texts(|texts| {
        // Too small by one: as if no message had come.
        let before = t;
        let given = exchange(&mut t, &slot_map_message(), texts, &mut out, &mut room[..6]);
        assert_eq!(given, Exchanged { answer: 14, items: 34, length: 0 });
        assert_eq!((t.bytes(), out, room), (before.bytes(), Reports::NONE, [0xEE; 30]));
        // It just fits.
        let given = exchange(&mut t, &slot_map_message(), texts, &mut out, &mut room[..7]);
        assert_eq!(given, Exchanged { answer: 0, items: 34, length: 7 });
        assert_eq!((t.base.count, out.count), (1, 6));
        assert_eq!((room[..7].to_vec(), &room[7..]), (vec![1, 2, 0xA5, 1, 0, 1, 0], &[0xEE; 23][..]));
        // Again: the name is taken, and in one byte less than that answer takes nothing is written.
        let given = exchange(&mut t, &slot_map_message(), texts, &mut out, &mut room);
        let long = 15 + words(3).len();
        assert_eq!((given, out), (Exchanged { answer: 3, items: 34, length: long }, Reports::NONE));
        let given = exchange(&mut t, &slot_map_message(), texts, &mut out, &mut room[..long - 1]);
        assert_eq!((given, out), (Exchanged { answer: 14, items: 34, length: 0 }, Reports::NONE));
    });
}

/// The step and then the answer, or nothing at all.
#[test]
fn many_messages_in_rooms_around_the_limits() {
    let mut rng = Rng::new(42);
    let (mut fitted, mut accepted, mut too_small) = (0, 0, 0);
    with_texts(|texts| {
        for _ in 0..20_000 {
            let t = random_sound_tool(&mut rng);
            let message = random_message(&t, &mut rng);
            let (mut stepped, mut reports) = (t, DIRTY);
            let answer = secs_step(&mut stepped, &message, &mut reports);
            let number = answer.answer.unwrap_or(answer.refusal);
            let length = length(number, texts);
            for room_length in [0, length - 1, length, length + 3] {
                let before: Vec<u8> = (0..room_length).map(|_| rng.draw() as u8).collect();
                let (mut after, mut out, mut room) = (t, DIRTY, before.clone());
                let given = exchange(&mut after, &message, texts, &mut out, &mut room);
                assert_eq!(given.items, answer.items);
                if room_length < length {
                    assert_eq!((given.answer, given.length, room), (14, 0, before));
                    assert_eq!((after.bytes(), out), (t.bytes(), Reports::NONE));
                    too_small += 1;
                } else {
                    let mut written = before;
                    assert_eq!(reply(number, texts, &mut written), Ok(length));
                    assert_eq!((given.answer, given.length, room), (number, length, written));
                    assert_eq!((after.bytes(), out), (stepped.bytes(), reports));
                    (fitted, accepted) = (fitted + 1, accepted + (number == 0) as u32);
                }
            }
        }
    });
    println!("{fitted} answers fitted, {accepted} of them accepted; {too_small} didn't");
    assert!(fitted == 40_000 && too_small == 40_000 && accepted > 2_000);
}
