//! Logs with one byte changed, cut logs, and logs with an entry that shows something else.

use super::*;
use independent::gen::logs::{edited, random_log};
use independent::gen::Rng;
use independent::judge::Log;

/// The entry in which a byte stands; none where it stands before all of them.
fn entry_of(log: &Log, at: usize) -> Option<u64> {
    (log.entries.iter().filter(|place| place.begin <= at).count() as u64).checked_sub(1)
}

/// Every byte of some logs, changed to every other value: the plain judge says the same, and no entry
/// before the changed one disagrees.
#[test]
fn one_byte_changed_at_every_position() {
    let mut rng = Rng::new(53);
    let (mut agree, mut disagree, mut cut) = (0, 0, 0);
    for (ports, places) in [(1, 0), (2, 0), (1, 1), (4, 16), (3, 2)] {
        let log = random_log(ports, places, 14, &mut rng);
        for at in 0..log.bytes.len() {
            let entry = entry_of(&log, at).unwrap_or(0);
            for change in 1..=255 {
                let mut bytes = log.bytes.clone();
                bytes[at] = bytes[at].wrapping_add(change);
                let verdict = judge(&bytes);
                assert_eq!(verdict, plain::judge(&bytes));
                match verdict {
                    // A length that takes more or less makes another log, of fewer entries perhaps.
                    Verdict::Agrees(entries) => {
                        assert!(entries > entry);
                        agree += 1;
                    }
                    Verdict::Disagrees { entry: first, .. } => {
                        assert!(first >= entry);
                        disagree += 1;
                    }
                    Verdict::Refused(refused, agreed) => {
                        assert!(agreed >= entry && (refused == Refused::CutShort || at < 7));
                        cut += 1;
                    }
                }
            }
        }
    }
    println!("{agree} agree still, {disagree} disagree, {cut} are refused");
    assert!(agree > 5_000 && disagree > 100_000 && cut > 20_000);
}

/// A cut log is refused with 29, but for a cut between two entries: then those before it agree.
#[test]
fn cut_at_every_position() {
    let mut rng = Rng::new(54);
    for ports in 1..=4 {
        for places in 0..=16 {
            let log = random_log(ports, places, 60, &mut rng);
            for length in 0..=log.bytes.len() {
                let whole = log.entries.iter().filter(|place| place.begin < length).count() as u64;
                let between =
                    length == log.bytes.len() || log.entries.iter().any(|place| place.begin == length);
                let verdict =
                    if between { Verdict::Agrees(whole) } else { refused(29, whole.saturating_sub(1)) };
                assert_eq!(judge(&log.bytes[..length]), verdict);
            }
        }
    }
}

/// An entry that is whole and shows something else is the first that disagrees, whatever follows.
#[test]
fn edited_entries() {
    let mut rng = Rng::new(55);
    let (mut longer, mut shorter) = (0, 0);
    for (ports, places) in [(1, 0), (2, 3), (4, 0), (4, 16)] {
        let log = random_log(ports, places, 400, &mut rng);
        for (entry, place) in log.entries.iter().enumerate() {
            for _ in 0..10 {
                let bytes = edited(&log, entry, &mut rng);
                let verdict = disagrees(entry as u64, place.begin);
                assert_eq!((judge(&bytes), plain::judge(&bytes)), (verdict, verdict));
                longer += (bytes.len() > log.bytes.len()) as u32;
                shorter += (bytes.len() < log.bytes.len()) as u32;
            }
        }
    }
    println!("{longer} longer, {shorter} shorter, of 16000");
    assert!(longer > 3_000 && shorter > 500);
}

/// Bytes that are no log at all.
#[test]
fn any_bytes() {
    let mut rng = Rng::new(56);
    for _ in 0..50_000 {
        let most = rng.pick(&[2, 6, 30, 256]);
        let length = rng.below(80);
        let mut bytes: Vec<u8> = (0..length).map(|_| rng.below(most) as u8).collect();
        let begin = rng.below(8) as usize;
        bytes.splice(..begin.min(bytes.len()), BEGIN[..begin.min(7)].iter().copied());
        assert_eq!(judge(&bytes), plain::judge(&bytes));
    }
}
