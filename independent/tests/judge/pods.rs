//! P11 before any request: document 01 holds no pod, so that in a log every accepted LoadDone counts, and no other
//! input brings one.

use independent::gen::logs::random_log;
use independent::gen::Rng;
use independent::requests::pods::here;
use independent::{setup, step, Reports, Tool};

use super::*;

/// What a log has shown so far.
#[derive(Default)]
struct Counts {
    loads: u64,
    /// Of these, the loads by hand in AUTO, which P9 would hold.
    by_hand_in_auto: u64,
    unloads: u64,
    refused: u64,
}

/// Reads a log entry by entry: after each one accepted LoadDone less accepted UnloadDone is what is here.
fn counted(bytes: &[u8], entries: &[(usize, usize)], counts: &mut Counts) {
    let mut tool = Tool::NONE;
    assert_eq!(setup(bytes[5] as u32, bytes[6] as u32, &mut tool), 0);
    let (mut came, mut went) = (0, 0);
    let mut started = [0; 5];
    for &(begin, end) in entries {
        let (i, answer_at) = plain::input_of(&bytes[begin..end]);
        let accepted = bytes[begin + answer_at] == 0;
        step(&mut tool, i.number, i.port, i.value, &i.name, &i.codes, &mut { Reports::NONE });
        match (i.number, accepted) {
            (13, true) => started[i.port as usize] = i.value,
            (14, true) => {
                came += 1;
                let p = i.port as usize;
                counts.by_hand_in_auto += (started[p] == 0 && tool.port[p - 1].access == 1) as u64;
            }
            (25, true) => went += 1,
            (14 | 25 | 36, false) => counts.refused += 1,
            _ => {}
        }
        let (ports, buffer) = here(&tool);
        assert_eq!(came - went, (ports + buffer) as u64, "{i:?}");
    }
    counts.loads += came;
    counts.unloads += went;
}

#[test]
fn every_accepted_load_done_of_a_log_counts() {
    let mut rng = Rng::new(113);
    let mut counts = Counts::default();
    for ports in 1..=4 {
        for places in [0, 1, 3, 16] {
            let log = random_log(ports, places, 2_000, &mut rng);
            let entries: Vec<_> =
                log.entries.iter().enumerate().map(|(k, e)| (e.begin, log.end(k))).collect();
            assert_eq!(judge(&log.bytes), Verdict::Agrees(2_000));
            counted(&log.bytes, &entries, &mut counts);
        }
    }
    let Counts { loads, by_hand_in_auto, unloads, refused } = counts;
    println!(
        "{loads} loads, {by_hand_in_auto} of them by hand in AUTO, {unloads} unloads, {refused} refused"
    );
    assert!(loads > 1_000 && by_hand_in_auto > 50 && unloads > 800 && refused > 300);
}
