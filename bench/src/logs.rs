//! Logs of other tools: how many entries a second each program judges, of one log that was recorded along a run.

use std::hint::black_box;
use std::time::Instant;

use hawsermole::raw::{self, REPORTS_BYTES, TOOL_01_BYTES};
use independent::gen::logs::random_log;
use independent::gen::Rng;
use independent::judge::{judge, Log, Verdict};

/// 0 and how many entries agree; or 1, or the refusal, and how many agreed before.
type Said = (u32, u64);

type Judge = fn(&[u8]) -> Said;

const JUDGES: [(&str, Judge); 2] = [("proved", proved), ("independent", independent)];

fn proved(log: &[u8]) -> Said {
    let mut judged = [0; 3];
    let (mut tool, mut reports) = ([0; TOOL_01_BYTES], [0; REPORTS_BYTES]);
    // SAFETY: the sizes are the archive's, which document 01 fixes.
    let answer = unsafe { raw::judge(log, &mut tool, &mut reports, &mut judged) };
    (answer, judged[0])
}

fn independent(log: &[u8]) -> Said {
    match judge(log) {
        Verdict::Agrees(entries) => (0, entries),
        Verdict::Disagrees { entry, .. } => (1, entry),
        Verdict::Refused(refused, entries) => (refused as u32, entries),
    }
}

fn record(entries: usize) -> Log {
    random_log(4, 16, entries, &mut Rng::new(14))
}

/// Times the judging of a log of so many entries, by both programs in turn, in some rounds. Fails where a program
/// doesn't agree with the log.
pub fn time(count: usize, rounds: usize) -> Result<(), String> {
    let log = record(count);
    let accepted = log.entries.iter().filter(|place| log.bytes[place.answer] == 0).count();
    let percent = 100.0 * accepted as f64 / count as f64;
    let size = log.bytes.len();
    println!("a log of {count} entries, P = 4, B = 16, {size} bytes, {percent:.1} % accepted");
    let said = JUDGES.map(|(_, judge)| judge(&log.bytes));
    if said != [(0, count as u64); 2] {
        return Err(format!("the log should agree: {:?}, {:?}; run the comparison", said[0], said[1]));
    }
    let mut least = [f64::INFINITY; JUDGES.len()];
    for _ in 0..rounds {
        for (least, (_, judge)) in least.iter_mut().zip(JUDGES) {
            *least = least.min(one_round(&log.bytes, judge));
        }
    }
    for (seconds, (name, _)) in least.iter().zip(JUDGES) {
        println!("{name:<32}{:>9.0} entries a second", count as f64 / seconds);
    }
    println!("ratio of a log: {:.2}", least[0] / least[1]);
    Ok(())
}

/// The seconds of one judging.
fn one_round(log: &[u8], judge: Judge) -> f64 {
    let judge = black_box(judge);
    let begun = Instant::now();
    black_box(judge(black_box(log)));
    begun.elapsed().as_secs_f64()
}

#[cfg(test)]
mod tests {
    use super::*;

    #[test]
    fn both_judge_the_same_log() {
        let log = record(300);
        assert_eq!((independent(&log.bytes), proved(&log.bytes)), ((0, 300), (0, 300)));
        let cut = &log.bytes[..log.bytes.len() - 1];
        assert_eq!((independent(cut), proved(cut)), ((29, 299), (29, 299)));
        assert!(time(50, 1).is_ok());
    }
}
