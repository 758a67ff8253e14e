//! The time per input, of both programs in one run.

use std::hint::black_box;
use std::time::Instant;

use independent::requests::Tool;
use independent::{Plain, Reports};

use crate::frame;
use crate::logs;
use crate::machine::{independent, independent_known_sound, proved, reading_alone, Step};
use crate::messages;
use crate::mix::{record, record_foretelling, Mix};

const CARRIERS: usize = 27;

const STEPS: [(&str, Step); 4] = [
    ("proved", proved),
    ("independent", independent),
    ("independent, without soundness", independent_known_sound),
    ("reading the inputs alone", reading_alone),
];

/// Times `count` inputs in some rounds and prints the least of each; fails where the programs differ.
pub fn time(count: usize, rounds: usize) -> Result<(), String> {
    messages::time(count.div_ceil(10), rounds)?;
    logs::time(count, rounds)?;
    frame::time(count, rounds)?;
    let foretelling = record_foretelling(count);
    println!(
        "{count} inputs, P = 4, B = 0, {}; {} reports of model 8, {} of model 9",
        words(&foretelling),
        foretelling.turns,
        foretelling.alarms
    );
    let ratio = time_mix(&foretelling, rounds)?;
    println!("ratio of the mix without a buffer: {ratio:.2}");
    let mix = record(count, CARRIERS);
    println!(
        "{count} inputs, P = 4, B = 16, {}; {} slot maps OK at once, {} reports of model 9",
        words(&mix),
        mix.at_once,
        mix.alarms
    );
    let ratio = time_mix(&mix, rounds)?;
    println!("ratio {ratio:.2}");
    Ok(())
}

fn words(mix: &Mix) -> String {
    format!("{:.1} live carriers, {:.1} % accepted", mix.live(), mix.percent_accepted())
}

/// Times a mix, and prints the least of each program; gives the ratio of the first two.
fn time_mix(mix: &Mix, rounds: usize) -> Result<f64, String> {
    let digests = STEPS[..3].iter().map(|(_, step)| digest(mix, *step)).collect::<Vec<u64>>();
    if digests.iter().any(|&d| d != digests[0]) {
        return Err(format!(
            "answers, reports or final tools differ: digests {digests:x?}; run the comparison"
        ));
    }
    println!("digest of both {:016x}", digests[0]);
    let mut least = [f64::INFINITY; STEPS.len()];
    for _ in 0..rounds {
        for (least, (_, step)) in least.iter_mut().zip(STEPS) {
            *least = least.min(one_round(mix, step));
        }
    }
    for (least, (name, _)) in least.iter().zip(STEPS) {
        println!("{name:<32}{least:>9.1} ns per input");
    }
    Ok(least[0] / least[1])
}

fn one_round(mix: &Mix, step: Step) -> f64 {
    let step = black_box(step);
    let mut tool = mix.start;
    let mut reports = Reports::NONE;
    let mut sum = 0u32;
    let begun = Instant::now();
    for i in mix.inputs() {
        sum = sum.wrapping_add(step(&mut tool, &i, &mut reports));
    }
    let took = begun.elapsed();
    black_box((sum, &tool, &reports));
    took.as_nanos() as f64 / mix.len() as f64
}

/// Of every answer and all reports, and of the final tool.
fn digest(mix: &Mix, step: Step) -> u64 {
    let mut tool: Tool = mix.start;
    let mut reports = Reports::NONE;
    let mut sum = 0xCBF2_9CE4_8422_2325;
    for i in mix.inputs() {
        let answer = step(&mut tool, &i, &mut reports);
        sum = fold(fold(sum, &answer.to_le_bytes()), reports.bytes());
    }
    fold(sum, tool.bytes())
}

fn fold(sum: u64, bytes: &[u8]) -> u64 {
    bytes.iter().fold(sum, |sum, &byte| (sum ^ byte as u64).wrapping_mul(0x0100_0000_01B3))
}
