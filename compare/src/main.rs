//! Plays the same inputs to the proved machine and to the independent program, and compares answer, whole state,
//! all ten report entries and the count, byte for byte. A difference is shown by the shortest script that shows
//! it, and ends the comparison with status 1.
//!
//! `compare [N]`: some N inputs in each of the large parts; 100,000 where no N is given. Messages are a fifth of N up
//! to 100,000, and N beyond; messages that are answered, and longer logs, a fourth of these.

mod alarms;
mod answer;
mod laws;
mod machine;
mod pairs;
mod parts;
mod play;
mod pods;
mod predict;
mod queue;
mod script;
mod shown;
mod shrink;
mod table;
mod tell;
#[cfg(test)]
mod tests;
mod undo;
mod wafers;

use std::process::ExitCode;

use answer::{Repliers, Worded};
use independent::gen::Rng;
use independent::requests::texts::Texts;
use machine::{Both, Independent, Proved};
use parts::judge::Judges;
use parts::waiting::Looks;
use parts::{
    alarmed, damaged, edges, foretold, judge, maps, messages, names, odd, out, replies, runs, setups, small,
    states, totalled, twelve, waiting, ways,
};
use play::Finding;
use table::Table;

const SEED: u64 = 20_870_312;

/// The page that has the texts of the answers to the bridge.
const REPLIES: &str = concat!(env!("CARGO_MANIFEST_DIR"), "/../docs/REPLIES.md");

fn main() -> ExitCode {
    let Some(total) = inputs_asked_for() else {
        eprintln!("usage: compare [N]   (some N inputs in each of the large parts, N from 1)");
        return ExitCode::from(2);
    };
    let Some(proved) = Proved::new() else {
        println!("the archive has other sizes than the structs that are lent to it");
        return ExitCode::FAILURE;
    };
    let page = std::fs::read_to_string(REPLIES).unwrap_or_default();
    let texts = match Texts::read(&page) {
        Ok(texts) => texts,
        Err(why) => {
            println!("docs/REPLIES.md has no table of texts, or it can't be read: {why:?}");
            return ExitCode::FAILURE;
        }
    };
    let both = Both { proved: &proved, independent: &Independent };
    let looks =
        Looks { proved: &|records| waiting::proved(&proved, records), independent: &waiting::independent };
    let repliers = Repliers { proved: &proved, independent: &Worded(texts), texts: &texts };
    let judges = Judges { proved: &|log| judge::proved(&proved, log), independent: &judge::independent };
    match compare(&both, &looks, &repliers, &judges, total) {
        Ok(table) => table.end(),
        Err(finding) => {
            println!("{}", tell::tell(&both, &finding));
            ExitCode::FAILURE
        }
    }
}

fn inputs_asked_for() -> Option<u64> {
    let mut words = std::env::args().skip(1);
    let total = words.next().map_or(Some(100_000), |word| word.parse().ok())?;
    (total > 0 && words.next().is_none()).then_some(total)
}

fn compare(
    both: &Both,
    looks: &Looks,
    repliers: &Repliers,
    judges: &Judges,
    total: u64,
) -> Result<Table, Finding> {
    let mut table = Table::begin();
    let mut rng = Rng::new(SEED);
    edges_of_requests(both, total, &mut table, &mut rng)?;
    let along_runs = runs::compare(both, total, &mut rng)?;
    table.line("random runs, every P and B", &along_runs);
    table.runs_accepted = along_runs.percent();
    let without_buffer = runs::without_buffer(both, total, &mut rng)?;
    table.along_runs = along_runs.pairs.or(&without_buffer.pairs);
    table.line("random runs with predictions, B = 0", &without_buffer);
    let from_states = states::compare(both, total, &mut rng)?;
    table.line("inputs from random sound states", &from_states);
    table.at_once = [along_runs.at_once, from_states.at_once];
    table.padded = [along_runs.padded, from_states.padded];
    table.befallen = [along_runs.befallen, from_states.befallen];
    table.foretold = [without_buffer.foretold, from_states.foretold];
    table.totalled = [without_buffer.totalled, from_states.totalled];
    table.violated = [along_runs.violated, from_states.violated];
    table.counted = along_runs.counted.and(&without_buffer.counted);
    table.undone = [along_runs.undone.and(&without_buffer.undone), states::undone(both, total, &rng)?];
    table.damage("every byte damaged", &damaged::every_byte(both, total, &mut rng)?);
    table.damage("parts mixed up", &damaged::mixed_up(both, total / 4, &mut rng)?);
    table.damage("random bytes", &damaged::random_bytes(both, total / 8, &mut rng)?);
    table.line("odd numbers, names and codes", &odd::compare(both, total / 2, &mut rng)?);
    table.by_others = ways::compare(both)?;
    table.tables = waiting::compare(looks, total, &mut rng)?;
    let messages = if total <= 100_000 { total / 5 } else { total };
    table.messages = messages::compare(both, messages, &mut rng)?;
    table.replies = replies::compare(repliers, messages / 4, &mut rng)?;
    table.logs = judge::compare(judges, messages / 4, &mut rng)?;
    Ok(table)
}

/// What the documents give by hand, and all of small tools.
fn edges_of_requests(both: &Both, total: u64, table: &mut Table, rng: &mut Rng) -> Result<(), Finding> {
    table.line("the twelve rows", &twelve::compare(both)?);
    table.line("document 01's edges", &edges::compare(both)?);
    table.line("slot maps the tool can judge", &maps::compare(both)?);
    table.line("names padded with blanks", &names::compare(both)?);
    table.texts = names::texts(both, total, rng)?;
    table.line("a queue for CarrierOut", &out::compare(both)?);
    table.line("prediction of ready to unload", &foretold::compare(both)?);
    table.line("where Tp comes from", &totalled::compare(both, total / 4, rng)?);
    table.line("hands on an AUTO port", &alarmed::compare(both)?);
    table.line("every state of small tools with a queue", &small::queues(both)?);
    table.line("every state of small tools that foretell", &small::predictions(both)?);
    table.line("every state of small tools with alarms", &small::alarms(both)?);
    table.line("set-ups in and out of range", &setups::compare(both, rng)?);
    Ok(())
}
