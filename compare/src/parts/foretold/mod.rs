//! P7's edges, with the answers that it gives: predictions, told as stories of tools without a buffer.

mod judged;
mod ready;
mod refused;
mod scenarios;
mod times;

use independent::gen::{unpadded, Input};

use super::{at, input, named, timed};
use crate::machine::{Both, SetUp};
use crate::play::{Finding, Player, Tally};

pub const CLOCK: u32 = 31;
pub const TP: u32 = 32;
pub const TE: u32 = 33;
pub const NONE: u32 = 34;

pub const LAST: u32 = u32::MAX;

/// An input that is accepted, its reports, and the predictions after it: NAME STATE TP TE of each record.
pub type Told<'a> = (Input, &'a str, &'a str);

pub fn compare(both: &Both) -> Result<Tally, Finding> {
    let mut tally = Tally::default();
    scenarios::all(both, &mut tally)?;
    judged::at_the_setting(both, &mut tally)?;
    judged::at_the_timeout(both, &mut tally)?;
    judged::in_the_past(both, &mut tally)?;
    judged::estimates(both, &mut tally)?;
    judged::in_record_order(both, &mut tally)?;
    judged::near_the_last_clock(both, &mut tally)?;
    ready::completed(both, &mut tally)?;
    ready::while_it_waits(both, &mut tally)?;
    ready::cancelled(both, &mut tally)?;
    ready::setting_of_0(both, &mut tally)?;
    ready::at_an_unknown_pod(both, &mut tally)?;
    ready::records(both, &mut tally)?;
    refused::lowest_first(both, &mut tally)?;
    refused::clocks(both, &mut tally)?;
    refused::second_tp(both, &mut tally)?;
    refused::with_a_buffer(both, &mut tally)?;
    refused::names(both, &mut tally)?;
    times::setups(both, &mut tally)?;
    times::numbers(both, &mut tally)?;
    Ok(tally)
}

/// The predictions of a tool, as `Told` has them.
pub fn predictions(player: &Player) -> String {
    let tool = &player.tool;
    let time = |time: Option<u32>| time.map_or("-".to_string(), |time| time.to_string());
    let one = |(c, p): (&independent::Carrier, &independent::requests::predict::Prediction)| {
        let name = unpadded(&c.name);
        format!("{} {} {} {}", String::from_utf8_lossy(&name), p.state, time(p.tp()), time(p.te()))
    };
    let all: Vec<String> = tool.base.carriers().iter().zip(&tool.predictions.of).map(one).collect();
    all.join("; ")
}

/// Carriers of these names come to ports 1, 2 and so on, are verified and accessed.
pub fn accessed<'a>(
    both: &'a Both,
    tally: &'a mut Tally,
    (setting, timeout): (u32, u32),
    names: &[&[u8]],
) -> Result<Player<'a>, Finding> {
    let setup = SetUp::fixed(names.len() as u32, setting, timeout);
    let mut player = Player::set_up(both, tally, setup)?;
    for (port, name) in (1..).zip(names) {
        access(&mut player, port, name)?;
    }
    Ok(player)
}

pub fn access(player: &mut Player, port: u32, name: &[u8]) -> Result<(), Finding> {
    let before = [input(1, port, 0, name, b""), at(13, port), at(14, port), input(16, port, 0, name, b"")];
    let map = input(20, 0, 0, name, &[3; 25]);
    for input in before.into_iter().chain([named(19, name), map, named(5, name), named(21, name)]) {
        player.expect(input, 0)?;
    }
    Ok(())
}

/// The access ends, and the carrier is closed.
pub fn finish(player: &mut Player, name: &[u8]) -> Result<(), Finding> {
    player.expect(named(22, name), 0)?;
    player.expect(named(23, name), 0)?;
    Ok(())
}

/// Gives the inputs one after another.
pub fn tell(player: &mut Player, story: &[Told]) -> Result<(), Finding> {
    for (input, reports, left) in story {
        player.expect_reports(input, reports)?;
        player.expect(input.clone(), 0)?;
        let is = predictions(player);
        player.demand(is == *left, || format!("after the last input it is foretold [{left}], not [{is}]"))?;
    }
    Ok(())
}

pub fn clock(clock: u32) -> Input {
    timed(CLOCK, clock, b"", 0)
}

pub fn tp(clock: u32, name: &[u8], tp: u32) -> Input {
    timed(TP, clock, name, tp)
}

pub fn te(clock: u32, name: &[u8], te: u32) -> Input {
    timed(TE, clock, name, te)
}

pub fn none(clock: u32, name: &[u8]) -> Input {
    timed(NONE, clock, name, 0)
}
