//! P9's edges, with the answers that it gives: hands on an AUTO port, told as stories.

mod cleared;
mod held;
mod refused;
mod started;

use independent::gen::Input;
use independent::requests::alarms::Alarm;

use super::{at, automatic, input, named, LOST, ODD};
use crate::machine::{Both, SetUp};
use crate::play::{Finding, Player, Tally};

/// Starts by hand are `at`: their value is 0.
const LOAD: u32 = 13;
const DONE: u32 = 14;
const FAIL: u32 = 15;
const UNLOAD: u32 = 24;
const UNLOADED: u32 = 25;
const UNLOAD_FAIL: u32 = 26;
const CONTINUE: u32 = 36;

/// An input, its answer, its reports, and the alarms after it: ALARM HELD of each port.
type Told<'a> = (Input, u32, &'a str, &'a str);

pub fn compare(both: &Both) -> Result<Tally, Finding> {
    let mut tally = Tally::default();
    started::raised(both, &mut tally)?;
    started::as_the_mode_has_it(both, &mut tally)?;
    started::a_second_time(both, &mut tally)?;
    started::reserved_and_tied(both, &mut tally)?;
    held::until_continue(both, &mut tally)?;
    held::until_load_fail(both, &mut tally)?;
    held::still_loading(both, &mut tally)?;
    held::beside_each_other(both, &mut tally)?;
    held::off_runs(both, &mut tally)?;
    cleared::unloaded(both, &mut tally)?;
    cleared::moved_in(both, &mut tally)?;
    cleared::back_in_service(both, &mut tally)?;
    cleared::not_cleared(both, &mut tally)?;
    refused::values(both, &mut tally)?;
    refused::lowest_first(both, &mut tally)?;
    refused::nothing_held(both, &mut tally)?;
    refused::ports(both, &mut tally)?;
    Ok(tally)
}

/// A tool whose ports are all in AUTO.
fn in_auto<'a>(both: &'a Both, tally: &'a mut Tally, setup: SetUp) -> Result<Player<'a>, Finding> {
    let mut player = Player::set_up(both, tally, setup)?;
    for port in 1..=setup.ports {
        player.expect(input(9, port, 1, b"", b""), 0)?;
    }
    Ok(player)
}

/// The alarms of a tool, as `Told` has them.
fn alarms(player: &Player) -> String {
    let used = player.tool.alarms.iter().take(player.tool.base.ports as usize);
    let all: Vec<String> = used.map(|alarm| format!("{} {}", alarm.on, alarm.held)).collect();
    all.join("; ")
}

/// Gives the inputs one after another.
fn tell(player: &mut Player, story: &[Told]) -> Result<(), Finding> {
    for (input, answer, reports, left) in story {
        if *answer == 0 {
            player.expect_reports(input, reports)?;
        }
        player.expect(input.clone(), *answer)?;
        let is = alarms(player);
        player.demand(is == *left, || format!("after the last input the alarms are [{left}], not [{is}]"))?;
    }
    Ok(())
}

/// A carrier comes to an AUTO port by vehicle and is cancelled: the port is READY TO UNLOAD.
fn to_unload(player: &mut Player, port: u32, name: &[u8]) -> Result<(), Finding> {
    for input in [automatic(LOAD, port), at(DONE, port), input(16, port, 0, name, b""), named(6, name)] {
        player.expect(input, 0)?;
    }
    Ok(())
}

/// A pod is brought by hand to an AUTO port, and held.
fn hold(player: &mut Player, port: u32) -> Result<(), Finding> {
    player.expect(at(LOAD, port), 0)?;
    player.expect(at(DONE, port), 0)?;
    let is = player.tool.alarms[port as usize - 1];
    player.demand(is == Alarm { on: 1, held: 1 }, || "a pod that is brought by hand in AUTO is held".into())
}

/// Compares answers without going on.
fn looks(player: &mut Player, answers: &[(Input, u32)]) -> Result<(), Finding> {
    answers.iter().try_for_each(|(input, answer)| player.expect_look(input, *answer))
}
