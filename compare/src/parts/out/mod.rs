//! P5's edges, with the answers that it gives: a queue for CarrierOut, told as stories of tools whose buffer is stocked.

mod asked;
mod dropped;
mod taken;

use independent::gen::{unpadded, Input};

use super::{at, input, named};
use crate::machine::Both;
use crate::play::{Finding, Player, Tally};

const THREES: [u8; 25] = [3; 25];

/// An input, its answer, and the queue after it: NAME PORT STARTED of each request, the oldest first.
type Told<'a> = (Input, u32, &'a str);

pub fn compare(both: &Both) -> Result<Tally, Finding> {
    let mut tally = Tally::default();
    asked::asked(both, &mut tally)?;
    asked::not_in_the_buffer(both, &mut tally)?;
    asked::sixteen(both, &mut tally)?;
    taken::oldest_first(both, &mut tally)?;
    taken::passed_over(both, &mut tally)?;
    taken::held_ports(both, &mut tally)?;
    taken::reports(both, &mut tally)?;
    taken::until_done(both, &mut tally)?;
    taken::waiting_holds_nothing(both, &mut tally)?;
    dropped::dropped(both, &mut tally)?;
    dropped::cancelled(both, &mut tally)?;
    asked::names(both, &mut tally)?;
    asked::parts_out_of_range(both, &mut tally)?;
    Ok(tally)
}

fn out(name: &[u8], port: u32) -> Input {
    input(7, port, 0, name, b"")
}

fn start(port: u32) -> Input {
    at(27, port)
}

fn done(port: u32) -> Input {
    at(28, port)
}

/// The requests of a tool, as `Told` has them.
fn queue(player: &Player) -> String {
    let one = |r: &independent::requests::queue::Request| {
        format!("{} {} {}", String::from_utf8_lossy(&unpadded(&r.name)), r.port, r.started)
    };
    let all: Vec<String> = player.tool.queue.requests().iter().map(one).collect();
    all.join("; ")
}

/// A tool with verified carriers of these names in places 1, 2 and so on. They come by the last port.
fn stocked<'a>(
    both: &'a Both,
    tally: &'a mut Tally,
    (ports, places): (u32, u32),
    names: &[&[u8]],
) -> Result<Player<'a>, Finding> {
    let mut player = Player::begin(both, tally, ports, places)?;
    for (place, name) in (1..).zip(names) {
        for input in
            [input(1, ports, 0, name, b""), at(13, ports), at(14, ports), input(16, ports, 0, name, b"")]
        {
            player.expect(input, 0)?;
        }
        player.expect(input(18, ports, place, b"", b""), 0)?;
    }
    Ok(player)
}

/// Gives the inputs one after another.
fn tell(player: &mut Player, story: &[Told]) -> Result<(), Finding> {
    for (input, answer, left) in story {
        player.expect(input.clone(), *answer)?;
        let is = queue(player);
        player.demand(is == *left, || format!("after the last input the queue is [{left}], not [{is}]"))?;
    }
    Ok(())
}
