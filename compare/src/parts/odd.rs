//! Odd numbers for number, port, value, clock and time, names of up to 300 bytes of every value,
//! codes of every length and value, and times of wafers of any bits.

use independent::gen::requests::{random_run_input, random_time, random_times};
use independent::gen::{Input, Rng};
use independent::requests::INPUTS;

use super::{at, input, named, timed, wafers, LOST, ODD};
use crate::machine::{Both, SetUp};
use crate::play::{Finding, Player, Tally};

/// Inputs of a run before its state is looked at.
const WARM_UP: u64 = 60;

/// Odd inputs from one state.
const EACH: u32 = 12;

pub fn compare(both: &Both, total: u64, rng: &mut Rng) -> Result<Tally, Finding> {
    let mut tally = Tally::default();
    every_number(both, &mut tally)?;
    every_byte_of_a_name(both, &mut tally)?;
    every_length_of_a_name(both, &mut tally, rng)?;
    every_code(both, &mut tally)?;
    while tally.inputs < total {
        some_state(both, &mut tally, rng)?;
    }
    Ok(tally)
}

/// 0 to 300 and the odd ones as input number, and as port and value of every row.
fn every_number(both: &Both, tally: &mut Tally) -> Result<(), Finding> {
    let mut player = Player::begin(both, tally, 3, 5)?;
    player.expect(named(3, b"A"), 0)?;
    for odd in (0..=300).chain(ODD).chain(LOST) {
        player.look(&input(odd, 1, 1, b"A", &[0; 25]))?;
        for row in [1, 2, 5, 7, 9, 10, 13, 14, 15, 16, 18, 24, 27, 28, 36] {
            player.look(&input(row, odd, 1, b"A", b""))?;
            player.look(&input(row, 1, odd, b"A", b""))?;
        }
        for row in [31, 32, 33, 34] {
            player.look(&timed(row, odd, b"A", odd))?;
        }
        player.look(&wafers(odd, b"A", &[odd as f64; 2]))?;
    }
    for row in 1..=INPUTS {
        for high in LOST {
            player.expect_look(&input(row + high, 1, 0, b"A", &[0; 25]), 1)?;
        }
    }
    Ok(())
}

/// Each value of each byte of a name of 16: a name if and only if the byte is 0x21 to 0x7E, or a blank at the end.
fn every_byte_of_a_name(both: &Both, tally: &mut Tally) -> Result<(), Finding> {
    let mut player = Player::begin(both, tally, 1, 0)?;
    for place in 0..16 {
        for byte in 0..=255 {
            let mut name = *b"ABCDEFGHIJKLMNOP";
            name[place] = byte;
            let good = (0x21..=0x7E).contains(&byte) || place == 15 && byte == 0x20;
            player.expect_look(&named(3, &name), !good as u32)?;
        }
    }
    Ok(())
}

/// Names of 0 to 300 bytes, of good bytes and of any.
fn every_length_of_a_name(both: &Both, tally: &mut Tally, rng: &mut Rng) -> Result<(), Finding> {
    let mut player = Player::begin(both, tally, 1, 0)?;
    for length in 0..=300 {
        let good: Vec<u8> = (0..length).map(|_| 0x21 + rng.below(0x5E) as u8).collect();
        player.expect_look(&named(3, &good), !(1..=16).contains(&length) as u32)?;
        player.look(&named(1 + rng.below(INPUTS), &any_bytes(length, rng)))?;
    }
    Ok(())
}

/// Each value of each of 25 codes, and codes of many lengths, for a carrier whose slot map is awaited.
fn every_code(both: &Both, tally: &mut Tally) -> Result<(), Finding> {
    let mut player = Player::begin(both, tally, 1, 0)?;
    let before =
        [input(1, 1, 0, b"A", b""), at(13, 1), at(14, 1), input(16, 1, 0, b"A", b""), named(19, b"A")];
    for input in before {
        player.expect(input, 0)?;
    }
    for place in 0..25 {
        for code in 0..=255 {
            let mut codes = [0; 25];
            codes[place] = code;
            player.expect_look(&input(20, 0, 0, b"A", &codes), (code > 5) as u32)?;
        }
    }
    for length in (0..=60).chain([255, 256, 257, 280, 281, 300, 65_561]) {
        player.expect_look(&input(20, 0, 0, b"A", &vec![5; length]), (length != 25) as u32)?;
    }
    Ok(())
}

/// Odd inputs from a state that a run reaches.
fn some_state(both: &Both, tally: &mut Tally, rng: &mut Rng) -> Result<(), Finding> {
    let places = if rng.chance(25) { 0 } else { rng.below(17) };
    let (setting, timeout) = random_times(rng);
    let setup = SetUp { ports: 1 + rng.below(4), places, setting, timeout };
    let mut player = Player::set_up(both, tally, setup)?;
    for _ in 0..WARM_UP {
        for _ in 0..EACH {
            let good = random_run_input(&player.tool, rng);
            player.look(&made_odd(good, rng))?;
        }
        let input = random_run_input(&player.tool, rng);
        player.give(input)?;
    }
    Ok(())
}

/// A good input with one part that is odd.
fn made_odd(mut input: Input, rng: &mut Rng) -> Input {
    match rng.below(8) {
        0 => input.number = odd_number(input.number, rng),
        1 => input.port = odd_number(input.port, rng),
        2 => input.value = odd_number(input.value, rng),
        3 => input.clock = odd_number(input.clock, rng),
        4 => input.time = odd_number(input.time, rng),
        5 => input.name = odd_name(&input.name, rng),
        6 => input.wafers = odd_wafers(rng),
        _ => input.codes = odd_codes(&input.codes, rng),
    }
    input
}

fn odd_number(good: u32, rng: &mut Rng) -> u32 {
    if rng.chance(50) {
        rng.pick(&ODD)
    } else {
        good.wrapping_add(rng.pick(&LOST))
    }
}

fn any_bytes(length: u32, rng: &mut Rng) -> Vec<u8> {
    (0..length).map(|_| rng.draw() as u8).collect()
}

/// The name cut, made longer, or with one byte changed; or any bytes.
fn odd_name(good: &[u8], rng: &mut Rng) -> Vec<u8> {
    let mut name = good.to_vec();
    match rng.below(5) {
        0 => name.truncate(rng.below(17) as usize),
        1 => name.resize(rng.below(301) as usize, b'A'),
        2 => name.push(0),
        3 if !name.is_empty() => {
            let at = rng.below(name.len() as u32) as usize;
            name[at] = rng.draw() as u8;
        }
        _ => {
            let length = rng.pick(&[0, 1, 2, 15, 16, 17, 256, 272, 300]);
            name = any_bytes(length, rng);
        }
    }
    name
}

/// Times of any bits, and of any number.
fn odd_wafers(rng: &mut Rng) -> Vec<u64> {
    let count = rng.pick(&[0, 1, 2, 2, 3, 49, 50, 50, 51, 52, 102, 258, 300]);
    (0..count).map(|_| random_time(rng)).collect()
}

/// Codes of another length, or with one code changed; or any bytes.
fn odd_codes(good: &[u8], rng: &mut Rng) -> Vec<u8> {
    let mut codes = good.to_vec();
    match rng.below(4) {
        0 => codes.resize(rng.pick(&[0, 1, 24, 25, 26, 281, 300]), 0),
        1 | 2 if !codes.is_empty() => {
            let at = rng.below(codes.len() as u32) as usize;
            codes[at] = rng.draw() as u8;
        }
        _ => {
            let length = rng.pick(&[0, 24, 25, 26, 300]);
            codes = any_bytes(length, rng);
        }
    }
    codes
}
