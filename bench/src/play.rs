//! Inputs played to the proved machine alone, for what counts instructions. Each call of `hm_step` prints a line,
//! `CARRIERS NUMBER ANSWER NAMES PORT VALUE NAME CODES`, where CODES is how many there were; each of `hm_time_step`,
//! where those are played, `CARRIERS NUMBER ANSWER REPORTS`; each of `hm_wafers_step` `CARRIERS NUMBER ANSWER WAFERS`;
//! each of `hm_name` `BYTES NAME KIND`, where NAME is how many bytes the name has.

use hawsermole::Row;
use independent::gen::{Input, Rng};
use independent::requests::predict::{brings_clock, is_timed, CLOCK};
use independent::requests::wafers::WAFERS;
use independent::requests::{Tool, INPUTS};
use independent::Reports;

use crate::machine::proved;
use crate::machine::{
    caller_of_hm_name, caller_of_hm_step, caller_of_hm_time_step, caller_of_hm_wafers_step,
};
use crate::mix::record;
use crate::states::{damaged, prepared, FAMILIES};

/// The row of an input that is given by its name or its number.
pub fn row_of(word: &str) -> Option<u32> {
    let numbered = || Row::numbered(word.parse().ok()?);
    Row::named(word).or_else(numbered).map(|row| row.number)
}

/// A recorded mix, near a number of live carriers.
pub fn mix(count: usize, carriers: usize) {
    let mix = record(count, carriers);
    let mut tool = mix.start;
    let mut reports = Reports::NONE;
    for i in mix.inputs() {
        let live = tool.base.count;
        let answer = proved(&mut tool, &i, &mut reports);
        // An input that brings the clock is no call of `hm_step`.
        if !brings_clock(i.number) {
            println!("{live} {} {answer} mixed", i.number);
        }
    }
}

fn call(tool: &Tool, i: &Input, names: &str) {
    let mut next = *tool;
    let mut reports = Reports::NONE;
    if is_timed(i.number) {
        caller_of_hm_time_step(&mut next, i.number, i.clock, &i.name, i.time, &mut reports);
        return;
    }
    if i.number == WAFERS {
        caller_of_hm_wafers_step(&mut next, i.clock, &i.name, &i.times(), &mut reports);
        return;
    }
    let answer = caller_of_hm_step(&mut next, i.number, i.port, i.value, &i.name, &i.codes, &mut reports);
    let name = String::from_utf8_lossy(&i.name);
    let (carriers, number, port, value, codes) = (tool.base.count, i.number, i.port, i.value, i.codes.len());
    println!("{carriers} {number} {answer} {names} {port} {value} {name} {codes}");
}

/// One row, each time from another prepared state with so many live carriers; accepted where some state can have it so.
pub fn one_row(row: u32, count: usize, carriers: usize) {
    let mut rng = Rng::new(87);
    for k in 0..count {
        let family = k % FAMILIES.len();
        let (state, input) = prepared(carriers, family, row, true, &mut rng);
        call(&state, &input, FAMILIES[family]);
    }
}

/// Every row in turn, accepted and refused, each from another prepared state: where the worst input is looked for.
pub fn search(count: usize, carriers: usize) {
    let mut rng = Rng::new(312);
    for k in 0..count {
        let (row, turn) = (1 + k as u32 % INPUTS, k / INPUTS as usize);
        let family = turn / 2 % FAMILIES.len();
        let (state, input) = prepared(carriers, family, row, turn % 2 == 0, &mut rng);
        call(&state, &input, FAMILIES[family]);
    }
}

/// The inputs that bring the clock in turn, accepted and refused, each from another prepared state.
pub fn timed(count: usize, carriers: usize) {
    let mut rng = Rng::new(7);
    for k in 0..count {
        let (row, turn) = (CLOCK + (k % 4) as u32, k / 4);
        let family = turn / 2 % FAMILIES.len();
        let (state, i) = prepared(carriers, family, row, turn % 2 == 0, &mut rng);
        let (mut next, mut reports) = (state, Reports::NONE);
        let answer = caller_of_hm_time_step(&mut next, i.number, i.clock, &i.name, i.time, &mut reports);
        println!("{} {} {answer} {}", state.base.count, i.number, reports.as_slice().len());
    }
}

/// Wafers, accepted and refused, each from another prepared state.
pub fn wafers(count: usize, carriers: usize) {
    let mut rng = Rng::new(35);
    for k in 0..count {
        let family = k / 2 % FAMILIES.len();
        let (state, i) = prepared(carriers, family, WAFERS, k % 2 == 0, &mut rng);
        let (mut next, mut reports) = (state, Reports::NONE);
        let answer = caller_of_hm_wafers_step(&mut next, i.clock, &i.name, &i.times(), &mut reports);
        println!("{} {} {answer} {}", state.base.count, i.number, i.wafers.len() / 2);
    }
}

/// Every row in turn from a state that isn't sound.
pub fn unsound(count: usize, carriers: usize) {
    let mut rng = Rng::new(1);
    for k in 0..count {
        let row = 1 + k as u32 % INPUTS;
        let (state, input) = prepared(carriers, 0, row, true, &mut rng);
        call(&damaged(&state, &mut rng), &input, "damaged");
    }
}

/// Texts of 1, 16 and 32 bytes: names, padded ones and one that has too many bytes left.
pub fn names() {
    let texts = [("A", 0, "a name"), ("CARRIER-38-LO-07", 0, "a name"), ("LOT-7", 11, "padded")];
    let longer = [
        ("CARRIER-38-LO-07", 16, "padded"),
        ("A", 31, "padded"),
        ("CARRIER-38-LO-07CARRIER-38-LO-07", 0, "none"),
    ];
    for (name, blanks, kind) in texts.into_iter().chain(longer) {
        let text = format!("{name}{}", " ".repeat(blanks));
        let length = caller_of_hm_name(text.as_bytes());
        println!("{} {length} {kind}", text.len());
    }
}
