//! The parts of the comparison. Each gives its inputs to both programs and counts them.

pub mod alarmed;
pub mod damaged;
pub mod edges;
pub mod foretold;
pub mod judge;
pub mod maps;
pub mod messages;
pub mod names;
pub mod odd;
pub mod out;
pub mod replies;
pub mod runs;
pub mod setups;
pub mod small;
pub mod states;
pub mod totalled;
pub mod twelve;
pub mod waiting;
pub mod ways;

use independent::gen::Input;

/// Numbers that are near a limit, or that one is tempted to cut short.
pub const ODD: [u32; 15] =
    [0, 5, 17, 26, 27, 35, 36, 37, 255, 256, 257, 1 << 16, 1 << 31, (1 << 31) - 1, u32::MAX];

/// What a good number becomes where its high bits are lost.
pub const LOST: [u32; 3] = [1 << 8, 1 << 16, 1 << 31];

/// The three limits of a name: the shortest, the longest, and one byte more.
pub const SHORTEST: &[u8] = b"A";
pub const LONGEST: &[u8] = b"ABCDEFGHIJKLMNOP";
pub const TOO_LONG: &[u8] = b"ABCDEFGHIJKLMNOPQ";

pub fn input(number: u32, port: u32, value: u32, name: &[u8], codes: &[u8]) -> Input {
    Input { number, port, value, name: name.to_vec(), codes: codes.to_vec(), ..Input::default() }
}

/// An input that brings the clock.
pub fn timed(number: u32, clock: u32, name: &[u8], time: u32) -> Input {
    Input { clock, time, ..named(number, name) }
}

/// An input that brings the clock and the times of wafers.
pub fn wafers(clock: u32, name: &[u8], times: &[f64]) -> Input {
    Input { clock, wafers: times.iter().map(|time| time.to_bits()).collect(), ..named(35, name) }
}

/// An input that names a port alone.
pub fn at(number: u32, port: u32) -> Input {
    input(number, port, 0, b"", b"")
}

/// A LoadStart or UnloadStart by a vehicle; by hand it is `at`.
pub fn automatic(number: u32, port: u32) -> Input {
    input(number, port, 1, b"", b"")
}

/// An input that names a carrier alone.
pub fn named(number: u32, name: &[u8]) -> Input {
    input(number, 0, 0, name, b"")
}
