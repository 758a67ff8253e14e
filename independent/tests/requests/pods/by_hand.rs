//! Each row that a pod comes by, or goes by, or seems to.

use super::*;

const MANUAL: u32 = 0;
const AUTO: u32 = 1;

impl Counted {
    fn of(p: u32, b: u32) -> Counted {
        Counted::new(tool(p, b))
    }

    fn input(&mut self, number: u32, port: u32, value: u32, name: &str) -> u32 {
        let name = name.as_bytes().to_vec();
        self.give(Input { number, port, value, name, ..Input::default() }).0
    }

    /// Inputs that name a port and a value, all of which are accepted.
    fn go(&mut self, inputs: &[(u32, u32, u32)]) -> &mut Counted {
        for &(number, port, value) in inputs {
            assert_eq!(self.input(number, port, value, ""), 0, "row {number} at {port}");
        }
        self
    }

    /// Inputs that name a port and a carrier, all of which are accepted.
    fn name(&mut self, inputs: &[(u32, u32, &str)]) -> &mut Counted {
        for &(number, port, name) in inputs {
            assert_eq!(self.input(number, port, 0, name), 0, "row {number} of {name}");
        }
        self
    }

    /// A pod of this name comes to a port by hand and goes on to a buffer place.
    fn stored(&mut self, port: u32, place: u32, name: &str) -> &mut Counted {
        self.go(&[(13, port, 0), (14, port, 0)])
            .name(&[(16, port, name), (5, 0, name)])
            .go(&[(18, port, place)])
    }
}

#[test]
fn a_load_and_an_unload() {
    let mut day = Counted::of(2, 0);
    day.go(&[(13, 1, 0)]);
    assert_eq!(day.counts(), (0, 0, 0, 0));
    day.go(&[(14, 1, 0)]);
    assert_eq!(day.counts(), (1, 0, 1, 0));
    day.name(&[(16, 1, "A"), (6, 0, "A")]).go(&[(24, 1, 0)]);
    assert_eq!(day.counts(), (1, 0, 1, 0));
    day.go(&[(26, 1, 0), (24, 1, 0), (25, 1, 0)]);
    assert_eq!(day.counts(), (1, 1, 0, 0));
    assert_eq!(plainly(&day.run), (1, 1));
}

#[test]
fn a_load_that_fails_brings_nothing() {
    let mut day = Counted::of(1, 0);
    day.go(&[(13, 1, 0), (15, 1, 0), (13, 1, 0), (14, 1, 0)]);
    assert_eq!(day.counts(), (1, 0, 1, 0));
}

/// Held, the pod isn't in. It comes in with Continue, or is taken off again.
#[test]
fn a_held_load() {
    let mut day = Counted::of(2, 0);
    day.go(&[(9, 1, AUTO), (9, 2, AUTO), (13, 1, MANUAL), (13, 2, MANUAL)]);
    for port in [1, 2] {
        assert_eq!(day.give(Input { number: 14, port, ..Input::default() }), (0, true));
        assert_eq!(day.input(14, port, 0, ""), 5);
    }
    assert_eq!(day.counts(), (0, 0, 0, 0));
    day.go(&[(36, 1, 0)]);
    assert_eq!(day.counts(), (1, 0, 1, 0));
    day.go(&[(15, 2, 0)]);
    assert_eq!(day.counts(), (1, 0, 1, 0));
    // What was held before says nothing of the next load there.
    day.go(&[(13, 2, 1)]);
    assert_eq!(day.give(Input { number: 14, port: 2, ..Input::default() }), (0, false));
    assert_eq!(day.counts(), (2, 0, 2, 0));
    assert_eq!(plainly(&day.run), (2, 0));
}

/// By hand in MANUAL nothing is held, nor by vehicle in AUTO; a port's mode is its own, and the latest.
#[test]
fn modes_and_starts() {
    let mut day = Counted::of(4, 0);
    day.go(&[(9, 2, AUTO), (9, 3, AUTO), (9, 3, MANUAL), (9, 4, AUTO), (9, 4, AUTO)]);
    day.go(&[(13, 1, 0), (13, 2, 1), (13, 3, 0), (13, 4, 0)]);
    let held = [1, 2, 3, 4].map(|port| day.give(Input { number: 14, port, ..Input::default() }));
    assert_eq!(held, [(0, false), (0, false), (0, false), (0, true)]);
    assert_eq!(day.counts(), (3, 0, 3, 0));
    assert_eq!(plainly(&day.run), (3, 0));
}

/// Neither a change of mode that is refused counts, nor a start that is.
#[test]
fn what_is_refused_says_nothing() {
    let mut day = Counted::of(2, 0);
    assert_eq!(day.input(13, 1, 1, ""), 13);
    day.go(&[(13, 1, 0)]);
    assert_eq!(day.input(9, 1, AUTO, ""), 5);
    assert_eq!(day.input(13, 1, 0, ""), 5);
    assert_eq!(day.input(36, 1, 0, ""), 5);
    assert_eq!(day.input(25, 1, 0, ""), 5);
    day.go(&[(14, 1, 0)]);
    assert_eq!(day.counts(), (1, 0, 1, 0));
    assert_eq!(day.input(14, 1, 0, ""), 5);
    // A mode that is changed after the load says nothing of it.
    day.go(&[(9, 1, AUTO)]);
    assert_eq!(day.input(36, 1, 0, ""), 5);
    day.go(&[(9, 2, AUTO), (13, 2, 0)]);
    assert_eq!((day.input(13, 2, 1, ""), day.input(9, 2, MANUAL, "")), (5, 5));
    assert_eq!(day.give(Input { number: 14, port: 2, ..Input::default() }), (0, true));
    assert_eq!(day.counts(), (1, 0, 1, 0));
    assert_eq!(plainly(&day.run), (1, 0));
}

/// Numbers that aren't ports of the tool are refused; the count is of the ports that a number means, not of its low
/// bits.
#[test]
fn odd_numbers_for_ports() {
    let mut day = Counted::of(2, 0);
    day.go(&[(9, 1, AUTO), (13, 1, MANUAL), (13, 2, 0)]);
    for port in [0, 3, 4, 5, 255, 256, 257, 258, 1 << 16, (1 << 16) + 1, (1 << 31) + 1, u32::MAX] {
        for number in [9, 13, 14, 25, 36] {
            assert_eq!(day.input(number, port, 0, ""), 1, "row {number} at {port}");
        }
    }
    assert_eq!(day.give(Input { number: 14, port: 1, ..Input::default() }), (0, true));
    day.go(&[(14, 2, u32::MAX), (36, 1, u32::MAX)]);
    assert_eq!(day.counts(), (2, 0, 2, 0));
}

/// Into the buffer, out of it, back inside and away: only the last one counts.
#[test]
fn through_the_buffer() {
    let mut day = Counted::of(2, 3);
    day.stored(1, 2, "A   ").stored(1, 3, "B");
    assert_eq!(day.counts(), (2, 0, 0, 2));
    day.name(&[(7, 1, "A "), (7, 2, "B")]).go(&[(27, 1, 0)]);
    assert_eq!(day.counts(), (2, 0, 0, 2));
    day.go(&[(28, 1, 0)]);
    assert_eq!(day.counts(), (2, 0, 1, 1));
    day.name(&[(8, 0, "A")]);
    assert_eq!(day.counts(), (2, 0, 1, 1));
    day.go(&[(18, 1, 1)]);
    assert_eq!(day.counts(), (2, 0, 0, 2));
    day.go(&[(27, 2, 0), (28, 2, 0), (24, 2, 0), (25, 2, 0)]);
    assert_eq!(day.counts(), (2, 1, 0, 1));
    assert_eq!(plainly(&day.run), (2, 1));
}

/// Names are no part of the count: carriers that are expected, bound or cancelled there are none of the pods here.
#[test]
fn carriers_without_a_pod() {
    let mut day = Counted::of(2, 1);
    day.name(&[(1, 1, "A  "), (3, 0, "B")]);
    assert_eq!(day.counts(), (0, 0, 0, 0));
    day.name(&[(2, 1, "A")]).name(&[(4, 0, "B ")]);
    day.go(&[(11, 1, 0), (13, 1, 0), (14, 1, 0), (17, 1, 0)]);
    assert_eq!(day.counts(), (1, 0, 1, 0));
    // A pod whose name couldn't be read, and the record that is made for it later, are one.
    day.name(&[(6, 1, "C")]);
    assert_eq!(day.counts(), (1, 0, 1, 0));
    day.go(&[(24, 1, 0), (25, 1, 0)]);
    assert_eq!(day.counts(), (1, 1, 0, 0));
}

/// A wrong program may accept anything: a number that is no port counts all the same, and more that went than came is
/// no agreement.
#[test]
fn the_count_of_a_wrong_run() {
    let empty = tool(1, 0).base;
    let mut pods = Pods::AT_SETUP;
    assert!(!pods.note(14, 0, 0, 0) && !pods.note(13, 9, 0, 0) && !pods.note(9, u32::MAX, 1, 0));
    assert_eq!((pods.came(), pods.agrees(&empty)), (1, false));
    pods.note(25, 5, 0, 0);
    assert!(pods.agrees(&empty));
    pods.note(25, 1, 0, 0);
    assert_eq!((pods.came(), pods.went(), pods.agrees(&empty)), (1, 2, false));
}
