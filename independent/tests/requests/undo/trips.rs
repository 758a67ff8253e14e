//! Out of the buffer and back into the same place, and the other way round: five inputs that may give back
//! the state before them.

use super::*;

/// What was tried, and how often the state came back.
#[derive(Debug, Default)]
struct Trips {
    tried: u32,
    back: u32,
}

impl Trips {
    /// Gives the inputs one after the other. All are accepted and the state is the one before exactly when
    /// `expected`.
    fn go(&mut self, t: &Tool, inputs: &[Input], expected: bool) {
        let mut now = *t;
        let accepted = inputs.iter().all(|i| step_input(&mut now, i, &mut { Reports::NONE }) == 0);
        let back = accepted && same(t, &now);
        assert_eq!(back, expected, "{inputs:?}\n{}{}", describe(t), describe(&now));
        self.tried += 1;
        self.back += back as u32;
    }
}

fn input(number: u32, port: u32, value: u32, name: &[u8]) -> Input {
    Input { number, port, value, name: name.to_vec(), ..Input::default() }
}

/// A request of another carrier stands before a new one and would be started at this port.
fn another_first(t: &Tool, port: u32) -> bool {
    t.queue.requests().iter().any(|r| {
        let (_, c, _) = found(t, &unpadded(&r.name)).expect("a record");
        r.port as u32 == port && c.open == 0 && c.accessing != 2
    })
}

/// CarrierOut, OutStart, OutDone, CarrierIn, MoveIn to the place that it came from. OutStart takes this
/// carrier; the ID is OK, as MoveIn wants it; came-out was off, and the port's tag unread, as MoveIn leaves
/// them.
fn out_and_in(t: &Tool, c: &Carrier, port: u32, trips: &mut Trips) {
    let name = unpadded(&c.name);
    let inputs = [
        input(7, port, 0, &name),
        input(27, port, 0, b""),
        input(28, port, 0, b""),
        input(8, 0, 0, &name),
        input(18, port, c.spot as u32, b""),
    ];
    if after(t, &inputs[0]).0 != 0 {
        return;
    }
    let p = &t.base.port[port as usize - 1];
    let taken = c.open == 0 && c.accessing != 2 && !another_first(t, port);
    let free = p.transfer == 1 && p.reserved == 0 && !p.tied();
    trips.go(t, &inputs, taken && free && c.id == 3 && c.came_out == 0 && p.tag == 0);
}

/// MoveIn, CarrierOut, OutStart, OutDone, CarrierIn. The tag was read and not failed, came-out and the alarm
/// were off.
fn in_and_out(t: &Tool, c: &Carrier, place: u32, trips: &mut Trips) {
    let (name, port) = (unpadded(&c.name), c.port as u32);
    let inputs = [
        input(18, port, place, b""),
        input(7, port, 0, &name),
        input(27, port, 0, b""),
        input(28, port, 0, b""),
        input(8, 0, 0, &name),
    ];
    if after(t, &inputs[0]).0 != 0 {
        return;
    }
    let p = &t.base.port[port as usize - 1];
    let taken = c.open == 0 && c.accessing != 2 && !another_first(t, port) && t.queue.count < 16;
    let left = p.tag == 1 && c.came_out == 0 && t.alarms[port as usize - 1].on == 0;
    trips.go(t, &inputs, taken && p.reserved == 0 && left);
}

/// Both ways for a carrier of a tool with a buffer, a port and a place.
fn both_ways(t: &Tool, rng: &mut Rng, [out, into]: &mut [Trips; 2]) {
    for c in t.base.carriers() {
        if c.in_buffer() {
            out_and_in(t, c, 1 + rng.below(t.base.ports as u32), out);
        } else if c.at_port() && t.base.places > 0 {
            in_and_out(t, c, 1 + rng.below(t.base.places as u32), into);
        }
    }
}

#[test]
fn from_sound_states() {
    let mut trips = <[Trips; 2]>::default();
    states(105, 20_000, |t, rng| both_ways(t, rng, &mut trips));
    for trips in trips {
        assert!(trips.tried > 500 && trips.back > 20, "{trips:?}");
    }
}

/// Along runs the trip out and in is an undoing wherever OutStart takes this carrier: in the buffer the ID is
/// OK and came-out off, and a port that is READY TO LOAD has an unread tag.
#[test]
fn along_runs_too() {
    let mut trips = <[Trips; 2]>::default();
    along_runs(106, 3_000, |t, rng| {
        both_ways(t, rng, &mut trips);
        assert!(t.base.carriers().iter().all(|c| !c.in_buffer() || c.id == 3 && c.came_out == 0));
        assert!(t.base.ports().iter().all(|p| p.transfer != 1 || p.tag == 0));
    });
    for trips in trips {
        assert!(trips.tried > 500 && trips.back > 200, "{trips:?}");
    }
}
