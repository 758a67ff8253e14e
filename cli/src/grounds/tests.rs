//! The causes that are named are held to the machine's answers and to the state.
use super::*;
use crate::print::tests::{accessed, stored, tool};
use crate::runs::{damaged, inputs, long_run, reached, set_up, Dice};
use crate::script::Sent;
use hawsermole::{Carrier, Input, Port, Request, Wafer};

/// What a cause says, read off the tool: port and carrier are those of the input.
struct Seen<'a> {
    tool: &'a Tool,
    parts: &'a Sent,
    ports: u32,
    places: u32,
    here: Option<Port>,
    record: Option<Carrier>,
    home: Option<Port>,
    /// The carrier that the given port is tied to.
    held: Option<Carrier>,
    carriers: Vec<Carrier>,
}

fn seen<'a>(tool: &'a Tool, parts: &'a Sent) -> Seen<'a> {
    let port = |number: u32| tool.ports().find(|port| u32::from(port.number) == number);
    let name = parts.name.trim_ascii_end();
    let record = tool.carriers().find(|carrier| carrier.name.as_bytes() == name);
    let held = tool.carriers().find(|carrier| carrier.port != 0 && u32::from(carrier.port) == parts.port);
    Seen {
        tool,
        parts,
        ports: tool.as_bytes()[0].into(),
        places: tool.as_bytes()[1].into(),
        here: port(parts.port),
        record,
        home: record.and_then(|carrier| port(carrier.port.into())),
        held,
        carriers: tool.carriers().collect(),
    }
}

impl Seen<'_> {
    /// Of the carrier that is meant: by its name, or in CancelBind without one by the port.
    fn carrier(&self, test: impl Fn(&Carrier) -> bool) -> bool {
        self.record.or(self.held.filter(|_| self.parts.name.is_empty())).is_some_and(|carrier| test(&carrier))
    }

    /// Of the port that is given, or else of the carrier's own.
    fn port(&self, test: impl Fn(&Port) -> bool) -> bool {
        self.here.or(self.home).is_some_and(|port| test(&port))
    }

    /// Of either: CancelBind and CancelCarrier look at the carrier's port, whatever is given.
    fn some_port(&self, test: impl Fn(&Port) -> bool) -> bool {
        [self.here, self.home].into_iter().flatten().any(|port| test(&port))
    }

    fn has_unknown_pod(&self) -> bool {
        self.here.is_some_and(|q| q.pod == 1 && q.movement == 0 && q.tag == 2 && q.tie.is_none())
    }

    fn no_record(&self) -> bool {
        self.record.is_none()
    }

    /// The carrier placed at the given port, or the one of the name: whose verification is asked for.
    fn asked(&self, test: impl Fn(&Carrier) -> bool) -> bool {
        let asked = if self.parts.number == 18 { self.held.filter(|c| c.place == 1) } else { self.record };
        asked.is_some_and(|carrier| test(&carrier))
    }

    /// Of a request that is queued.
    fn requested(&self, test: impl Fn(&Request) -> bool) -> bool {
        self.tool.requests().any(|request| test(&request))
    }

    /// Of the carrier; in OutStart of one that is queued for the port.
    fn carrier_or_queued(&self, test: impl Fn(&Carrier) -> bool) -> bool {
        let port = self.parts.port;
        let queued = |c: &Carrier| self.requested(|r| r.name == c.name && u32::from(r.port) == port);
        match self.parts.number {
            27 => self.carriers.iter().any(|carrier| queued(carrier) && test(carrier)),
            _ => self.carrier(test),
        }
    }

    fn no_carrier_here(&self) -> bool {
        !self.held.is_some_and(|carrier| carrier.place == 1)
    }
}

fn is_name(text: &[u8]) -> bool {
    hawsermole::raw::name_length(text) > 0
}

/// Whether a cause of refusal 1 is so.
fn holds_of_parts(cause: Cause, at: &Seen) -> bool {
    let Sent { number, port, value, name, codes, wafers, .. } = at.parts;
    match cause {
        Cause::NoTool => at.ports == 0 && !at.tool.is_sound(),
        Cause::NotSound => at.ports != 0 && !at.tool.is_sound(),
        Cause::NoInput => !(1..=36).contains(number),
        Cause::Port => *port > at.ports || (*port == 0 && ![2, 5, 6].contains(number)),
        Cause::NothingGiven => *number == 2 && *port == 0 && name.is_empty(),
        Cause::NoBuffer => *number == 18 && at.places == 0,
        Cause::Place => *number == 18 && at.places > 0 && (*value == 0 || *value > at.places),
        Cause::Value => [9, 10, 13, 22, 24].contains(number) && *value > 1,
        Cause::NoName => *number != 2 && name.is_empty(),
        Cause::Name => !name.is_empty() && !is_name(name),
        Cause::SlotMap => *number == 20 && (codes.len() != 25 || codes.iter().any(|&code| code > 5)),
        Cause::ExpectedMap => {
            [1, 3].contains(number) && (codes.len() != 25 || codes.iter().any(|code| ![1, 3].contains(code)))
        }
        Cause::TooManyWafers => *number == 35 && wafers.len() > 25,
        _ => false,
    }
}

/// Whether a cause of 2, 3, 4 or 6 is so.
fn holds_of_names(cause: Cause, at: &Seen) -> bool {
    let here = at.parts.port as u8;
    match cause {
        Cause::NoRecord => at.no_record(),
        Cause::NoPortGiven => at.no_record() && here == 0,
        Cause::NoUnknownPod => at.no_record() && here != 0 && !at.has_unknown_pod(),
        Cause::Announced => at.carrier(|c| c.place == 0),
        Cause::Arrived => at.carrier(|c| c.place != 0),
        Cause::ReadTwice => at.carrier(|c| c.place == 1 && c.port == here),
        Cause::ReadElsewhere => at.carrier(|c| c.place != 0 && c.port != here),
        Cause::BoundElsewhere => at.carrier(|c| c.place == 0 && c.port != 0 && c.port != here),
        Cause::Reserved => {
            at.port(|q| q.reserved == 1) && !at.requested(|r| r.port == here && r.started == 1)
        }
        Cause::Tied => at.port(|q| !q.tie.is_none()) && at.parts.number != 9,
        Cause::Full => at.carriers.iter().filter(|c| c.place == 0).count() == 16,
        _ => false,
    }
}

/// Whether a cause of 5 that speaks of a port is so.
fn holds_of_port(cause: Cause, at: &Seen) -> bool {
    match cause {
        Cause::OutOfService => at.port(|q| q.transfer == 0),
        Cause::NotReadyToLoad => at.port(|q| [2, 3].contains(&q.transfer)),
        Cause::NotReadyToUnload => at.port(|q| q.transfer != 2),
        Cause::NotWaiting => at.home.is_some_and(|q| q.transfer != 2) && at.carrier(|c| c.place == 1),
        Cause::NotBlocked => at.port(|q| q.transfer != 3),
        Cause::Moving => at.some_port(|q| q.movement != 0),
        Cause::NotLoading => at.port(|q| q.movement != 1),
        Cause::NotUnloading => at.port(|q| q.movement != 2),
        Cause::NoPod => at.port(|q| q.pod == 0),
        Cause::TagTold => at.port(|q| q.tag != 0),
        Cause::NotReserved => at.port(|q| q.reserved == 0),
        Cause::NothingBound => at.port(|q| q.tie.is_none()) && at.parts.name.is_empty(),
        _ => false,
    }
}

/// Whether a cause of 5 that speaks of a carrier is so.
fn holds_of_carrier(cause: Cause, at: &Seen) -> bool {
    let here = at.parts.port as u8;
    match cause {
        Cause::NotExpected => at.carrier(|c| c.place != 0),
        Cause::NotBound => at.carrier(|c| c.place == 0 && c.port == 0),
        Cause::Bound | Cause::StillBound => at.carrier(|c| c.place == 0 && c.port != 0),
        Cause::OtherPort => here != 0 && at.carrier(|c| c.port != here),
        Cause::StillExpected => here == 0 && at.carrier(|c| c.place == 0 && c.port == 0),
        Cause::NotThere => here != 0 && at.carrier(|c| c.place == 0 && c.port == 0) && !at.has_unknown_pod(),
        Cause::NothingWaits => at.carrier(|c| c.id != 2 && !(c.id == 3 && c.slot == 2)),
        Cause::InAccess => at.carrier_or_queued(|c| c.accessing == 2),
        Cause::NotInAccess => at.carrier(|c| c.accessing != 2),
        Cause::Accessed => at.carrier(|c| c.accessing >= 3),
        Cause::NotInBuffer => at.carrier(|c| c.place != 2),
        Cause::IsOpen => at.carrier_or_queued(|c| c.open == 1),
        Cause::OpenAlready => at.carrier(|c| c.open == 1),
        Cause::NotOpen | Cause::ClosedAlready => at.carrier(|c| c.open == 0),
        Cause::AtNoPort => at.carrier(|c| c.place != 1),
        Cause::NotCameOut => at.carrier(|c| c.came_out == 0),
        Cause::NotArrived => at.carrier(|c| c.place == 0),
        Cause::NotMovedIn => at.carrier(|c| c.place == 1) && at.places > 0,
        Cause::MapTold => at.carrier(|c| c.slot != 1),
        _ => false,
    }
}

/// Whether a cause of 7 or 8 is so.
fn holds_of_pod(cause: Cause, at: &Seen) -> bool {
    match cause {
        Cause::TagUnread => at.port(|q| q.tag == 0) && at.no_carrier_here(),
        Cause::UnknownPod => at.has_unknown_pod() && at.no_carrier_here(),
        Cause::NoCarrier => at.no_carrier_here() && !at.has_unknown_pod() && at.port(|q| q.tag != 0),
        Cause::IdNotRead => at.asked(|c| c.id == 1),
        Cause::IdWaits => at.asked(|c| c.id == 2),
        Cause::IdFailed => at.asked(|c| c.id == 4),
        Cause::SlotMapNotRead => at.asked(|c| c.slot == 1),
        Cause::SlotMapWaits => at.asked(|c| c.slot == 2),
        Cause::SlotMapFailed => at.asked(|c| c.slot == 4),
        Cause::Cancelled => at.asked(|c| c.cancelled == 1),
        Cause::PlaceTaken => at.carriers.iter().any(|c| c.place == 2 && u32::from(c.spot) == at.parts.value),
        Cause::OpenerInUse => {
            at.places > 0 && at.carriers.iter().any(|c| c.open == 1 && at.carrier(|own| own.name != c.name))
        }
        _ => false,
    }
}

/// Whether a cause that speaks of the queue is so.
fn holds_of_queue(cause: Cause, at: &Seen) -> bool {
    let here = at.parts.port as u8;
    let name = at.parts.name.trim_ascii_end();
    let own = |r: &Request| r.name.as_bytes() == name;
    match cause {
        Cause::KeptForOut => at.requested(|r| r.port == here && r.started == 1),
        Cause::OnItsWay => at.requested(|r| own(r) && r.started == 1),
        Cause::NotQueued => !at.requested(own),
        Cause::NoneQueued => !at.requested(|r| r.port == here),
        Cause::NoneStarted => !at.requested(|r| r.port == here && r.started == 1),
        Cause::QueueFull => at.tool.requests().len() == 16,
        Cause::QueuedAlready => at.requested(own),
        _ => false,
    }
}

/// Whether a cause that speaks of a prediction or of the clock is so, by the bytes of the tool.
fn holds_of_prediction(cause: Cause, at: &Seen) -> bool {
    let bytes = at.tool.as_bytes();
    let own = at.record.and_then(|record| at.carriers.iter().position(|c| c.name == record.name));
    let start = own.map(|place| 3092 + 11 * place);
    let state = start.filter(|_| at.places == 0).map(|start| bytes[start]);
    let has_tp = start.map(|start| bytes[start + 1] == 1);
    match cause {
        Cause::PredictsNothing => at.places > 0,
        Cause::NotAccessedYet => state == Some(2),
        Cause::PredictionDisabled => state == Some(1),
        Cause::PredictionPast => matches!(state, Some(4..=6)),
        Cause::PredictedAlready => has_tp == Some(true),
        Cause::NoPredictedTime => has_tp == Some(false),
        Cause::ClockEarlier => u32::from_le_bytes(bytes[3080..3084].try_into().unwrap()) > at.parts.clock,
        _ => false,
    }
}

/// Whether a cause that speaks of hands on an AUTO port is so, by the bytes of the tool.
fn holds_of_hands(cause: Cause, at: &Seen) -> bool {
    let held = at.here.is_some_and(|q| at.tool.as_bytes()[3487 + 2 * usize::from(q.number)] == 1);
    match cause {
        Cause::PodHeld => held,
        Cause::NothingHeld => !held && at.parts.number == 36,
        Cause::ForHands => at.port(|q| q.access == 0) && at.parts.value == 1,
        _ => false,
    }
}

/// Whether a cause of 12 is so, by whole numbers of parts.
fn holds_of_wafers(cause: Cause, at: &Seen) -> bool {
    let times = at.parts.wafers.iter().flat_map(|wafer| [wafer.process, wafer.handling]);
    let parts = |time: f64| (time * 1024.0) as u64;
    let good = |time: f64| parts(time) < 1 << 30 && parts(time) as f64 / 1024.0 == time;
    match cause {
        Cause::WaferTime => !times.clone().all(good),
        Cause::TpTooLate => {
            let total: u64 = times.clone().map(parts).sum();
            times.clone().all(good) && u64::from(at.parts.clock) + total.div_ceil(1024) >= 1 << 32
        }
        _ => false,
    }
}

fn holds(cause: Cause, at: &Seen) -> bool {
    let of_state =
        [holds_of_port, holds_of_carrier, holds_of_pod, holds_of_queue, holds_of_prediction, holds_of_hands];
    [holds_of_parts, holds_of_names, holds_of_wafers].iter().chain(&of_state).any(|of| of(cause, at))
}

/// How often each cause was named.
struct Met(Vec<usize>);

impl Met {
    fn new() -> Met {
        Met(vec![0; Cause::ALL.len()])
    }

    /// Causes are named exactly where the machine refuses, they are of the number that it answers, and each is so.
    fn agree(&mut self, tool: &Tool, sent: &Sent) {
        let answer = tool.clone().step_parts(&sent.parts());
        let grounds = lowest(tool, &sent.parts());
        assert_eq!(grounds.is_empty(), answer.is_ok(), "{sent:?} of {tool:?}");
        let at = seen(tool, sent);
        for Ground { cause, .. } in grounds {
            assert_eq!(Err(cause.refusal()), answer, "{cause:?}: {sent:?} of {tool:?}");
            assert!(holds(cause, &at), "{cause:?}: {sent:?} of {tool:?}");
            self.0[cause as usize] += 1;
        }
    }

    fn agree_on(&mut self, tools: &[Tool], inputs: &[Sent]) {
        for tool in tools {
            inputs.iter().for_each(|sent| self.agree(tool, sent));
        }
    }

    fn never(&self) -> Vec<Cause> {
        Cause::ALL.iter().copied().filter(|&cause| self.0[cause as usize] == 0).collect()
    }
}

/// All states of a fixed buffer tool with one port and two names, of one that predicts with one name, and some hundreds of
/// one with a buffer place.
fn small_tools(met: &mut Met) {
    let (a, b): (&[u8], &[u8]) = (b"A", b"B");
    let set_ups = [(Tool::setup(1, 0).unwrap(), usize::MAX), (set_up(1, 0), usize::MAX), (set_up(1, 1), 200)];
    for ((tool, most), names) in set_ups.into_iter().zip([&[a, b][..], &[a], &[a, b]]) {
        let inputs = inputs(1, tool.places().into(), names, false);
        met.agree_on(&reached(tool, &inputs, most), &inputs);
    }
}

/// The states of long runs, each with some of the inputs; and a few of them with every input, in its range or not.
fn larger_tools(met: &mut Met, dice: &mut Dice) {
    for (ports, places) in [(2, 0), (2, 2), (4, 16)] {
        let within = inputs(ports, places, &[b"A", b"B", b"C"], false);
        let beyond = inputs(ports, places, &[b"A", b"B"], true);
        for (step, tool) in long_run(ports, places, &within, 2000, dice).iter().enumerate() {
            (0..8).for_each(|_| met.agree(tool, dice.one(&within)));
            if step % 200 == 0 {
                met.agree_on(&[tool.clone()], &beyond);
            }
        }
    }
}

/// Sixteen expected; then two carriers in the buffer, one of them open, mapped and cancelled: all inputs at each step.
fn full_tool(met: &mut Met) {
    let names: Vec<[u8; 1]> = (b'a'..b'a' + 16).map(|name| [name]).collect();
    let announced = names.iter().map(|name| parts(3, 0, name));
    let arrives = |name, place| {
        [parts(13, 0, b""), parts(14, 0, b""), parts(16, 0, name), parts(5, 0, name), parts(18, place, b"")]
    };
    let open = [
        parts(19, 0, A),
        Parts { codes: &[3; SLOTS], ..parts(20, 0, A) },
        Parts { port: 0, ..parts(6, 0, A) },
    ];
    let inputs = inputs(1, 2, &[b"A", b"B", b"a"], false);
    let mut tool = Tool::setup(1, 2).unwrap();
    for parts in announced.chain(arrives(A, 1)).chain(arrives(b"B", 2)).chain(open) {
        play(&mut tool, &[parts]);
        met.agree_on(&[tool.clone()], &inputs);
    }
}

/// Sixteen carriers in the buffer, one of them open: all inputs after each that is queued, and after two are started.
fn full_queue(met: &mut Met) {
    let names: Vec<[u8; 1]> = (b'a'..b'a' + 16).map(|name| [name]).collect();
    let stored_names: Vec<&[u8]> = names.iter().map(|name| name.as_slice()).collect();
    let inputs = inputs(3, 16, &[b"a", b"b", b"p", b"A"], false);
    let mut tool = stored(3, &stored_names);
    let queued = names.iter().zip([3, 1, 2].into_iter().cycle());
    let queued = queued.map(|(name, port)| Parts { port, ..parts(7, 0, name) });
    let started = [parts(27, 0, b""), Parts { port: 2, ..parts(27, 0, b"") }];
    play(&mut tool, &[parts(19, 0, b"a")]);
    for parts in queued.chain(started) {
        play(&mut tool, &[parts]);
        met.agree_on(&[tool.clone()], &inputs);
    }
}

/// A carrier that waits for a predicted time when the clock is about to end, and wafers that end before it or after it.
fn late_clock(met: &mut Met) {
    let tool = accessed(1, 2);
    let inputs = inputs(1, 0, &[A], true);
    for before in 0..=4 {
        for sent in inputs.iter().filter(|sent| sent.number >= 31) {
            met.agree(&tool, &Sent { clock: u32::MAX - before, ..sent.clone() });
        }
    }
}

/// Sound states that no run reaches: some by chance, and MoveIn of a pod whose carrier has another ID status, or none.
fn odd_tools(met: &mut Met, dice: &mut Dice) {
    let move_in = Sent { number: 18, port: 1, value: 1, ..Sent::default() };
    let (start, done) = (Input::LoadStart { port: 1, start: 0 }, Input::LoadDone { port: 1 });
    let read = Input::IdRead { port: 1, name: A };
    let (loaded, here) = (tool(1, 1, &[start, done]), tool(1, 1, &[start, done, read]));
    for (tool, byte, value) in [(&here, 138, 1), (&here, 138, 4), (&loaded, 24, 1)] {
        let mut bytes = *tool.as_bytes();
        bytes[byte] = value;
        met.agree(&Tool::from_bytes(&bytes), &move_in);
    }
    for places in [0, 2] {
        let inputs = inputs(2, places, &[b"A", b"B", b"C"], false);
        for tool in long_run(2, places, &inputs, 2000, dice) {
            let tool = damaged(&damaged(&tool, dice), dice);
            if tool.is_sound() {
                (0..40).for_each(|_| met.agree(&tool, dice.one(&inputs)));
            }
        }
    }
}

/// Every refusal has causes, all of them so; and there is no cause that is never met.
#[test]
fn every_refusal_has_its_causes() {
    let (mut met, mut dice) = (Met::new(), Dice::new(2));
    small_tools(&mut met);
    larger_tools(&mut met, &mut dice);
    full_tool(&mut met);
    full_queue(&mut met);
    late_clock(&mut met);
    let odd = [Cause::NoCarrier, Cause::IdNotRead, Cause::IdFailed];
    assert_eq!(met.never(), [[Cause::NoTool, Cause::NotSound, Cause::NoInput].as_slice(), &odd].concat());
    odd_tools(&mut met, &mut dice);
    assert_eq!(met.never(), [Cause::NoTool, Cause::NotSound, Cause::NoInput]);
}

#[test]
fn numbers_without_a_row_and_tools_that_are_none() {
    let mut met = Met::new();
    let tool = Tool::setup(1, 0).unwrap();
    let mut bytes = *tool.as_bytes();
    bytes[3] = 7;
    for number in [0, 1, 13, 37, 257, u32::MAX] {
        let sent = Sent { number, port: 1, name: b"A".to_vec(), ..Sent::default() };
        met.agree_on(&[tool.clone(), Tool::none(), Tool::from_bytes(&bytes)], &[sent]);
    }
    let counted = |cause: Cause| met.0[cause as usize];
    assert_eq!([Cause::NoTool, Cause::NotSound, Cause::NoInput].map(counted), [6, 6, 4]);
}

/// What is the matter in particular.
fn told(tool: &Tool, parts: Parts) -> Vec<String> {
    lowest(tool, &parts)
        .into_iter()
        .map(|ground| format!("{}: {}", ground.cause.text(), ground.detail))
        .collect()
}

const A: &[u8] = b"A";

#[test]
fn parts_out_of_range_are_named_with_their_range() {
    let (fixed, buffer) = (Tool::setup(2, 0).unwrap(), Tool::setup(1, 4).unwrap());
    let of = Parts { number: 13, port: 9, ..Parts::default() };
    assert_eq!(told(&fixed, of), ["the tool has no such port: port 9 of a tool with 2 ports"]);
    assert_eq!(told(&buffer, of), ["the tool has no such port: port 9 of a tool with 1 port"]);
    let of = Parts { number: 18, port: 1, value: 5, ..of };
    assert_eq!(told(&fixed, of), ["the tool has no buffer: "]);
    assert_eq!(told(&buffer, of), ["the buffer has no such place: place 5 of 1 to 4"]);
    let mut codes = [3; SLOTS];
    codes[2] = 6;
    let of = Parts { number: 20, name: A, codes: &codes, ..of };
    assert_eq!(told(&fixed, of), ["the codes are no slot map: code 6 at slot 3"]);
    assert_eq!(
        told(&fixed, Parts { codes: &[3; 24], ..of }),
        ["the codes are no slot map: 24 codes, and not 25"]
    );
    let of = Parts { number: 1, name: &[b'A'; 17], ..of };
    let name = "the text is no name: 17 bytes are left without the blanks at the end, more than 16";
    let map = "the codes are no expected map: an expected map has the codes 1 (EMPTY) and 3";
    let both = told(&fixed, of);
    assert_eq!(both[0], name);
    assert!(both[1].starts_with(map), "{both:?}");
}

fn parts(number: u32, value: u32, name: &[u8]) -> Parts<'_> {
    Parts { number, port: 1, value, name, ..Parts::default() }
}

fn play(tool: &mut Tool, inputs: &[Parts]) {
    inputs.iter().for_each(|parts| assert!(tool.step_parts(parts).is_ok(), "{parts}"));
}

#[test]
fn verification_that_is_missing_is_named() {
    let mut tool = Tool::setup(1, 2).unwrap();
    let (start, done, move_in) = (parts(13, 0, b""), parts(14, 0, b""), parts(18, 2, b""));
    play(&mut tool, &[start, done]);
    assert_eq!(told(&tool, move_in), ["the tag isn't read yet: port 1"]);
    play(&mut tool, &[parts(16, 0, A)]);
    assert_eq!(told(&tool, move_in), ["the ID waits for the host: A"]);
    play(&mut tool, &[parts(5, 0, A), move_in, start, done, parts(16, 0, b"B"), parts(5, 0, b"B")]);
    assert_eq!(told(&tool, move_in), ["the buffer place is taken: A is in place 2; free: 1"]);
}

/// Each request for the port that isn't ready is named, and one that is leaves nothing to name.
#[test]
fn requests_that_are_not_ready_are_named() {
    let mut tool = stored(1, &[A, b"B"]);
    let start = parts(27, 0, b"");
    assert_eq!(told(&tool, start), ["no CarrierOut is queued for the port: port 1"]);
    assert_eq!(
        told(&tool, parts(29, 0, A)),
        ["no CarrierOut of the carrier is queued: A is in buffer place 1"]
    );
    assert_eq!(told(&tool, parts(29, 0, b"Z")), ["no CarrierOut of the carrier is queued: Z has no record"]);
    play(&mut tool, &[parts(19, 0, A), parts(7, 0, A)]);
    assert_eq!(told(&tool, start), ["the carrier is open: A"]);
    assert_eq!(
        told(&tool, parts(28, 0, b"")),
        ["no CarrierOut is started to the port: port 1; queued for it: A"]
    );
    play(&mut tool, &[parts(7, 0, b"B")]);
    assert!(told(&tool, start).is_empty());
}

#[test]
fn a_port_that_is_kept_is_named_with_its_carrier() {
    let mut tool = stored(2, &[A, b"B"]);
    play(&mut tool, &[parts(7, 0, A), parts(7, 0, b"B"), parts(27, 0, b"")]);
    let kept =
        "a CarrierOut is started to the port: port 1 is kept for carrier A, whose CarrierOut was started";
    for number in [1, 11, 12, 13, 27] {
        assert_eq!(told(&tool, parts(number, 0, b"X")), [kept], "{number}");
    }
    assert_eq!(told(&tool, parts(19, 0, A)), ["the carrier's CarrierOut is started: A to port 1, started"]);
    assert_eq!(told(&tool, parts(29, 0, A)), ["the carrier's CarrierOut is started: A to port 1, started"]);
    let already = "the carrier's CarrierOut is queued already: B to port 1, queued";
    assert_eq!(told(&tool, parts(7, 0, b"B")), [already]);
}

/// Whoever meets a full queue is in it: a buffer holds no more than 16.
#[test]
fn a_full_queue_names_the_carriers_own_request() {
    let names: Vec<[u8; 1]> = (b'a'..b'a' + 16).map(|name| [name]).collect();
    let mut tool = stored(1, &names.iter().map(|name| name.as_slice()).collect::<Vec<_>>());
    names.iter().for_each(|name| play(&mut tool, &[parts(7, 0, name)]));
    assert_eq!(told(&tool, parts(7, 0, b"c")), ["16 CarrierOuts are queued: c to port 1, queued"]);
}

/// Which time is off, and what is near it; a time that is too late with what it comes from.
#[test]
fn wafers_that_are_refused_are_named() {
    let mut tool = accessed(60, 120);
    let wafers = |clock, wafers| Parts { number: 35, name: A, clock, wafers, ..Parts::default() };
    let good = Wafer { process: 90.5, handling: 12.25 };
    let many = [good; 26];
    assert_eq!(told(&tool, wafers(9, &many)), ["there are too many wafers: 26, and not more than 25"]);
    let odd = [good, Wafer { process: 0.1, handling: 12.0 }];
    let off = "process time of wafer 2 is 0.1, between the good ones 0.099609375 and 0.1005859375";
    assert_eq!(told(&tool, wafers(9, &odd)), [format!("a time of a wafer is out of range: {off}")]);
    let late = "the predicted time is past the clock's range: 4294967296, from clock 4294967193 on; \
                1 wafer takes 102.75 seconds, rounded up 103";
    assert_eq!(told(&tool, wafers(u32::MAX - 102, &many[..1])), [late]);
    assert!(told(&tool, wafers(u32::MAX - 103, &many[..1])).is_empty());
    play(&mut tool, &[wafers(9, &many[..1])]);
    let already = "the carrier has a predicted time already: A is WAITING FOR PREDICTION, ready at 112";
    assert_eq!(told(&tool, wafers(8, &odd)), [already]);
}
