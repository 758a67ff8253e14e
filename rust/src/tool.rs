//! The tool: ports, carriers and buffer, held as bytes.
use crate::input::{Input, Parts};
use crate::machine;
use crate::name::{Name, NAME_BYTES};
use crate::prediction::{PREDICTIONS_START, PREDICTION_BYTES};
use crate::raw::{CARRIER_BYTES, REPORTS_BYTES, TOOL_01_BYTES, TOOL_BYTES};
use crate::refusal::{refused, Refusal};
use crate::reply::Exchanged;
use crate::report::Reports;
use crate::request::QUEUE_START;
use crate::states::PredictionState;
use crate::waiting::{waiting, Waiting};
use core::fmt;

/// The most ports that a tool has.
pub const PORTS: usize = 4;
/// The most carrier records that a tool holds.
pub const RECORDS: usize = 36;
/// The slots of a carrier.
pub const SLOTS: usize = 25;
/// The most items that a message has.
pub const SECS_ITEMS: usize = 128;
/// The most lists of a message, one in another.
pub const SECS_DEPTH: usize = 6;

pub(crate) const HEAD_BYTES: usize = 3;
pub(crate) const PORT_BYTES: usize = 22;
pub(crate) const SPARE_BYTES: usize = 286;
const CARRIERS_START: usize = HEAD_BYTES + PORTS * PORT_BYTES;
const MAPS_START: usize = QUEUE_START - RECORDS * SLOTS;

/// A tool: its ports, its buffer and the carriers that it knows of.
///
/// A tool is its bytes. It may be cloned, kept in battery-backed memory and made again from what was kept:
/// a damaged one isn't [sound](Tool::is_sound) and refuses every input with [`Refusal::OutOfRange`].
///
/// ```
/// use hawsermole::{Input, Refusal, Tool};
///
/// let mut tool = Tool::setup(2, 16)?;
/// tool.step(&Input::CarrierNotification { name: b"AB" })?;
///
/// let kept = *tool.as_bytes();
/// assert_eq!(Tool::from_bytes(&kept), tool);
///
/// let mut damaged = kept;
/// damaged[0] = 5;
/// let mut damaged = Tool::from_bytes(&damaged);
/// assert!(!damaged.is_sound());
/// assert_eq!(damaged.step(&Input::LoadStart { port: 1, start: 0 }), Err(Refusal::OutOfRange));
/// # Ok::<(), Refusal>(())
/// ```
#[derive(Clone, PartialEq, Eq)]
pub struct Tool {
    bytes: [u8; TOOL_BYTES],
}

impl Tool {
    /// A tool of 1 to 4 ports and 0 to 16 buffer places; anything else is refused. No places is a fixed buffer
    /// tool, where pods open at the port; with places it is an internal buffer tool with one inner opener.
    /// Nothing is predicted: [`setup_with_times`](Tool::setup_with_times) is for a tool that does.
    ///
    /// ```
    /// use hawsermole::{Refusal, Tool};
    ///
    /// assert!(Tool::setup(4, 16).unwrap().is_sound());
    /// assert_eq!(Tool::setup(5, 0), Err(Refusal::OutOfRange));
    /// assert_eq!(Tool::setup(1, 17), Err(Refusal::OutOfRange));
    /// ```
    pub fn setup(ports: u32, places: u32) -> Result<Tool, Refusal> {
        Tool::setup_with_times(ports, places, 0, 0)
    }

    /// The same with the setting time and the timeout of [predictions](Tool::predictions), 0 to
    /// [`SECONDS_MOST`](crate::SECONDS_MOST) seconds each: a carrier is PREDICTED so long before the predicted time,
    /// and its prediction is ABORTED so long after it; 0 is never.
    ///
    /// ```
    /// use hawsermole::{Refusal, Tool, SECONDS_MOST};
    ///
    /// let tool = Tool::setup_with_times(2, 0, 60, 120).unwrap();
    /// assert_eq!((tool.clock(), tool.setting(), tool.timeout()), (0, 60, 120));
    /// assert!(Tool::setup_with_times(2, 0, SECONDS_MOST, SECONDS_MOST).is_ok());
    /// assert_eq!(Tool::setup_with_times(2, 0, SECONDS_MOST + 1, 0), Err(Refusal::OutOfRange));
    /// assert_eq!(Tool::setup_with_times(2, 0, 0, SECONDS_MOST + 1), Err(Refusal::OutOfRange));
    /// ```
    pub fn setup_with_times(ports: u32, places: u32, setting: u32, timeout: u32) -> Result<Tool, Refusal> {
        let mut tool = Tool::none();
        refused(machine::setup(&mut tool.bytes, ports, places, setting, timeout))?;
        Ok(tool)
    }

    /// No tool: all zeros, as a refused set-up leaves it. It isn't sound and refuses every input.
    ///
    /// ```
    /// use hawsermole::{Input, Refusal, Tool};
    ///
    /// let mut none = Tool::none();
    /// assert!(!none.is_sound());
    /// assert_eq!(none.step(&Input::LoadStart { port: 1, start: 0 }), Err(Refusal::OutOfRange));
    /// ```
    pub const fn none() -> Tool {
        Tool { bytes: [0; TOOL_BYTES] }
    }

    /// A tool of any bytes, such as those that were kept from [`as_bytes`](Tool::as_bytes).
    pub const fn from_bytes(bytes: &[u8; TOOL_BYTES]) -> Tool {
        Tool { bytes: *bytes }
    }

    /// Document 01's tool within this one, to be written; the requests' bytes become zero.
    pub(crate) fn only_document_01(&mut self) -> &mut [u8; TOOL_01_BYTES] {
        self.bytes[TOOL_01_BYTES..].fill(0);
        self.bytes.first_chunk_mut().expect("a tool begins with document 01's")
    }

    /// Predictions as new records have them, beside the carriers that document 01's part holds.
    pub(crate) fn wait_for_carriers(&mut self) {
        let predicting = if self.places() == 0 { self.carriers().len() } else { 0 };
        for prediction in self.bytes[PREDICTIONS_START..].chunks_mut(PREDICTION_BYTES).take(predicting) {
            prediction[0] = PredictionState::WaitingForCarrier.number();
        }
    }

    /// The tool's bytes: ports, places, records; 4 ports of 22 bytes; 36 carriers of 50 bytes; their 36 expected
    /// maps of 25 bytes; the number of requests queued, and 16 of them of 18 bytes; clock, setting time and timeout of 4
    /// bytes each, the low one first; the carriers' 36 predictions of 11 bytes; alarm and held of the 4 ports, a byte
    /// each; 286 bytes that are zero.
    pub const fn as_bytes(&self) -> &[u8; TOOL_BYTES] {
        &self.bytes
    }

    /// One input. A refusal leaves the tool as it was.
    pub fn step(&mut self, input: &Input<'_>) -> Result<Reports, Refusal> {
        self.step_parts(&input.parts())
    }

    /// One input by its number, which may be any. Parts that its row doesn't name are ignored.
    ///
    /// ```
    /// use hawsermole::{Parts, Refusal, Tool};
    ///
    /// let mut tool = Tool::setup(1, 0).unwrap();
    /// let ignored = Parts { value: 77, name: b"ignored", codes: b"ignored", clock: 77, time: 77, ..Parts::default() };
    /// let reserve = Parts { number: 11, port: 1, ..ignored };
    /// assert_eq!(tool.step_parts(&reserve).unwrap().len(), 1);
    /// assert_eq!(tool.step_parts(&Parts { number: 37, ..reserve }), Err(Refusal::OutOfRange));
    /// assert_eq!(tool.step_parts(&Parts { port: 257, ..reserve }), Err(Refusal::OutOfRange));
    ///
    /// // Bind names the codes: none, or an expected map.
    /// let bind = Parts { number: 1, port: 1, name: b"AB", codes: b"no map", ..ignored };
    /// assert_eq!(tool.step_parts(&bind), Err(Refusal::OutOfRange));
    /// ```
    pub fn step_parts(&mut self, parts: &Parts<'_>) -> Result<Reports, Refusal> {
        let mut reports = [0; REPORTS_BYTES];
        refused(machine::step(&mut self.bytes, &mut reports, parts))?;
        Ok(Reports::new(reports))
    }

    /// A message from the host bridge: the text of an S3F17, without the header before it. It is read, and what it asks
    /// for is stepped. A refusal leaves the tool as it was; with 20 to 26 the tool got no input.
    ///
    /// ```
    /// use hawsermole::{secs_at, Refusal, Tool};
    ///
    /// let mut tool = Tool::setup(1, 0).unwrap();
    /// // A list of five: data id U1 7, action "Bind", carrier "AB", port U1 1, no attributes.
    /// let message = b"\x01\x05\xA5\x01\x07\x41\x04Bind\x41\x02AB\xA5\x01\x01\x01\x00";
    /// let bound = tool.secs_step(message);
    /// assert_eq!((bound.answer.unwrap().len(), bound.items), (6, 6));
    ///
    /// // Without its last two bytes the fifth element is missing, after five items.
    /// let cut = tool.secs_step(&message[..18]);
    /// assert_eq!((cut.answer, cut.items), (Err(Refusal::CutShort), 5));
    /// assert_eq!(secs_at(&message[..18]), 18);
    ///
    /// // The tool's own refusals come as they are.
    /// assert_eq!(tool.secs_step(message).answer, Err(Refusal::NameTaken));
    /// ```
    pub fn secs_step(&mut self, message: &[u8]) -> Bridged {
        let mut reports = [0; REPORTS_BYTES];
        let (answer, items) = machine::secs_step(&mut self.bytes, &mut reports, message);
        Bridged { answer: refused(answer).map(|()| Reports::new(reports)), items }
    }

    /// The bridge's whole way: the text of an S3F17 in, the text of an S3F18 out. Answer and tool are those of
    /// [`secs_step`](Tool::secs_step), and the reply to that answer stands at the room's start. Where the reply is
    /// longer than the room it is [`Refusal::RoomTooSmall`]: the tool got no input, the room is as it was, and the same
    /// message may be sent again with more room. [`REPLY_ROOM`](crate::REPLY_ROOM) bytes are always enough.
    ///
    /// ```
    /// use hawsermole::{Refusal, Tool, REPLY_ROOM};
    ///
    /// let mut tool = Tool::setup(1, 0).unwrap();
    /// let message = b"\x01\x05\xA5\x01\x07\x41\x04Bind\x41\x02AB\xA5\x01\x01\x01\x00";
    /// let mut room = [0; REPLY_ROOM];
    ///
    /// // Six bytes are one too few for any reply: the port isn't bound.
    /// let small = tool.secs_exchange(message, &mut room[..6]);
    /// assert_eq!((small.answer, small.items, small.reply), (Err(Refusal::RoomTooSmall), 6, &b""[..]));
    ///
    /// // Accepted: a list of U1 0 and an empty list.
    /// let bound = tool.secs_exchange(message, &mut room);
    /// assert_eq!((bound.answer.unwrap().len(), bound.reply), (6, &b"\x01\x02\xA5\x01\x00\x01\x00"[..]));
    ///
    /// // Refused: U1 5, and one pair of U2 3 and a text.
    /// let again = tool.secs_exchange(message, &mut room);
    /// assert_eq!(again.answer, Err(Refusal::NameTaken));
    /// assert_eq!(again.reply[..13], *b"\x01\x02\xA5\x01\x05\x01\x01\x01\x02\xA9\x02\x00\x03");
    /// assert_eq!(again.reply[13..], *b"\x41\x2DObject identifier in use, Duplicate CarrierID");
    /// ```
    pub fn secs_exchange<'room>(&mut self, message: &[u8], room: &'room mut [u8]) -> Exchanged<'room> {
        let mut reports = [0; REPORTS_BYTES];
        let (answer, items, length) = machine::secs_exchange(&mut self.bytes, &mut reports, message, room);
        let answer = refused(answer).map(|()| Reports::new(reports));
        Exchanged { answer, items, reply: &room[..length as usize] }
    }

    /// Whether every field is in its range and all of the documents' conditions on a state hold.
    /// A tool from a set-up is sound, and every input leaves it so.
    pub fn is_sound(&self) -> bool {
        machine::sound(&self.bytes)
    }

    /// How many buffer places there are: B.
    pub fn places(&self) -> u8 {
        self.bytes[1]
    }

    /// The ports in use, by number.
    ///
    /// ```
    /// let tool = hawsermole::Tool::setup(3, 0).unwrap();
    /// assert_eq!(tool.ports().map(|port| port.number).collect::<Vec<_>>(), [1, 2, 3]);
    /// ```
    pub fn ports(&self) -> impl ExactSizeIterator<Item = Port> + '_ {
        let used = usize::from(self.bytes[0]).min(PORTS);
        (0..used).map(|place| {
            Port::read(place as u8 + 1, &self.bytes[HEAD_BYTES + place * PORT_BYTES..][..PORT_BYTES])
        })
    }

    /// The carriers that have a record, in the order in which the records were made.
    ///
    /// ```
    /// use hawsermole::{Input, Tool};
    ///
    /// let mut tool = Tool::setup(1, 1).unwrap();
    /// tool.step(&Input::CarrierNotification { name: b"B" }).unwrap();
    /// tool.step(&Input::Bind { port: 1, name: b"A" }).unwrap();
    /// let names: Vec<String> = tool.carriers().map(|carrier| carrier.name.to_string()).collect();
    /// assert_eq!(names, ["B", "A"]);
    /// assert_eq!(tool.carriers().last().unwrap().port, 1);
    /// ```
    pub fn carriers(&self) -> impl ExactSizeIterator<Item = Carrier> + '_ {
        self.records().iter().map(|record| Carrier::read(record))
    }

    /// The records of [`carriers`](Tool::carriers) as the tool holds them, in bytes.
    pub fn records(&self) -> &[[u8; CARRIER_BYTES]] {
        let count = usize::from(self.bytes[2]).min(RECORDS);
        let bytes = &self.bytes[CARRIERS_START..][..count * CARRIER_BYTES];
        // SAFETY: just so many records lie in these bytes, one after the other, and an array of bytes has no alignment.
        unsafe { core::slice::from_raw_parts(bytes.as_ptr().cast(), count) }
    }

    /// Is anyone waiting? The first of [`carriers`](Tool::carriers) that waits for the host, by ID or by slot map.
    ///
    /// ```
    /// use hawsermole::{Input, Tool, Waiting};
    ///
    /// let mut tool = Tool::setup(1, 0).unwrap();
    /// tool.step(&Input::CarrierNotification { name: b"AB" }).unwrap();
    /// assert_eq!(tool.waiting(), Waiting { first: None, read: 1 });
    ///
    /// // A pod that nobody announced: the host has to judge its name.
    /// tool.step(&Input::LoadStart { port: 1, start: 0 }).unwrap();
    /// tool.step(&Input::LoadDone { port: 1 }).unwrap();
    /// tool.step(&Input::IdRead { port: 1, name: b"AC" }).unwrap();
    /// assert_eq!(tool.waiting(), Waiting { first: Some(1), read: 2 });
    /// assert_eq!(tool.carriers().nth(1).unwrap().name.as_bytes(), b"AC");
    /// ```
    pub fn waiting(&self) -> Waiting {
        waiting(self.records())
    }

    /// The codes of the slot map that the host expects of a carrier, by its name as the tool holds it, without blanks;
    /// none where its record has no such map, or the name no record. In a sound tool each code is 1 or 3.
    ///
    /// ```
    /// use hawsermole::{ExpectedMap, Input, Tool};
    ///
    /// let mut tool = Tool::setup(1, 0).unwrap();
    /// let map = ExpectedMap::new(&[3; 25]).unwrap();
    /// tool.step(&Input::CarrierNotificationWithMap { name: b"A", map }).unwrap();
    /// tool.step(&Input::CarrierNotification { name: b"B" }).unwrap();
    /// assert_eq!(tool.expected_map(b"A"), Some(&[3; 25]));
    /// assert_eq!((tool.expected_map(b"B"), tool.expected_map(b"C")), (None, None));
    /// ```
    pub fn expected_map(&self, name: &[u8]) -> Option<&[u8; SLOTS]> {
        self.expected_maps().find(|(of, _)| of.as_bytes() == name).map(|(_, map)| map)
    }

    /// The carriers whose records have an expected map, in the order of [`carriers`](Tool::carriers), with its codes.
    pub fn expected_maps(&self) -> impl Iterator<Item = (Name, &[u8; SLOTS])> {
        let maps = self.bytes[MAPS_START..].chunks_exact(SLOTS).filter_map(|map| map.try_into().ok());
        let given = self.carriers().zip(maps).filter(|(_, map)| *map != &[0; SLOTS]);
        given.map(|(carrier, map)| (carrier.name, map))
    }
}

impl fmt::Debug for Tool {
    fn fmt(&self, f: &mut fmt::Formatter<'_>) -> fmt::Result {
        f.debug_struct("Tool")
            .field("places", &self.places())
            .field("ports", &printed(|f| f.debug_list().entries(self.ports()).finish()))
            .field("carriers", &printed(|f| f.debug_list().entries(self.carriers()).finish()))
            .field("expected_maps", &printed(|f| f.debug_map().entries(self.expected_maps()).finish()))
            .field("requests", &printed(|f| f.debug_list().entries(self.requests()).finish()))
            .field("clock", &self.clock())
            .field("setting", &self.setting())
            .field("timeout", &self.timeout())
            .field("predictions", &printed(|f| f.debug_list().entries(self.predictions()).finish()))
            .field("hands", &printed(|f| f.debug_list().entries(self.hands()).finish()))
            .finish()
    }
}

/// Printed by a closure. `core::fmt::from_fn` does so, too, but not in the oldest Rust that this crate is for.
struct Printed<F>(F);

fn printed<F: Fn(&mut fmt::Formatter<'_>) -> fmt::Result>(print: F) -> Printed<F> {
    Printed(print)
}

impl<F: Fn(&mut fmt::Formatter<'_>) -> fmt::Result> fmt::Debug for Printed<F> {
    fn fmt(&self, f: &mut fmt::Formatter<'_>) -> fmt::Result {
        (self.0)(f)
    }
}

/// What a message gave.
#[derive(Clone, Debug, PartialEq, Eq)]
pub struct Bridged {
    /// The tool's answer; or the reader's refusal, 20 to 26, and the tool got no input.
    pub answer: Result<Reports, Refusal>,
    /// How many items have begun that met none of 20 to 24: at most [`SECS_ITEMS`].
    pub items: u32,
}

/// A port as the tool holds it. The numbers are document 01's; [`states`](crate::states) has them as enums, with E87's
/// words.
#[derive(Clone, Copy, Debug, PartialEq, Eq, Hash)]
pub struct Port {
    /// 1 to 4.
    pub number: u8,
    /// 0 OUT OF SERVICE, 1 READY TO LOAD, 2 READY TO UNLOAD, 3 TRANSFER BLOCKED.
    pub transfer: u8,
    /// 0 MANUAL, 1 AUTO.
    pub access: u8,
    /// 0 or 1.
    pub reserved: u8,
    /// The carrier that the port is tied to, or no name.
    pub tie: Name,
    /// 0 none, 1 loading, 2 unloading.
    pub movement: u8,
    /// Whether a pod is present: 0 or 1.
    pub pod: u8,
    /// 0 unread, 1 read, 2 failed.
    pub tag: u8,
}

impl Port {
    fn read(number: u8, bytes: &[u8]) -> Port {
        Port {
            number,
            transfer: bytes[0],
            access: bytes[1],
            reserved: bytes[2],
            tie: name_at(bytes, 3),
            movement: bytes[19],
            pod: bytes[20],
            tag: bytes[21],
        }
    }
}

/// A carrier's record as the tool holds it. The numbers are document 01's;
/// [`states`](crate::states) has them as enums, with E87's words.
#[derive(Clone, Copy, Debug, PartialEq, Eq, Hash)]
pub struct Carrier {
    /// The name.
    pub name: Name,
    /// 0 expected, 1 port, 2 buffer.
    pub place: u8,
    /// The buffer place, or 0.
    pub spot: u8,
    /// The port that the carrier is tied to, or 0.
    pub port: u8,
    /// 0 or 1.
    pub open: u8,
    /// 0 or 1.
    pub cancelled: u8,
    /// 0 or 1: it came out of the buffer and may be called back in.
    pub came_out: u8,
    /// The codes of the slot map, all zero before it is read.
    pub map: [u8; SLOTS],
    /// 1 NOT READ, 2 WAITING FOR HOST, 3 OK, 4 FAILED.
    pub id: u8,
    /// 1 NOT READ, 2 WAITING FOR HOST, 3 OK, 4 FAILED.
    pub slot: u8,
    /// 1 NOT ACCESSED, 2 IN ACCESS, 3 COMPLETE, 4 STOPPED.
    pub accessing: u8,
}

impl Carrier {
    fn read(bytes: &[u8]) -> Carrier {
        let mut map = [0; SLOTS];
        map.copy_from_slice(&bytes[22..22 + SLOTS]);
        Carrier {
            name: name_at(bytes, 0),
            place: bytes[16],
            spot: bytes[17],
            port: bytes[18],
            open: bytes[19],
            cancelled: bytes[20],
            came_out: bytes[21],
            map,
            id: bytes[47],
            slot: bytes[48],
            accessing: bytes[49],
        }
    }
}

pub(crate) fn name_at(bytes: &[u8], start: usize) -> Name {
    let mut name = [0; NAME_BYTES];
    name.copy_from_slice(&bytes[start..start + NAME_BYTES]);
    Name::new(name)
}

#[cfg(test)]
mod tests {
    use super::*;
    use crate::ExpectedMap;
    use std::format;
    use std::vec::Vec;

    /// Each byte is its own place, as far as a byte reaches, so that a field read from a wrong place shows.
    fn numbered_bytes() -> Tool {
        let mut bytes = [0; TOOL_BYTES];
        for (place, byte) in bytes.iter_mut().enumerate() {
            *byte = (place % 251) as u8 + 1;
        }
        Tool::from_bytes(&bytes)
    }

    fn byte(place: usize) -> u8 {
        (place % 251) as u8 + 1
    }

    #[test]
    fn ports_are_read_where_they_stand() {
        let mut tool = numbered_bytes();
        tool.bytes[0] = 4;
        let ports: Vec<Port> = tool.ports().collect();
        assert_eq!(ports.len(), 4);
        for (place, port) in ports.into_iter().enumerate() {
            let start = 3 + 22 * place;
            let flags = [port.transfer, port.access, port.reserved];
            assert_eq!(flags, [byte(start), byte(start + 1), byte(start + 2)]);
            assert_eq!(port.tie.as_bytes(), &tool.bytes[start + 3..start + 19]);
            let rest = [port.movement, port.pod, port.tag];
            assert_eq!(rest, [byte(start + 19), byte(start + 20), byte(start + 21)]);
            assert_eq!(usize::from(port.number), place + 1);
        }
    }

    #[test]
    fn carriers_are_read_where_they_stand() {
        let mut tool = numbered_bytes();
        tool.bytes[2] = 36;
        let carriers: Vec<Carrier> = tool.carriers().collect();
        assert_eq!(carriers.len(), 36);
        for (place, c) in carriers.into_iter().enumerate() {
            let start = 91 + 50 * place;
            assert_eq!(c.name.as_bytes(), &tool.bytes[start..start + 16]);
            let flags = [c.place, c.spot, c.port, c.open, c.cancelled, c.came_out];
            assert_eq!(flags, [16, 17, 18, 19, 20, 21].map(|offset| byte(start + offset)));
            assert_eq!(c.map, tool.bytes[start + 22..start + 47]);
            assert_eq!([c.id, c.slot, c.accessing], [47, 48, 49].map(|offset| byte(start + offset)));
        }
    }

    #[test]
    fn expected_maps_are_read_where_they_stand() {
        let mut tool = numbered_bytes();
        tool.bytes[2] = 36;
        for (place, c) in tool.carriers().enumerate() {
            let start = 1891 + 25 * place;
            assert_eq!(tool.expected_map(c.name.as_bytes()).unwrap(), &tool.bytes[start..start + 25]);
        }
        tool.bytes[1891 + 25..1891 + 49].fill(0);
        let second = tool.carriers().nth(1).unwrap().name;
        assert!(tool.expected_map(second.as_bytes()).is_some());
        tool.bytes[1891 + 49] = 0;
        assert_eq!(tool.expected_map(second.as_bytes()), None);
    }

    /// A tool of any bytes can be looked at, however many ports and records it claims.
    #[test]
    fn counts_past_the_tables_are_not_followed() {
        let tool = Tool::from_bytes(&[255; TOOL_BYTES]);
        assert_eq!((tool.ports().len(), tool.carriers().len()), (PORTS, RECORDS));
        assert_eq!(tool.ports().chain(tool.ports()).count(), 8);
        assert!(!tool.is_sound());
    }

    #[test]
    fn a_refusal_leaves_the_tool_as_it_was() {
        let mut tool = Tool::setup(1, 0).unwrap();
        tool.step(&Input::Bind { port: 1, name: b"AB" }).unwrap();
        let before = tool.clone();
        assert_eq!(tool.step(&Input::Bind { port: 1, name: b"AB" }), Err(Refusal::NameTaken));
        assert_eq!(tool, before);
    }

    #[test]
    fn set_ups_of_every_size() {
        for (ports, places) in (0..=6).flat_map(|ports| (0..=18).map(move |places| (ports, places))) {
            let valid = (1..=4).contains(&ports) && places <= 16;
            match Tool::setup(ports, places) {
                Ok(tool) => assert!(valid && tool.is_sound() && tool.ports().len() as u32 == ports),
                Err(refusal) => assert!(!valid && refusal == Refusal::OutOfRange),
            }
        }
        assert_eq!(Tool::setup(257, 0), Err(Refusal::OutOfRange));
        assert_eq!(Tool::setup(1, 256), Err(Refusal::OutOfRange));
    }

    #[test]
    fn debug_text_shows_ports_and_carriers() {
        let mut tool = Tool::setup(1, 2).unwrap();
        tool.step(&Input::CarrierNotification { name: b"AB" }).unwrap();
        let text = format!("{tool:?}");
        assert!(text.starts_with("Tool { places: 2, ports: [Port { number: 1, transfer: 1,"), "{text}");
        assert!(text.contains("carriers: [Carrier { name: Name(\"AB\")"), "{text}");
        let end = "expected_maps: {}, requests: [], clock: 0, setting: 0, timeout: 0, predictions: [], \
                   hands: [Hands { port: 1, alarm: 0, held: 0 }] }";
        assert!(text.ends_with(end), "{text}");
        let map = ExpectedMap::new(&[3; SLOTS]).unwrap();
        tool.step(&Input::BindWithMap { port: 1, name: b"C", map }).unwrap();
        assert!(format!("{tool:?}").contains("expected_maps: {Name(\"C\"): [3, 3, 3,"), "{tool:?}");
    }
}
