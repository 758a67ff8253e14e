//! The inputs, one function for each row of document 01.
//!
//! A row looks first and changes after: each `?` stands before the first change, in the order of
//! the refusal numbers, so that a refusal leaves the tool as it was.

use crate::report::Touched;
use crate::sound::sound;
use crate::state::*;

/// Why an input is refused.
#[derive(Clone, Copy)]
#[repr(u32)]
pub(crate) enum Refusal {
    Range = 1,
    NoRecord = 2,
    NameTaken = 3,
    PortHeld = 4,
    Conditions = 5,
    TooManyExpected = 6,
    NotVerified = 7,
    Occupied = 8,
    // The two that P5 adds; no row of document 01 gives them.
    QueueFull = 9,
    AlreadyQueued = 10,
    // Those of P7, P8 and P9.
    ClockEarlier = 11,
    NoTp = 12,
    AutomaticInManual = 13,
}

use Refusal::*;

pub(crate) type Result<T> = core::result::Result<T, Refusal>;
pub(crate) type Outcome = Result<Touched>;

/// Gives the tool an input: 0 if accepted, with the reports in `out`; otherwise the number of the
/// refusal, with the tool as it was and no report. A state that isn't sound is refused with 1.
pub fn step(
    t: &mut Tool,
    number: u32,
    port: u32,
    value: u32,
    name: &[u8],
    codes: &[u8],
    out: &mut Reports,
) -> u32 {
    if !sound(t) {
        *out = Reports::NONE;
        return Range as u32;
    }
    step_known_sound(t, number, port, value, name, codes, out)
}

/// As [`step`], for a state that is known to be sound. (For another it may panic, or answer
/// anything.)
pub fn step_known_sound(
    t: &mut Tool,
    number: u32,
    port: u32,
    value: u32,
    name: &[u8],
    codes: &[u8],
    out: &mut Reports,
) -> u32 {
    let outcome = row(t, number, port, value, name, codes);
    answered(outcome, t, out)
}

/// The answer, and the reports where the input was accepted.
#[inline]
fn answered(outcome: Outcome, t: &Tool, out: &mut Reports) -> u32 {
    *out = Reports::NONE;
    match outcome {
        Ok(touched) => {
            touched.report(t, out);
            0
        }
        Err(refusal) => refusal as u32,
    }
}

/// The row of this number: what it touched, or why it is refused.
#[inline]
pub(crate) fn row(t: &mut Tool, number: u32, port: u32, value: u32, name: &[u8], codes: &[u8]) -> Outcome {
    match number {
        1 => bind(t, port, name),
        2 => cancel_bind(t, port, name),
        3 => carrier_notification(t, name),
        4 => cancel_carrier_notification(t, name),
        5 => proceed_with_carrier(t, name, port),
        6 => cancel_carrier(t, name, port),
        7 => carrier_out(t, name, port),
        8 => carrier_in(t, name),
        9 => change_access(t, port, value),
        10 => change_service_status(t, port, value),
        11 => reserve_at_port(t, port),
        12 => cancel_reservation_at_port(t, port),
        13 => load_start(t, port),
        14 => load_done(t, port),
        15 => load_fail(t, port),
        16 => id_read(t, port, name),
        17 => id_read_failed(t, port),
        18 => move_in(t, port, value),
        19 => open(t, name),
        20 => slot_map(t, name, codes),
        21 => access_start(t, name),
        22 => access_end(t, name, value),
        23 => close(t, name),
        24 => unload_start(t, port),
        25 => unload_done(t, port),
        26 => unload_fail(t, port),
        _ => Err(Range),
    }
}

// ---- The rows -----------------------------------------------------------------------------

fn bind(t: &mut Tool, port: u32, name: &[u8]) -> Outcome {
    let p = t.index(port)?;
    let name = read_name(name)?;
    unless(t.find(name).is_none(), NameTaken)?;
    unless(!t.port[p].held(), PortHeld)?;
    unless(t.port[p].transfer == transfer::READY_TO_LOAD, Conditions)?;
    unless(t.room_for_expected(), TooManyExpected)?;

    let touched = Touched::NOTHING.port(t, p);
    let i = t.make(name);
    t.tie(i, p);
    t.port[p].reserved = 1;
    Ok(touched.made(i))
}

fn cancel_bind(t: &mut Tool, port: u32, name: &[u8]) -> Outcome {
    let p = t.index_if_given(port)?;
    let name = if name.is_empty() { None } else { Some(read_name(name)?) };
    let (i, p) = match (name, p) {
        (None, None) => return Err(Range),
        (None, Some(p)) => (t.tied_to(p).ok_or(Conditions)?, p),
        (Some(name), given) => {
            let i = t.find(name).ok_or(NoRecord)?;
            let p = t.port_of(i).ok_or(Conditions)?;
            unless(given.is_none_or(|given| given == p), Conditions)?;
            (i, p)
        }
    };
    unless(t.carrier[i].expected() && t.port[p].idle(), Conditions)?;

    let touched = Touched::NOTHING.port(t, p).gone(t, i);
    t.remove(i);
    t.port[p].tie = [0; NAME_LEN];
    t.port[p].reserved = 0;
    Ok(touched)
}

fn carrier_notification(t: &mut Tool, name: &[u8]) -> Outcome {
    let name = read_name(name)?;
    unless(t.find(name).is_none(), NameTaken)?;
    unless(t.room_for_expected(), TooManyExpected)?;

    let i = t.make(name);
    Ok(Touched::NOTHING.made(i))
}

fn cancel_carrier_notification(t: &mut Tool, name: &[u8]) -> Outcome {
    let i = t.find(read_name(name)?).ok_or(NoRecord)?;
    unless(t.carrier[i].expected() && t.carrier[i].port == 0, Conditions)?;

    let touched = Touched::NOTHING.gone(t, i);
    t.remove(i);
    Ok(touched)
}

fn proceed_with_carrier(t: &mut Tool, name: &[u8], port: u32) -> Outcome {
    let name = read_name(name)?;
    let p = t.index_if_given(port)?;
    let Some(i) = t.find(name).filter(|&i| t.carrier[i].placed()) else {
        let (touched, ..) = judge_unknown_pod(t, name, p, status::OK)?;
        return Ok(touched);
    };
    unless(p.is_none() || p == t.port_of(i), Conditions)?;

    let touched = Touched::NOTHING.carrier(t, i);
    let c = &mut t.carrier[i];
    match (c.id, c.slot) {
        (status::WAITING, _) => c.id = status::OK,
        (status::OK, status::WAITING) => c.slot = status::OK,
        _ => return Err(Conditions),
    }
    Ok(touched)
}

fn cancel_carrier(t: &mut Tool, name: &[u8], port: u32) -> Outcome {
    let name = read_name(name)?;
    let p = t.index_if_given(port)?;
    let (touched, i, p) = match t.find(name).filter(|&i| t.carrier[i].placed()) {
        None => {
            let (touched, i, p) = judge_unknown_pod(t, name, p, status::FAILED)?;
            (touched, i, Some(p))
        }
        Some(i) => {
            let own = t.port_of(i);
            unless(p.is_none() || p == own, Conditions)?;
            unless(t.carrier[i].accessing != accessing::IN_ACCESS, Conditions)?;
            unless(own.is_none_or(|p| t.port[p].idle()), Conditions)?;

            let mut touched = Touched::NOTHING.carrier(t, i);
            if let Some(p) = own {
                touched = touched.port(t, p);
            }
            let c = &mut t.carrier[i];
            if c.id == status::WAITING {
                c.id = status::FAILED;
            } else if c.slot == status::WAITING {
                c.slot = status::FAILED;
            }
            (touched, i, own)
        }
    };
    let c = &mut t.carrier[i];
    c.cancelled = 1;
    c.open = 0;
    match p.map(|p| &mut t.port[p]) {
        Some(port) if port.transfer == transfer::READY_TO_UNLOAD => {}
        Some(port) => {
            port.transfer = transfer::READY_TO_UNLOAD;
            c.came_out = 0;
        }
        None => c.came_out = 0,
    }
    Ok(touched)
}

/// Rows 5 and 6 where the name has no record or is expected: the unknown pod at the given port
/// is taken for the carrier, with this ID. Answers the carrier and the port too.
fn judge_unknown_pod(
    t: &mut Tool,
    name: [u8; NAME_LEN],
    p: Option<usize>,
    id: u8,
) -> Result<(Touched, usize, usize)> {
    let found = t.find(name);
    let unknown = p.filter(|&p| {
        let port = &t.port[p];
        port.pod != 0 && port.idle() && port.tag == tag::FAILED && !port.tied()
    });
    let p = match found {
        None => unknown.ok_or(NoRecord)?,
        Some(i) if t.carrier[i].port == 0 => unknown.ok_or(Conditions)?,
        Some(_) => return Err(Conditions),
    };

    let (touched, i) = t.found_or_made(found, Touched::NOTHING.port(t, p), name);
    t.carrier[i].id = id;
    t.place_at(i, p);
    Ok((touched, i, p))
}

fn carrier_out(t: &mut Tool, name: &[u8], port: u32) -> Outcome {
    let name = read_name(name)?;
    let p = t.index(port)?;
    let i = t.find(name).ok_or(NoRecord)?;
    unless(!t.port[p].held(), PortHeld)?;
    let c = &t.carrier[i];
    unless(
        c.in_buffer()
            && c.open == 0
            && c.accessing != accessing::IN_ACCESS
            && t.port[p].transfer == transfer::READY_TO_LOAD,
        Conditions,
    )?;

    let touched = Touched::NOTHING.port(t, p);
    t.bring_out(i, p);
    Ok(touched)
}

fn carrier_in(t: &mut Tool, name: &[u8]) -> Outcome {
    let i = t.find(read_name(name)?).ok_or(NoRecord)?;
    let c = &t.carrier[i];
    unless(c.at_port() && c.came_out != 0, Conditions)?;
    let p = t.port_of(i).ok_or(Conditions)?;
    unless(t.port[p].transfer == transfer::READY_TO_UNLOAD, Conditions)?;

    let touched = Touched::NOTHING.port(t, p);
    t.port[p].transfer = transfer::BLOCKED;
    t.carrier[i].came_out = 0;
    Ok(touched)
}

fn change_access(t: &mut Tool, port: u32, value: u32) -> Outcome {
    let p = t.index(port)?;
    let value = read_switch(value)?;
    if t.port[p].access == value {
        return Ok(Touched::NOTHING);
    }
    unless(t.port[p].reserved == 0, PortHeld)?;
    unless(t.port[p].idle(), Conditions)?;

    let touched = Touched::NOTHING.port(t, p);
    t.port[p].access = value;
    Ok(touched)
}

fn change_service_status(t: &mut Tool, port: u32, value: u32) -> Outcome {
    let p = t.index(port)?;
    let to_be_in = read_switch(value)? == 1;
    let port = &t.port[p];
    if (port.transfer != transfer::OUT_OF_SERVICE) == to_be_in {
        return Ok(Touched::NOTHING);
    }
    if !to_be_in {
        unless(!port.held(), PortHeld)?;
        unless(port.transfer == transfer::READY_TO_LOAD, Conditions)?;
    }

    let touched = Touched::NOTHING.port(t, p);
    t.port[p].transfer = if to_be_in { transfer::READY_TO_LOAD } else { transfer::OUT_OF_SERVICE };
    Ok(touched)
}

fn reserve_at_port(t: &mut Tool, port: u32) -> Outcome {
    let p = t.index(port)?;
    unless(!t.port[p].held(), PortHeld)?;
    unless(t.port[p].transfer == transfer::READY_TO_LOAD, Conditions)?;

    let touched = Touched::NOTHING.port(t, p);
    t.port[p].reserved = 1;
    Ok(touched)
}

fn cancel_reservation_at_port(t: &mut Tool, port: u32) -> Outcome {
    let p = t.index(port)?;
    unless(!t.port[p].tied(), PortHeld)?;
    unless(t.port[p].reserved != 0, Conditions)?;

    let touched = Touched::NOTHING.port(t, p);
    t.port[p].reserved = 0;
    Ok(touched)
}

fn load_start(t: &mut Tool, port: u32) -> Outcome {
    let p = t.index(port)?;
    unless(t.port[p].transfer == transfer::READY_TO_LOAD, Conditions)?;

    let touched = Touched::NOTHING.port(t, p);
    let port = &mut t.port[p];
    port.transfer = transfer::BLOCKED;
    port.movement = movement::LOADING;
    port.reserved = 0;
    Ok(touched)
}

fn load_done(t: &mut Tool, port: u32) -> Outcome {
    let p = t.index(port)?;
    unless(t.port[p].movement == movement::LOADING, Conditions)?;

    let touched = Touched::NOTHING.port(t, p);
    let port = &mut t.port[p];
    port.movement = movement::NONE;
    port.pod = 1;
    port.tag = tag::UNREAD;
    Ok(touched)
}

fn load_fail(t: &mut Tool, port: u32) -> Outcome {
    let p = t.index(port)?;
    unless(t.port[p].movement == movement::LOADING, Conditions)?;

    let touched = Touched::NOTHING.port(t, p);
    let port = &mut t.port[p];
    port.movement = movement::NONE;
    port.transfer = transfer::READY_TO_LOAD;
    Ok(touched)
}

fn id_read(t: &mut Tool, port: u32, name: &[u8]) -> Outcome {
    let p = t.index(port)?;
    let name = read_name(name)?;
    let found = t.find(name);
    if let Some(i) = found {
        let elsewhere = t.port_of(i).is_some_and(|own| own != p);
        unless(t.carrier[i].expected() && !elsewhere, NameTaken)?;
    }
    unless(t.port[p].awaits_reading(), Conditions)?;

    let mut touched = Touched::NOTHING.port(t, p);
    let another = t.tied_to(p).filter(|&tied| found != Some(tied));
    let mut found = found;
    if let Some(another) = another {
        touched = touched.gone(t, another);
        t.remove(another);
        found = found.map(|i| i - (i > another) as usize);
    }
    let matching = found.is_some() && another.is_none();

    let (touched, i) = t.found_or_made(found, touched, name);
    t.carrier[i].id = if matching { status::OK } else { status::WAITING };
    t.place_at(i, p);
    t.port[p].tag = tag::READ;
    Ok(touched)
}

fn id_read_failed(t: &mut Tool, port: u32) -> Outcome {
    let p = t.index(port)?;
    unless(t.port[p].awaits_reading(), Conditions)?;

    let mut touched = Touched::NOTHING.port(t, p);
    t.port[p].tag = tag::FAILED;
    if let Some(i) = t.tied_to(p) {
        touched = touched.carrier(t, i);
        t.carrier[i].place = place::PORT;
        t.carrier[i].id = status::WAITING;
    }
    Ok(touched)
}

fn move_in(t: &mut Tool, port: u32, place: u32) -> Outcome {
    let p = t.index(port)?;
    unless((1..=t.places as u32).contains(&place), Range)?;
    let spot = place as u8;
    let port = &t.port[p];
    unless(port.pod != 0 && port.idle() && port.transfer == transfer::BLOCKED, Conditions)?;
    let i = t.tied_to(p).ok_or(NotVerified)?;
    unless(t.carrier[i].at_port() && t.carrier[i].id == status::OK, NotVerified)?;
    unless(t.carriers().iter().all(|c| c.spot != spot), Occupied)?;

    let touched = Touched::NOTHING.port(t, p);
    let c = &mut t.carrier[i];
    c.place = place::BUFFER;
    c.spot = spot;
    c.port = 0;
    let port = &mut t.port[p];
    port.pod = 0;
    port.tie = [0; NAME_LEN];
    port.tag = tag::UNREAD;
    port.transfer = transfer::READY_TO_LOAD;
    Ok(touched)
}

fn open(t: &mut Tool, name: &[u8]) -> Outcome {
    let i = t.find(read_name(name)?).ok_or(NoRecord)?;
    let c = &t.carrier[i];
    let before_opener = c.in_buffer()
        || t.places == 0
            && c.at_port()
            && t.port_of(i).is_some_and(|p| t.port[p].idle() && t.port[p].transfer == transfer::BLOCKED);
    unless(c.open == 0 && c.accessing == accessing::NOT_ACCESSED && before_opener, Conditions)?;
    unless(c.id == status::OK && c.slot != status::FAILED && c.cancelled == 0, NotVerified)?;
    unless(t.places == 0 || t.carriers().iter().all(|c| c.open == 0), Occupied)?;

    t.carrier[i].open = 1;
    Ok(Touched::NOTHING)
}

fn slot_map(t: &mut Tool, name: &[u8], codes: &[u8]) -> Outcome {
    let name = read_name(name)?;
    let map: &[u8; MAP_LEN] = codes.try_into().map_err(|_| Range)?;
    unless(map.iter().fold(0, |most, &code| code.max(most)) <= 5, Range)?;
    let i = t.find(name).ok_or(NoRecord)?;
    unless(t.carrier[i].open != 0 && t.carrier[i].slot == status::NOT_READ, Conditions)?;

    let touched = Touched::NOTHING.carrier(t, i);
    t.carrier[i].map = *map;
    t.carrier[i].slot = status::WAITING;
    Ok(touched)
}

fn access_start(t: &mut Tool, name: &[u8]) -> Outcome {
    let i = t.find(read_name(name)?).ok_or(NoRecord)?;
    let c = &t.carrier[i];
    unless(c.open != 0 && c.accessing == accessing::NOT_ACCESSED, Conditions)?;
    unless(c.slot == status::OK, NotVerified)?;

    let touched = Touched::NOTHING.carrier(t, i);
    t.carrier[i].accessing = accessing::IN_ACCESS;
    Ok(touched)
}

fn access_end(t: &mut Tool, name: &[u8], value: u32) -> Outcome {
    let name = read_name(name)?;
    let stopped = read_switch(value)? == 1;
    let i = t.find(name).ok_or(NoRecord)?;
    unless(t.carrier[i].accessing == accessing::IN_ACCESS, Conditions)?;

    let touched = Touched::NOTHING.carrier(t, i);
    t.carrier[i].accessing = if stopped { accessing::STOPPED } else { accessing::COMPLETE };
    Ok(touched)
}

fn close(t: &mut Tool, name: &[u8]) -> Outcome {
    let i = t.find(read_name(name)?).ok_or(NoRecord)?;
    let c = &mut t.carrier[i];
    unless(c.open != 0 && c.accessing != accessing::IN_ACCESS, Conditions)?;

    c.open = 0;
    let ended = matches!(c.accessing, accessing::COMPLETE | accessing::STOPPED);
    if !(c.at_port() && ended) {
        return Ok(Touched::NOTHING);
    }
    let p = c.port as usize - 1;
    let touched = Touched::NOTHING.port(t, p);
    t.port[p].transfer = transfer::READY_TO_UNLOAD;
    Ok(touched)
}

fn unload_start(t: &mut Tool, port: u32) -> Outcome {
    let p = t.index(port)?;
    unless(t.port[p].transfer == transfer::READY_TO_UNLOAD, Conditions)?;

    let touched = Touched::NOTHING.port(t, p);
    t.port[p].transfer = transfer::BLOCKED;
    t.port[p].movement = movement::UNLOADING;
    Ok(touched)
}

fn unload_done(t: &mut Tool, port: u32) -> Outcome {
    let p = t.index(port)?;
    unless(t.port[p].movement == movement::UNLOADING, Conditions)?;

    let mut touched = Touched::NOTHING.port(t, p);
    if let Some(i) = t.tied_to(p) {
        touched = touched.gone(t, i);
        t.remove(i);
    }
    let port = &mut t.port[p];
    port.movement = movement::NONE;
    port.pod = 0;
    port.tag = tag::UNREAD;
    port.tie = [0; NAME_LEN];
    port.transfer = transfer::READY_TO_LOAD;
    Ok(touched)
}

fn unload_fail(t: &mut Tool, port: u32) -> Outcome {
    let p = t.index(port)?;
    unless(t.port[p].movement == movement::UNLOADING, Conditions)?;

    let touched = Touched::NOTHING.port(t, p);
    t.port[p].movement = movement::NONE;
    t.port[p].transfer = transfer::READY_TO_UNLOAD;
    Ok(touched)
}

// ---- What the rows are made of --------------------------------------------------------------

#[inline]
pub(crate) fn unless(holds: bool, refusal: Refusal) -> Result<()> {
    if holds {
        Ok(())
    } else {
        Err(refusal)
    }
}

/// The name, zero padded, if it is 1 to 16 bytes of 0x21 to 0x7E.
#[inline]
pub(crate) fn read_name(bytes: &[u8]) -> Result<[u8; NAME_LEN]> {
    const ONES: Word = Word::MAX / 0xFF; // 0x01 in each byte
    const HIGH: Word = ONES << 7;
    let length = bytes.len();
    unless((1..=NAME_LEN).contains(&length), Range)?;
    let name = little_endian(bytes);
    // Below 0x80 no sum leaves its byte. 0x21 is the least that comes to 0x80, and 0x7F is too
    // much.
    let visible = name.wrapping_add(ONES * (0x80 - 0x21)) & HIGH;
    let too_much = (name | name.wrapping_add(ONES)) & HIGH;
    unless(visible == HIGH >> (8 * (NAME_LEN - length)) && too_much == 0, Range)?;
    Ok(name.to_le_bytes())
}

/// Up to 16 bytes as a word. Of the two halves each is read at once; where they overlap they agree.
#[inline]
fn little_endian(bytes: &[u8]) -> Word {
    if let (Some(head), Some(tail)) = (bytes.first_chunk(), bytes.last_chunk()) {
        let (head, tail) = (u64::from_le_bytes(*head), u64::from_le_bytes(*tail));
        head as Word | (tail as Word) << (8 * (bytes.len() - 8))
    } else if let (Some(head), Some(tail)) = (bytes.first_chunk(), bytes.last_chunk()) {
        let (head, tail) = (u32::from_le_bytes(*head), u32::from_le_bytes(*tail));
        (head as u64 | (tail as u64) << (8 * (bytes.len() - 4))) as Word
    } else {
        bytes.iter().rev().fold(0, |word: u32, &byte| word << 8 | byte as u32) as Word
    }
}

/// A value that is 0 or 1.
#[inline]
fn read_switch(value: u32) -> Result<u8> {
    unless(value <= 1, Range)?;
    Ok(value as u8)
}

impl Port {
    /// Reserved or tied.
    #[inline]
    pub(crate) fn held(&self) -> bool {
        self.reserved != 0 || self.tied()
    }

    #[inline]
    fn awaits_reading(&self) -> bool {
        self.pod != 0 && self.idle() && self.tag == tag::UNREAD
    }
}

impl Tool {
    /// The index of a port given by its number.
    #[inline]
    pub(crate) fn index(&self, port: u32) -> Result<usize> {
        unless((1..=self.ports as u32).contains(&port), Range)?;
        Ok(port as usize - 1)
    }

    /// The same where 0 means "not given".
    #[inline]
    fn index_if_given(&self, port: u32) -> Result<Option<usize>> {
        if port == 0 {
            return Ok(None);
        }
        self.index(port).map(Some)
    }

    /// The record of this name.
    #[inline]
    pub(crate) fn find(&self, name: [u8; NAME_LEN]) -> Option<usize> {
        let name = Word::from_le_bytes(name);
        self.carriers().iter().position(|c| c.word() == name)
    }

    /// The record tied to a port.
    #[inline]
    pub(crate) fn tied_to(&self, p: usize) -> Option<usize> {
        if !self.port[p].tied() {
            return None;
        }
        self.carriers().iter().position(|c| c.port as usize == p + 1)
    }

    /// The port that a record is tied to.
    #[inline]
    fn port_of(&self, i: usize) -> Option<usize> {
        (self.carrier[i].port as usize).checked_sub(1)
    }

    #[inline]
    fn room_for_expected(&self) -> bool {
        self.carriers().iter().filter(|c| c.expected()).count() < MAX_EXPECTED
    }

    /// Makes a new record, which stands last.
    #[inline]
    fn make(&mut self, name: [u8; NAME_LEN]) -> usize {
        let i = self.count as usize;
        self.carrier[i] = Carrier::new(name);
        self.count += 1;
        i
    }

    /// The record found, or else a new one.
    #[inline]
    fn found_or_made(
        &mut self,
        found: Option<usize>,
        touched: Touched,
        name: [u8; NAME_LEN],
    ) -> (Touched, usize) {
        match found {
            Some(i) => (touched.carrier(self, i), i),
            None => {
                let i = self.make(name);
                (touched.made(i), i)
            }
        }
    }

    /// Takes a record out; those behind it move up.
    #[inline]
    fn remove(&mut self, i: usize) {
        let last = self.count as usize - 1;
        self.carrier.copy_within(i + 1..=last, i);
        self.carrier[last] = Carrier::UNUSED;
        self.count -= 1;
    }

    /// Ties a record to a port, on either side.
    #[inline]
    fn tie(&mut self, i: usize, p: usize) {
        self.carrier[i].port = p as u8 + 1;
        self.port[p].tie = self.carrier[i].name;
    }

    /// Places a record at a port, tied to it.
    #[inline]
    fn place_at(&mut self, i: usize, p: usize) {
        self.carrier[i].place = place::PORT;
        self.carrier[i].spot = 0;
        self.tie(i, p);
    }
    /// The effect of row 7: a carrier comes out of the buffer to a port.
    #[inline]
    pub(crate) fn bring_out(&mut self, i: usize, p: usize) {
        self.place_at(i, p);
        self.carrier[i].came_out = 1;
        let port = &mut self.port[p];
        port.pod = 1;
        port.tag = tag::READ;
        port.transfer = transfer::READY_TO_UNLOAD;
    }
}
