//! P5: a queue for CarrierOut.
//!
//! Row 7 only asks: it puts a request behind the others. OutStart takes the oldest request for a port
//! whose carrier is ready and reserves the port, and OutDone brings the carrier out. A request names
//! its carrier, so that it stays as it is where records move up.

use super::{Given, Tool};
use crate::report::Touched;
use crate::rows::{read_name, unless, Outcome, Refusal, Result};
use crate::sound::all_zero;
use crate::state::{accessing, transfer, Carrier, Plain, Word, NAME_LEN};

pub const MAX_REQUESTS: usize = 16;

const CANCEL_CARRIER: u32 = 6;
const CARRIER_OUT: u32 = 7;
const CANCEL_RESERVATION_AT_PORT: u32 = 12;
const LOAD_START: u32 = 13;
const OPEN: u32 = 19;
const OUT_START: u32 = 27;
const OUT_DONE: u32 = 28;
const CANCEL_CARRIER_OUT: u32 = 29;
const CANCEL_ALL_CARRIER_OUT: u32 = 30;

#[derive(Clone, Copy, PartialEq, Eq, Debug)]
#[repr(C)]
pub struct Request {
    pub name: [u8; NAME_LEN],
    pub port: u8,
    pub started: u8,
}

/// The requests, the oldest first; zeros behind them.
#[derive(Clone, Copy, PartialEq, Eq, Debug)]
#[repr(C)]
pub struct Queue {
    pub count: u8,
    pub request: [Request; MAX_REQUESTS],
}

// SAFETY: every field is a `u8`, an array of them, or a type for which this holds.
unsafe impl Plain for Request {}
unsafe impl Plain for Queue {}

const _: () = assert!(core::mem::size_of::<Queue>() == 1 + 16 * 18);

impl Request {
    pub const UNUSED: Request = Request { name: [0; NAME_LEN], port: 0, started: 0 };

    #[inline]
    fn word(&self) -> Word {
        Word::from_le_bytes(self.name)
    }
}

impl Queue {
    pub const EMPTY: Queue = Queue { count: 0, request: [Request::UNUSED; MAX_REQUESTS] };

    /// The requests there are; never more than there is room for, whatever the count.
    #[inline]
    pub fn requests(&self) -> &[Request] {
        &self.request[..(self.count as usize).min(MAX_REQUESTS)]
    }

    /// Where the request of a carrier stands, whatever its port.
    #[inline]
    fn of(&self, name: [u8; NAME_LEN]) -> Option<usize> {
        let name = Word::from_le_bytes(name);
        self.requests().iter().position(|r| r.word() == name)
    }

    /// The same for one that is not yet started.
    #[inline]
    fn waiting_of(&self, name: [u8; NAME_LEN]) -> Option<usize> {
        self.of(name).filter(|&k| self.request[k].started == 0)
    }

    /// Where the request stands that is started at a port.
    #[inline]
    fn started_at(&self, port: u32) -> Option<usize> {
        self.requests().iter().position(|r| r.started != 0 && r.port as u32 == port)
    }

    /// Takes a request out; those behind it move up.
    #[inline]
    fn remove(&mut self, k: usize) {
        let last = self.count as usize - 1;
        self.request.copy_within(k + 1..=last, k);
        self.request[last] = Request::UNUSED;
        self.count -= 1;
    }
}

/// Closed and not IN ACCESS: what a carrier must be to be taken, and stays until it is out.
#[inline]
fn ready(c: &Carrier) -> bool {
    c.open == 0 && c.accessing != accessing::IN_ACCESS
}

// ---- Rows -----------------------------------------------------------------------------------

/// The rows that are the queue's: row 7, and those that P5 adds. `None` for every other number.
#[inline]
pub(super) fn row(t: &mut Tool, given: &Given, name: &[u8]) -> Option<Outcome> {
    match given.number {
        CARRIER_OUT => Some(carrier_out(t, name, given.port)),
        OUT_START => Some(out_start(t, given.port)),
        OUT_DONE => Some(out_done(t, given.port)),
        CANCEL_CARRIER_OUT => Some(cancel_carrier_out(t, name)),
        CANCEL_ALL_CARRIER_OUT => Some(cancel_all_carrier_out(t)),
        _ => None,
    }
}

fn carrier_out(t: &mut Tool, name: &[u8], port: u32) -> Outcome {
    let name = read_name(name)?;
    t.base.index(port)?;
    let i = t.base.find(name).ok_or(Refusal::NoRecord)?;
    unless(t.base.carrier[i].in_buffer(), Refusal::Conditions)?;
    let k = t.queue.count as usize;
    unless(k < MAX_REQUESTS, Refusal::QueueFull)?;
    unless(t.queue.of(name).is_none(), Refusal::AlreadyQueued)?;

    t.queue.request[k] = Request { name, port: port as u8, started: 0 };
    t.queue.count += 1;
    Ok(Touched::NOTHING)
}

fn out_start(t: &mut Tool, port: u32) -> Outcome {
    let p = t.base.index(port)?;
    unless(!t.base.port[p].held(), Refusal::PortHeld)?;
    unless(t.base.port[p].transfer == transfer::READY_TO_LOAD, Refusal::Conditions)?;
    let can_be_taken =
        |r: &Request| r.port as u32 == port && t.base.find(r.name).is_some_and(|i| ready(&t.base.carrier[i]));
    let k = t.queue.requests().iter().position(can_be_taken).ok_or(Refusal::Conditions)?;

    let touched = Touched::NOTHING.port(&t.base, p);
    t.queue.request[k].started = 1;
    t.base.port[p].reserved = 1;
    Ok(touched)
}

fn out_done(t: &mut Tool, port: u32) -> Outcome {
    let p = t.base.index(port)?;
    let k = t.queue.started_at(port).ok_or(Refusal::Conditions)?;
    let i = t.base.find(t.queue.request[k].name).ok_or(Refusal::Conditions)?;

    let touched = Touched::NOTHING.port(&t.base, p);
    t.base.bring_out(i, p);
    t.base.port[p].reserved = 0;
    t.queue.remove(k);
    Ok(touched)
}

fn cancel_carrier_out(t: &mut Tool, name: &[u8]) -> Outcome {
    let k = t.queue.waiting_of(read_name(name)?).ok_or(Refusal::Conditions)?;

    t.queue.remove(k);
    Ok(Touched::NOTHING)
}

fn cancel_all_carrier_out(t: &mut Tool) -> Outcome {
    let before = t.queue;
    t.queue = Queue::EMPTY;
    for r in before.requests().iter().filter(|r| r.started != 0) {
        t.queue.request[t.queue.count as usize] = *r;
        t.queue.count += 1;
    }
    Ok(Touched::NOTHING)
}

/// What rows 12, 13 and 19 are refused for while a request is started. A started port is reserved,
/// untied and READY TO LOAD and its carrier has a record, so that no lower number applies.
#[inline]
pub(super) fn admit(t: &Tool, given: &Given, name: &[u8]) -> Result<()> {
    match given.number {
        CANCEL_RESERVATION_AT_PORT | LOAD_START => {
            unless(t.queue.started_at(given.port).is_none(), Refusal::PortHeld)
        }
        OPEN => {
            let started = t.queue.of(read_name(name)?).is_some_and(|k| t.queue.request[k].started != 0);
            unless(!started, Refusal::Conditions)
        }
        _ => Ok(()),
    }
}

/// An accepted CancelCarrier drops its carrier's request, unless that is started.
#[inline]
pub(super) fn drop_cancelled(t: &mut Tool, given: &Given, name: &[u8]) {
    if given.number != CANCEL_CARRIER || t.queue.count == 0 {
        return;
    }
    if let Some(k) = read_name(name).ok().and_then(|name| t.queue.waiting_of(name)) {
        t.queue.remove(k);
    }
}

// ---- Soundness --------------------------------------------------------------------------------

/// The words on requests, where document 01's tool is sound.
pub(super) fn sound(t: &Tool) -> bool {
    let count = t.queue.count as usize;
    if count > MAX_REQUESTS || !all_zero(Request::bytes_of(&t.queue.request[count..])) {
        return false;
    }
    count == 0 || t.base.count > 0 && requests_agree(t)
}

/// Each request has a carrier in the buffer, and none has two; a started one has its port to itself.
#[inline]
fn requests_agree(t: &Tool) -> bool {
    let buffered = Buffered::of(t.base.carriers());
    let mut met = 0u64; // bit i for record i
    let mut begun = 0u32; // bit p for port p
    t.queue.requests().iter().all(|r| {
        let Some(i) = buffered.find(r.word()) else { return false };
        let in_range = r.port.wrapping_sub(1) < t.base.ports && r.started <= 1;
        if !in_range || met >> i & 1 != 0 {
            return false;
        }
        met |= 1 << i;
        if r.started == 0 {
            return true;
        }
        let port = &t.base.port[r.port as usize - 1];
        let alone = begun >> r.port & 1 == 0;
        begun |= 1 << r.port;
        alone
            && ready(&t.base.carrier[i])
            && port.reserved != 0
            && port.transfer == transfer::READY_TO_LOAD
            && !port.tied()
    })
}

/// The carriers in the buffer, each at the hash of its name. Names differ; where two have one hash, the
/// other is searched for.
struct Buffered<'a> {
    carriers: &'a [Carrier],
    at: [u8; 256],
}

impl<'a> Buffered<'a> {
    /// Of at least one record.
    #[inline]
    fn of(carriers: &'a [Carrier]) -> Buffered<'a> {
        let mut at = [0; 256];
        for (i, c) in carriers.iter().enumerate().filter(|(_, c)| c.in_buffer()) {
            at[hash(c.word())] = i as u8;
        }
        Buffered { carriers, at }
    }

    #[inline]
    fn find(&self, name: Word) -> Option<usize> {
        let is = |c: &Carrier| c.word() == name && c.in_buffer();
        let i = self.at[hash(name)] as usize;
        if is(&self.carriers[i]) {
            return Some(i);
        }
        self.carriers.iter().position(is)
    }
}

#[inline]
fn hash(name: Word) -> usize {
    let mixed = name as u64 ^ ((name >> 64) as u64).rotate_left(29);
    (mixed.wrapping_mul(0x9E37_79B9_7F4A_7C15) >> 56) as usize
}
