//! Soundness: what every state of a tool obeys.
//!
//! Two passes over the records: one bounds their bytes and looks at where the carriers are, one
//! looks at their names. But for a clash of hashes neither branches on anything that a sound state
//! may hold: what is wrong is gathered, and judged once at the end.

use crate::state::*;

/// Whether the state is sound: every field in its range, unused bytes and records zero, and the
/// words of document 01 on names, ties, places, pods and openers.
pub fn sound(t: &Tool) -> bool {
    if !(1..=MAX_PORTS as u8).contains(&t.ports)
        || t.places > MAX_PLACES as u8
        || t.count > MAX_CARRIERS as u8
    {
        return false;
    }
    let (ports, unused_ports) = t.port.split_at(t.ports as usize);
    let (carriers, unused_carriers) = t.carrier.split_at(t.count as usize);
    ports_agree(ports)
        && all_zero(Port::bytes_of(unused_ports))
        && all_zero(Carrier::bytes_of(unused_carriers))
        && seats_agree(t, ports, carriers)
        && names_agree(carriers)
}

#[inline]
pub(crate) fn all_zero(bytes: &[u8]) -> bool {
    bytes.iter().fold(0, |sum, byte| sum | byte) == 0
}

/// The words that concern a port alone.
#[inline]
fn ports_agree(ports: &[Port]) -> bool {
    ports.iter().all(|port| {
        let moving = port.movement != movement::NONE;
        let empty = port.transfer <= transfer::READY_TO_LOAD || port.movement == movement::LOADING;
        (port.transfer <= transfer::BLOCKED)
            & ((port.access | port.reserved | port.pod) <= 1)
            & (port.movement <= movement::UNLOADING)
            & (port.tag <= tag::FAILED)
            & (!moving | (port.transfer == transfer::BLOCKED))
            & (!empty | (port.pod == 0))
    })
}

/// The bytes of a record behind place and spot: port, open, cancelled, came-out, the codes and the
/// three statuses.
const FIELDS: usize = core::mem::size_of::<Carrier>() - NAME_LEN - 2;

/// The most that each of them may be. (`seats_agree` looks closer at the first two.)
const MOST: [u8; FIELDS] = {
    let mut most = [5; FIELDS];
    (most[0], most[1], most[2], most[3]) = (MAX_PORTS as u8, 1, 1, 1);
    (most[FIELDS - 3], most[FIELDS - 2], most[FIELDS - 1]) = (4, 4, 4);
    most
};

/// The least that each of them may be: only a status has no 0.
const LEAST: [u8; FIELDS] = {
    let mut least = [0; FIELDS];
    (least[FIELDS - 3], least[FIELDS - 2], least[FIELDS - 1]) = (1, 1, 1);
    least
};

/// Every byte behind the spot is in its range, and every byte of a name is 0 or 0x21 to 0x7E. What
/// is beyond is gathered for all bytes of a record at once, in vectors.
struct Ranges {
    beyond: [u8; FIELDS],
    strange: [u8; NAME_LEN],
}

impl Ranges {
    #[inline(always)]
    fn new() -> Ranges {
        Ranges { beyond: [0; FIELDS], strange: [0; NAME_LEN] }
    }

    #[inline(always)]
    fn look(&mut self, c: &Carrier) {
        let fields: &[u8; FIELDS] = c.bytes().last_chunk().unwrap();
        for k in 0..FIELDS {
            self.beyond[k] |= fields[k].saturating_sub(MOST[k]) | LEAST[k].saturating_sub(fields[k]);
        }
        for k in 0..NAME_LEN {
            let blank = if c.name[k] > 0x20 { 0 } else { c.name[k] };
            self.strange[k] |= c.name[k].saturating_sub(0x7E) | blank;
        }
    }

    #[inline(always)]
    fn agree(&self) -> bool {
        all_zero(&self.beyond) && all_zero(&self.strange)
    }
}

/// Place, spot, port and open as one word, in this order from the lowest byte.
type Seat = u32;

const fn seat(place: u8, spot: u8, port: u8, open: u8) -> Seat {
    Seat::from_le_bytes([place, spot, port, open])
}

/// The ranges, and the words on places, ties and openers.
#[inline]
fn seats_agree(t: &Tool, ports: &[Port], carriers: &[Carrier]) -> bool {
    const HIGH: Seat = 0x8080_8080;
    const BY_PLACE: [u32; 4] = [1, 1 << 8, 1 << 16, 0];
    // The bounds of a seat hang on its place; the last row lets nothing through.
    let most = [seat(0, 0, t.ports, 0), seat(1, 0, t.ports, 1), seat(2, t.places, 0, 1), 0];
    let least = [seat(0, 0, 0, 0), seat(1, 0, 1, 0), seat(2, 1, 0, 0), seat(127, 0, 0, 0)];
    let most = most.map(|most| HIGH + most);
    let least = least.map(|least| HIGH - least);

    let mut ranges = Ranges::new();
    let mut within = HIGH;
    let mut high = 0;
    let mut spots = 0u32; // bit s for place s; bit 0 means nothing
    let mut by_place = 0u32; // how many have each place, in a byte for each
    let mut tied = 0;
    let mut at = [0u8; 8]; // which is tied to each port; at[0] means nothing
    for (i, c) in carriers.iter().enumerate() {
        ranges.look(c);
        let is = seat(c.place, c.spot, c.port, c.open);
        let row = c.place as usize & 3;
        // Where no byte is 0x80 or more, either keeps the high bit of each byte within bounds.
        within &= most[row].wrapping_sub(is) & least[row].wrapping_add(is);
        high |= is;
        spots |= 1 << (c.spot & 31);
        by_place += BY_PLACE[row];
        tied += (c.port != 0) as usize;
        at[c.port as usize & 7] = i as u8;
    }
    let [expected, _, buffered, _] = by_place.to_le_bytes();
    ranges.agree()
        && within & !high & HIGH == HIGH
        && expected <= MAX_EXPECTED as u8
        && buffered as u32 == (spots & !1).count_ones()
        && tied == ports.iter().filter(|port| port.tied()).count()
        && ties_agree(t, ports, &at)
}

/// Each tied port has its carrier; as many carriers are tied as ports, so that each tied carrier
/// has its port.
#[inline]
fn ties_agree(t: &Tool, ports: &[Port], at: &[u8; 8]) -> bool {
    ports.iter().zip(&at[1..]).enumerate().all(|(p, (port, &i))| {
        let c = &t.carrier[i as usize];
        !port.tied()
            || c.word() == port.tie()
                && c.port as usize == p + 1
                && (c.open == 0 || port.idle() && port.transfer == transfer::BLOCKED)
    })
}

/// The bytes of a name that aren't zero begin at the first and nowhere else (all are below 0x80);
/// and names differ: each sets a bit of its hash, and only where that was set is it compared with
/// the names before it.
#[inline]
fn names_agree(carriers: &[Carrier]) -> bool {
    const ONES: Word = Word::MAX / 0xFF; // 0x01 in each byte
    const HIGH: u64 = (u64::MAX / 0xFF) << 7;
    let mut astray = 0;
    let mut met = [0u64; 32];
    for (i, c) in carriers.iter().enumerate() {
        let name = c.word();
        let filled = name.wrapping_add(ONES * 0x7F); // the high bit of each byte that isn't 0
        let begins = filled & !(filled << 8); // and of those that have a 0 or nothing before them
        astray |= (begins ^ 0x80) as u64 | (begins >> 64) as u64;

        let mixed = name as u64 ^ ((name >> 64) as u64).rotate_left(29);
        let hash = mixed.wrapping_mul(0x9E37_79B9_7F4A_7C15) >> 53;
        let word = &mut met[hash as usize >> 6];
        let bit = 1 << (hash & 63);
        let clash = *word & bit != 0;
        *word |= bit;
        if clash && carriers[..i].iter().any(|earlier| earlier.word() == name) {
            return false;
        }
    }
    astray & HIGH == 0
}
