//! The state, as bytes.

pub const MAX_PORTS: usize = 4;
pub const MAX_PLACES: usize = 16;
pub const MAX_EXPECTED: usize = 16;
pub const MAX_CARRIERS: usize = MAX_PORTS + MAX_PLACES + MAX_EXPECTED;
/// Ten with document 02's requests. Document 01's own tool never has more than seven.
pub const MAX_REPORTS: usize = 10;
pub const NAME_LEN: usize = 16;
pub const MAP_LEN: usize = 25;

/// Values of [`Port::transfer`].
pub mod transfer {
    pub const OUT_OF_SERVICE: u8 = 0;
    pub const READY_TO_LOAD: u8 = 1;
    pub const READY_TO_UNLOAD: u8 = 2;
    pub const BLOCKED: u8 = 3;
}

/// Values of [`Port::movement`].
pub mod movement {
    pub const NONE: u8 = 0;
    pub const LOADING: u8 = 1;
    pub const UNLOADING: u8 = 2;
}

/// Values of [`Port::tag`].
pub mod tag {
    pub const UNREAD: u8 = 0;
    pub const READ: u8 = 1;
    pub const FAILED: u8 = 2;
}

/// Values of [`Carrier::place`].
pub mod place {
    pub const EXPECTED: u8 = 0;
    pub const PORT: u8 = 1;
    pub const BUFFER: u8 = 2;
}

/// Values of [`Carrier::id`] and [`Carrier::slot`].
pub mod status {
    pub const NOT_READ: u8 = 1;
    pub const WAITING: u8 = 2;
    pub const OK: u8 = 3;
    pub const FAILED: u8 = 4;
}

/// Values of [`Carrier::accessing`].
pub mod accessing {
    pub const NOT_ACCESSED: u8 = 1;
    pub const IN_ACCESS: u8 = 2;
    pub const COMPLETE: u8 = 3;
    pub const STOPPED: u8 = 4;
}

#[derive(Clone, Copy, PartialEq, Eq, Debug)]
#[repr(C)]
pub struct Tool {
    pub ports: u8,
    pub places: u8,
    pub count: u8,
    pub port: [Port; MAX_PORTS],
    pub carrier: [Carrier; MAX_CARRIERS],
}

#[derive(Clone, Copy, PartialEq, Eq, Debug)]
#[repr(C)]
pub struct Port {
    pub transfer: u8,
    pub access: u8,
    pub reserved: u8,
    pub tie: [u8; NAME_LEN],
    pub movement: u8,
    pub pod: u8,
    pub tag: u8,
}

#[derive(Clone, Copy, PartialEq, Eq, Debug)]
#[repr(C)]
pub struct Carrier {
    pub name: [u8; NAME_LEN],
    pub place: u8,
    pub spot: u8,
    pub port: u8,
    pub open: u8,
    pub cancelled: u8,
    pub came_out: u8,
    pub map: [u8; MAP_LEN],
    pub id: u8,
    pub slot: u8,
    pub accessing: u8,
}

#[derive(Clone, Copy, PartialEq, Eq, Debug)]
#[repr(C)]
pub struct Report {
    pub model: u8,
    pub port: u8,
    pub name: [u8; NAME_LEN],
    pub old: u8,
    pub new: u8,
}

#[derive(Clone, Copy, PartialEq, Eq, Debug)]
#[repr(C)]
pub struct Reports {
    pub count: u8,
    pub items: [Report; MAX_REPORTS],
}

/// A struct made of nothing but `u8` fields, laid out in order.
///
/// # Safety
/// Only for `repr(C)` types whose every field is a `u8`, an array of `u8`, or another such type:
/// then there is no padding, and any bytes are a value.
pub unsafe trait Plain: Copy {
    fn bytes(&self) -> &[u8] {
        Self::bytes_of(core::slice::from_ref(self))
    }

    fn bytes_mut(&mut self) -> &mut [u8] {
        // SAFETY: as below; and whatever is written to the bytes, they are a value.
        unsafe { core::slice::from_raw_parts_mut((&raw mut *self).cast(), core::mem::size_of::<Self>()) }
    }

    fn bytes_of(items: &[Self]) -> &[u8] {
        // SAFETY: by the trait's promise every byte of `items` is initialised, and u8 has no
        // alignment; the length is that of the slice itself.
        unsafe { core::slice::from_raw_parts(items.as_ptr().cast(), core::mem::size_of_val(items)) }
    }

    fn from_bytes(bytes: &[u8]) -> Option<Self> {
        if bytes.len() != core::mem::size_of::<Self>() {
            return None;
        }
        // SAFETY: the length is right, u8 has no alignment, and any bytes are a value.
        Some(unsafe { bytes.as_ptr().cast::<Self>().read_unaligned() })
    }
}

unsafe impl Plain for Tool {}
unsafe impl Plain for Port {}
unsafe impl Plain for Carrier {}
unsafe impl Plain for Report {}
unsafe impl Plain for Reports {}

const _: () = {
    use core::mem::{align_of, size_of};
    assert!(size_of::<Port>() == 22 && size_of::<Carrier>() == 50);
    assert!(size_of::<Tool>() == 3 + 4 * 22 + 36 * 50 && align_of::<Tool>() == 1);
    assert!(size_of::<Report>() == 20 && size_of::<Reports>() == 1 + 10 * 20);
};

/// A name as one word: the first byte lowest, zero padded. 0 is no name.
pub(crate) type Word = u128;

impl Port {
    pub const UNUSED: Port = Port {
        transfer: 0,
        access: 0,
        reserved: 0,
        tie: [0; NAME_LEN],
        movement: movement::NONE,
        pod: 0,
        tag: tag::UNREAD,
    };

    pub const AT_SETUP: Port = Port { transfer: transfer::READY_TO_LOAD, ..Port::UNUSED };

    #[inline]
    pub(crate) fn tie(&self) -> Word {
        Word::from_le_bytes(self.tie)
    }

    #[inline]
    pub fn tied(&self) -> bool {
        self.tie() != 0
    }

    #[inline]
    pub fn idle(&self) -> bool {
        self.movement == movement::NONE
    }
}

impl Carrier {
    pub const UNUSED: Carrier = Carrier {
        name: [0; NAME_LEN],
        place: place::EXPECTED,
        spot: 0,
        port: 0,
        open: 0,
        cancelled: 0,
        came_out: 0,
        map: [0; MAP_LEN],
        id: 0,
        slot: 0,
        accessing: 0,
    };

    #[inline]
    pub fn new(name: [u8; NAME_LEN]) -> Carrier {
        Carrier {
            name,
            id: status::NOT_READ,
            slot: status::NOT_READ,
            accessing: accessing::NOT_ACCESSED,
            ..Carrier::UNUSED
        }
    }

    #[inline]
    pub(crate) fn word(&self) -> Word {
        Word::from_le_bytes(self.name)
    }

    #[inline]
    pub fn expected(&self) -> bool {
        self.place == place::EXPECTED
    }

    #[inline]
    pub fn placed(&self) -> bool {
        !self.expected()
    }

    #[inline]
    pub fn at_port(&self) -> bool {
        self.place == place::PORT
    }

    #[inline]
    pub fn in_buffer(&self) -> bool {
        self.place == place::BUFFER
    }
}

impl Report {
    pub const UNUSED: Report = Report { model: 0, port: 0, name: [0; NAME_LEN], old: 0, new: 0 };
}

impl Reports {
    pub const NONE: Reports = Reports { count: 0, items: [Report::UNUSED; MAX_REPORTS] };

    pub fn as_slice(&self) -> &[Report] {
        &self.items[..self.count as usize]
    }
}

impl Tool {
    pub const NONE: Tool = Tool {
        ports: 0,
        places: 0,
        count: 0,
        port: [Port::UNUSED; MAX_PORTS],
        carrier: [Carrier::UNUSED; MAX_CARRIERS],
    };

    /// The ports in use.
    pub fn ports(&self) -> &[Port] {
        &self.port[..self.ports as usize]
    }

    /// The live records, in the order they were made.
    #[inline]
    pub fn carriers(&self) -> &[Carrier] {
        &self.carrier[..self.count as usize]
    }
}

/// Makes the tool of `p` ports and `b` buffer places. Answers 0, or 1 with a tool of all zeros.
pub fn setup(p: u32, b: u32, t: &mut Tool) -> u32 {
    *t = Tool::NONE;
    if !(1..=MAX_PORTS as u32).contains(&p) || b > MAX_PLACES as u32 {
        return 1;
    }
    t.ports = p as u8;
    t.places = b as u8;
    t.port[..p as usize].fill(Port::AT_SETUP);
    0
}
