//! How things stand for an input whose parts are in their range: what its row asks of port, carrier and tool. Each
//! question gives a ground where the answer is no.
use crate::causes::Cause;
use crate::grounds::{ground, Ground};
use crate::numbers::{accessing, movement, place, status, tag, transfer, MOST_EXPECTED};
use crate::people;
use hawsermole::{words, Carrier, Name, Parts, Port, Tool};

mod hands;
mod predictions;
mod queue;

/// The questions of a row, in its order.
pub type Grounds = Vec<Option<Ground>>;

pub struct Standing<'a> {
    tool: &'a Tool,
    parts: &'a Parts<'a>,
    /// The port that is given.
    here: Option<Port>,
    /// The name that is given, without the blanks at its end.
    name: Option<Name>,
    /// Its record.
    record: Option<Carrier>,
}

impl<'a> Standing<'a> {
    pub fn new(tool: &'a Tool, parts: &'a Parts<'a>) -> Standing<'a> {
        let name = Name::in_text(parts.name).ok();
        let here = tool.ports().find(|port| u32::from(port.number) == parts.port);
        let record = name.and_then(|name| tool.carriers().find(|carrier| carrier.name == name));
        Standing { tool, parts, here, name, record }
    }

    pub fn number(&self) -> u32 {
        self.parts.number
    }

    /// The port of a row that takes one.
    fn port(&self) -> Port {
        self.here.expect("the port is in its range")
    }

    /// The port that a carrier is tied to.
    fn home(&self, carrier: &Carrier) -> Option<Port> {
        self.tool.ports().find(|port| port.number == carrier.port)
    }

    /// The carrier that the given port is tied to.
    fn tied_here(&self) -> Option<Carrier> {
        let port = self.here?.number;
        self.tool.carriers().find(|carrier| carrier.port == port)
    }

    fn text(&self) -> String {
        self.name.map_or_else(String::new, |name| name.to_string())
    }
}

/// `port 1 is TRANSFER BLOCKED, loading`
fn told(port: &Port) -> String {
    format!("port {} is {}, {}", port.number, words::transfer(port.transfer), words::movement(port.movement))
}

/// `AB is at port 1`
fn stands(carrier: &Carrier) -> String {
    format!("{} is {}", carrier.name, people::place(carrier))
}

fn statuses(carrier: &Carrier) -> String {
    format!("{}: {}, {}", carrier.name, words::id(carrier.id), words::slot(carrier.slot))
}

fn access(carrier: &Carrier) -> String {
    format!("{} is {}", carrier.name, words::accessing(carrier.accessing))
}

/// Of the given port.
impl Standing<'_> {
    /// Of a port that is kept for a carrier it is told so.
    pub fn reserved(&self) -> Option<Ground> {
        let reserved = || {
            let port = self.port();
            ground(port.reserved != 0, Cause::Reserved, format!("port {}", port.number))
        };
        self.kept_for_out().or_else(reserved)
    }

    pub fn is_reserved(&self) -> Option<Ground> {
        ground(self.port().reserved == 0, Cause::NotReserved, format!("port {}", self.port().number))
    }

    pub fn tied(&self) -> Option<Ground> {
        let carrier = self.tied_here()?;
        ground(true, Cause::Tied, format!("port {}, and {}", self.port().number, stands(&carrier)))
    }

    pub fn ready_to_load(&self) -> Option<Ground> {
        let port = self.port();
        match port.transfer {
            transfer::OUT_OF_SERVICE => ground(true, Cause::OutOfService, format!("port {}", port.number)),
            transfer => ground(transfer != transfer::READY_TO_LOAD, Cause::NotReadyToLoad, told(&port)),
        }
    }

    pub fn ready_to_unload(&self) -> Option<Ground> {
        let port = self.port();
        ground(port.transfer != transfer::READY_TO_UNLOAD, Cause::NotReadyToUnload, told(&port))
    }

    pub fn idle(&self) -> Option<Ground> {
        idle(&self.port())
    }

    pub fn loading(&self) -> Option<Ground> {
        ground(self.port().movement != movement::LOADING, Cause::NotLoading, told(&self.port()))
    }

    pub fn unloading(&self) -> Option<Ground> {
        ground(self.port().movement != movement::UNLOADING, Cause::NotUnloading, told(&self.port()))
    }

    /// Of a pod that is held it is told so.
    fn pod(&self) -> Option<Ground> {
        let none = || ground(self.port().pod == 0, Cause::NoPod, format!("port {}", self.port().number));
        self.held_already().or_else(none)
    }

    /// Pod present, idle, tag unread.
    pub fn readable(&self) -> [Option<Ground>; 3] {
        let port = self.port();
        let tag = format!("port {}, tag {}", port.number, words::tag(port.tag));
        [self.pod(), self.idle(), ground(port.tag != tag::UNREAD, Cause::TagTold, tag)]
    }

    /// The access mode that is held already.
    pub fn holds_access(&self) -> bool {
        u32::from(self.port().access) == self.parts.value
    }

    /// A port that is in service is taken out of it.
    pub fn goes_out(&self) -> bool {
        self.parts.value == 0 && self.port().transfer != transfer::OUT_OF_SERVICE
    }
}

/// Why the pod at a port isn't unknown: pod present, idle, tag failed, no tie.
fn no_unknown_pod(port: &Port) -> Option<String> {
    let why = match (port.pod, port.movement, port.tag) {
        (0, ..) => "has no pod".into(),
        (_, movement::LOADING | movement::UNLOADING, _) => format!("is {}", words::movement(port.movement)),
        (.., tag::FAILED) if port.tie.is_none() => return None,
        (.., tag::FAILED) => format!("is tied to {}", port.tie),
        (.., tag) => format!("has its tag {}", words::tag(tag)),
    };
    Some(format!("port {} {why}", port.number))
}

fn idle(port: &Port) -> Option<Ground> {
    ground(port.movement != movement::NONE, Cause::Moving, told(port))
}

/// Of the given name and its record.
impl Standing<'_> {
    /// 2 without a record, else what the row asks of it.
    pub fn with_record(&self, asked: impl FnOnce(&Carrier) -> Grounds) -> Grounds {
        match &self.record {
            None => [ground(true, Cause::NoRecord, self.text())].into(),
            Some(carrier) => asked(carrier),
        }
    }

    pub fn name_taken(&self) -> Option<Ground> {
        let carrier = self.record?;
        let cause = if carrier.place == place::EXPECTED { Cause::Announced } else { Cause::Arrived };
        ground(true, cause, stands(&carrier))
    }

    /// The name's record is placed anywhere, or tied to another port.
    pub fn name_elsewhere(&self) -> Option<Ground> {
        let carrier = self.record?;
        let other_port = carrier.port != self.port().number;
        match carrier.place {
            place::EXPECTED => {
                ground(carrier.port != 0 && other_port, Cause::BoundElsewhere, stands(&carrier))
            }
            _ if other_port => ground(true, Cause::ReadElsewhere, stands(&carrier)),
            _ => ground(true, Cause::ReadTwice, stands(&carrier)),
        }
    }

    pub fn full(&self) -> Option<Ground> {
        let expected = self.tool.carriers().filter(|carrier| carrier.place == place::EXPECTED).count();
        ground(expected >= MOST_EXPECTED, Cause::Full, "")
    }

    pub fn expected(&self, carrier: &Carrier) -> Option<Ground> {
        ground(carrier.place != place::EXPECTED, Cause::NotExpected, stands(carrier))
    }

    /// Of one that is expected; what has arrived is told so.
    pub fn untied(&self, carrier: &Carrier) -> Option<Ground> {
        ground(carrier.place == place::EXPECTED && carrier.port != 0, Cause::Bound, stands(carrier))
    }

    /// A port is given, and it isn't the carrier's.
    fn other_port(&self, carrier: &Carrier) -> Option<Ground> {
        let port = self.here?.number;
        ground(port != carrier.port, Cause::OtherPort, format!("port {port}, and {}", stands(carrier)))
    }

    /// What is given means one tied pair, the carrier expected and the port idle.
    pub fn cancel_bind(&self) -> Grounds {
        let pair = |carrier: &Carrier| {
            let home = self.home(carrier).and_then(|port| idle(&port));
            let unbound = carrier.place == place::EXPECTED && carrier.port == 0;
            let unbound = ground(unbound, Cause::NotBound, stands(carrier));
            let other = if carrier.port == 0 { None } else { self.other_port(carrier) };
            [self.expected(carrier), unbound, other, home].into()
        };
        match (self.name, self.tied_here()) {
            (Some(_), _) => self.with_record(pair),
            (None, Some(carrier)) => pair(&carrier),
            (None, None) => {
                [ground(true, Cause::NothingBound, format!("port {}", self.port().number))].into()
            }
        }
    }

    /// Rows 5 and 6: an unknown pod where the carrier isn't placed, else what the row asks of a placed one.
    pub fn verdict(&self, asked: impl FnOnce(&Carrier) -> Grounds) -> Grounds {
        match &self.record {
            None => self.unknown_pod(Cause::NoPortGiven, Cause::NoUnknownPod, self.text()),
            Some(carrier) if carrier.place != place::EXPECTED => {
                [self.other_port(carrier)].into_iter().chain(asked(carrier)).collect()
            }
            Some(carrier) if carrier.port != 0 => [ground(true, Cause::StillBound, stands(carrier))].into(),
            Some(carrier) => self.unknown_pod(Cause::StillExpected, Cause::NotThere, stands(carrier)),
        }
    }

    /// A port is given, and an unknown pod is there.
    fn unknown_pod(&self, no_port: Cause, no_pod: Cause, who: String) -> Grounds {
        let Some(port) = self.here else { return [ground(true, no_port, who)].into() };
        let why = no_unknown_pod(&port);
        [why.and_then(|why| ground(true, no_pod, format!("{who}, and {why}")))].into()
    }

    /// ID 2; else ID 3 and slot status 2.
    pub fn waits(&self, carrier: &Carrier) -> Grounds {
        let waits =
            carrier.id == status::WAITING || (carrier.id == status::OK && carrier.slot == status::WAITING);
        [ground(!waits, Cause::NothingWaits, statuses(carrier))].into()
    }

    pub fn home_idle(&self, carrier: &Carrier) -> Option<Ground> {
        self.home(carrier).filter(|_| carrier.place == place::PORT).and_then(|port| idle(&port))
    }
}

/// Of a carrier, in and out of the buffer.
impl Standing<'_> {
    pub fn in_buffer(&self, carrier: &Carrier) -> Option<Ground> {
        ground(carrier.place != place::BUFFER, Cause::NotInBuffer, stands(carrier))
    }

    pub fn closed(&self, carrier: &Carrier) -> Option<Ground> {
        ground(carrier.open != 0, Cause::IsOpen, carrier.name.to_string())
    }

    pub fn not_in_access(&self, carrier: &Carrier) -> Option<Ground> {
        ground(carrier.accessing == accessing::IN_ACCESS, Cause::InAccess, carrier.name.to_string())
    }

    /// At a port READY TO UNLOAD with came-out on.
    pub fn carrier_in(&self, carrier: &Carrier) -> Grounds {
        match self.home(carrier).filter(|_| carrier.place == place::PORT) {
            None => [ground(true, Cause::AtNoPort, stands(carrier))].into(),
            Some(port) => [
                ground(port.transfer != transfer::READY_TO_UNLOAD, Cause::NotWaiting, told(&port)),
                ground(carrier.came_out == 0, Cause::NotCameOut, stands(carrier)),
            ]
            .into(),
        }
    }

    /// 5 unless pod present, idle and BLOCKED; 7 unless a carrier is placed there with ID OK; 8 if the place is taken.
    pub fn move_in(&self) -> Grounds {
        let port = self.port();
        let blocked = ground(port.transfer != transfer::BLOCKED, Cause::NotBlocked, told(&port));
        [self.pod(), self.idle(), blocked, self.verified_here(), self.place_taken()].into()
    }

    fn verified_here(&self) -> Option<Ground> {
        let port = self.port();
        let number = format!("port {}", port.number);
        match self.tied_here().filter(|carrier| carrier.place == place::PORT) {
            Some(carrier) => id_ok(&carrier),
            None => match port.tag {
                tag::UNREAD => ground(true, Cause::TagUnread, number),
                tag::FAILED if port.tie.is_none() => ground(true, Cause::UnknownPod, number),
                _ => ground(true, Cause::NoCarrier, number),
            },
        }
    }

    fn place_taken(&self) -> Option<Ground> {
        let who = |place: u32| {
            self.tool
                .carriers()
                .find(|carrier| carrier.place == place::BUFFER && u32::from(carrier.spot) == place)
        };
        let place = self.parts.value;
        let carrier = who(place)?;
        let free = (1..=u32::from(self.tool.places())).filter(|&place| who(place).is_none());
        let free: Vec<String> = free.map(|place| place.to_string()).collect();
        let free = if free.is_empty() { "none".into() } else { free.join(", ") };
        ground(true, Cause::PlaceTaken, format!("{} is in place {place}; free: {free}", carrier.name))
    }
}

fn id_ok(carrier: &Carrier) -> Option<Ground> {
    let cause = match carrier.id {
        status::NOT_READ => Cause::IdNotRead,
        status::WAITING => Cause::IdWaits,
        status::OK => return None,
        _ => Cause::IdFailed,
    };
    ground(true, cause, carrier.name.to_string())
}

/// Of a carrier that is opened, mapped, accessed and closed.
impl Standing<'_> {
    /// 5 unless closed, NOT ACCESSED and in the buffer, or, when B = 0, at an idle BLOCKED port, and 5 if its
    /// CarrierOut is started; 7 if ID isn't OK, slot status is FAILED, or it is cancelled; 8 if B > 0 and another is
    /// open.
    pub fn open(&self, carrier: &Carrier) -> Grounds {
        let name = carrier.name.to_string();
        let already = ground(carrier.open != 0, Cause::OpenAlready, name.clone());
        let failed = ground(carrier.slot == status::FAILED, Cause::SlotMapFailed, name.clone());
        let cancelled = ground(carrier.cancelled != 0, Cause::Cancelled, name);
        let verified = [id_ok(carrier), failed, cancelled, self.opener_in_use(carrier)];
        let accessed =
            [already, self.not_in_access(carrier), self.not_accessed(carrier), self.not_on_its_way()];
        accessed.into_iter().chain(self.where_it_opens(carrier)).chain(verified).collect()
    }

    fn where_it_opens(&self, carrier: &Carrier) -> Grounds {
        let port = self.home(carrier).filter(|_| carrier.place == place::PORT);
        match (carrier.place, port) {
            (place::BUFFER, _) => Grounds::new(),
            (place::PORT, Some(_)) if self.tool.places() > 0 => {
                [ground(true, Cause::NotMovedIn, stands(carrier))].into()
            }
            (place::PORT, Some(port)) => {
                [idle(&port), ground(port.transfer != transfer::BLOCKED, Cause::NotBlocked, told(&port))]
                    .into()
            }
            _ => [ground(true, Cause::NotArrived, stands(carrier))].into(),
        }
    }

    fn opener_in_use(&self, carrier: &Carrier) -> Option<Ground> {
        let other = self.tool.carriers().find(|other| other.open != 0 && other.name != carrier.name);
        let other = other.filter(|_| self.tool.places() > 0)?;
        ground(true, Cause::OpenerInUse, other.name.to_string())
    }

    /// COMPLETE or STOPPED; IN ACCESS is told so.
    fn not_accessed(&self, carrier: &Carrier) -> Option<Ground> {
        let over = ![accessing::NOT_ACCESSED, accessing::IN_ACCESS].contains(&carrier.accessing);
        ground(over, Cause::Accessed, access(carrier))
    }

    pub fn is_open(&self, carrier: &Carrier) -> Option<Ground> {
        ground(carrier.open == 0, Cause::NotOpen, carrier.name.to_string())
    }

    pub fn not_closed(&self, carrier: &Carrier) -> Option<Ground> {
        ground(carrier.open == 0, Cause::ClosedAlready, carrier.name.to_string())
    }

    pub fn map_unread(&self, carrier: &Carrier) -> Option<Ground> {
        let status = format!("{}: {}", carrier.name, words::slot(carrier.slot));
        ground(carrier.slot != status::NOT_READ, Cause::MapTold, status)
    }

    /// 5 unless open and NOT ACCESSED; 7 unless slot status is OK.
    pub fn access_start(&self, carrier: &Carrier) -> Grounds {
        let cause = match carrier.slot {
            status::NOT_READ => Cause::SlotMapNotRead,
            status::WAITING => Cause::SlotMapWaits,
            _ => Cause::SlotMapFailed,
        };
        let slot_ok = ground(carrier.slot != status::OK, cause, carrier.name.to_string());
        [self.is_open(carrier), self.not_in_access(carrier), self.not_accessed(carrier), slot_ok].into()
    }

    pub fn in_access(&self, carrier: &Carrier) -> Option<Ground> {
        ground(carrier.accessing != accessing::IN_ACCESS, Cause::NotInAccess, access(carrier))
    }
}
