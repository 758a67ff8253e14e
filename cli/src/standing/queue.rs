//! How the queue for CarrierOut stands for an input.
use super::{stands, Grounds, Standing};
use crate::causes::Cause;
use crate::grounds::{ground, Ground};
use crate::numbers::{accessing, request};
use crate::people;
use hawsermole::{Carrier, Request, REQUESTS};

impl Standing<'_> {
    /// The request of the given name.
    fn request(&self) -> Option<Request> {
        let name = self.name?;
        self.tool.requests().find(|request| request.name == name)
    }

    /// The requests for the given port.
    fn for_port(&self) -> impl Iterator<Item = Request> + '_ {
        let port = self.port().number;
        self.tool.requests().filter(move |request| request.port == port)
    }

    /// The request that is started to the given port.
    fn started_here(&self) -> Option<Request> {
        self.for_port().find(|request| request.started == request::STARTED)
    }

    /// No request is started to the given port.
    pub fn kept_for_out(&self) -> Option<Ground> {
        let Request { name, port, .. } = self.started_here()?;
        let detail = format!("port {port} is kept for carrier {name}, whose CarrierOut was started");
        ground(true, Cause::KeptForOut, detail)
    }

    /// 5 unless the carrier is in the buffer; 9 if the queue is full; 10 if it is queued already.
    pub fn carrier_out(&self, carrier: &Carrier) -> Grounds {
        let full = self.tool.requests().len() >= REQUESTS;
        let own = self.request().map_or_else(String::new, |request| people::request(&request));
        let already = ground(!own.is_empty(), Cause::QueuedAlready, own.clone());
        [self.in_buffer(carrier), ground(full, Cause::QueueFull, own), already].into()
    }

    /// The carrier's request isn't started.
    pub fn not_on_its_way(&self) -> Option<Ground> {
        let request = self.request().filter(|request| request.started == request::STARTED)?;
        ground(true, Cause::OnItsWay, people::request(&request))
    }

    /// A request for the given port whose carrier is closed and not IN ACCESS: where there is none, what each of the
    /// carriers lacks.
    pub fn to_take(&self) -> Grounds {
        let carriers = || self.for_port().filter_map(|request| self.carrier(&request));
        let ready = |c: &Carrier| c.open == 0 && c.accessing != accessing::IN_ACCESS;
        match (carriers().next(), carriers().any(|carrier| ready(&carrier))) {
            (None, _) => [ground(true, Cause::NoneQueued, format!("port {}", self.port().number))].into(),
            (_, true) => Grounds::new(),
            _ => {
                carriers().flat_map(|carrier| [self.closed(&carrier), self.not_in_access(&carrier)]).collect()
            }
        }
    }

    fn carrier(&self, request: &Request) -> Option<Carrier> {
        self.tool.carriers().find(|carrier| carrier.name == request.name)
    }

    /// A request is started to the given port.
    pub fn is_started(&self) -> Option<Ground> {
        let port = self.port().number;
        let queued: Vec<String> = self.for_port().map(|request| request.name.to_string()).collect();
        let queued = if queued.is_empty() { "nothing".into() } else { queued.join(", ") };
        let none = self.started_here().is_none();
        ground(none, Cause::NoneStarted, format!("port {port}; queued for it: {queued}"))
    }

    /// The carrier's request is queued, and not started.
    pub fn cancel_carrier_out(&self) -> Grounds {
        let stands = || self.record.map_or_else(|| format!("{} has no record", self.text()), |c| stands(&c));
        let absent = self.request().is_none();
        [
            ground(absent, Cause::NotQueued, if absent { stands() } else { String::new() }),
            self.not_on_its_way(),
        ]
        .into()
    }
}
