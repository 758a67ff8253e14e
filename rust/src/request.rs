//! The queue for CarrierOut, as the tool holds it.
use crate::name::{Name, NAME_BYTES};
use crate::prediction::TIMES_START;
use crate::tool::{name_at, Tool};

/// The most requests of CarrierOut that are queued at once, for all ports together.
pub const REQUESTS: usize = 16;

const REQUEST_BYTES: usize = NAME_BYTES + 2;
pub(crate) const QUEUE_BYTES: usize = 1 + REQUESTS * REQUEST_BYTES;
pub(crate) const QUEUE_START: usize = TIMES_START - QUEUE_BYTES;

/// A request of CarrierOut: a carrier in the buffer is to come to a port.
#[derive(Clone, Copy, Debug, PartialEq, Eq, Hash)]
pub struct Request {
    /// The carrier.
    pub name: Name,
    /// The port that it goes to.
    pub port: u8,
    /// 0 queued, 1 started: [`RequestState`](crate::states::RequestState).
    pub started: u8,
}

impl Tool {
    /// The requests of CarrierOut that are queued, the oldest first. One that is started keeps its place among them
    /// until OutDone.
    ///
    /// ```
    /// use hawsermole::{Input, Refusal, Tool};
    ///
    /// let mut tool = Tool::setup(2, 2)?;
    /// for (place, name) in [(1, b"A"), (2, b"B")] {
    ///     tool.step(&Input::LoadStart { port: 1, start: 0 })?;
    ///     tool.step(&Input::LoadDone { port: 1 })?;
    ///     tool.step(&Input::IdRead { port: 1, name })?;
    ///     tool.step(&Input::ProceedWithCarrier { name, port: 0 })?;
    ///     tool.step(&Input::MoveIn { port: 1, place })?;
    /// }
    ///
    /// // Port 1 is busy; both requests are for it, and wait.
    /// tool.step(&Input::LoadStart { port: 1, start: 0 })?;
    /// tool.step(&Input::CarrierOut { name: b"B", port: 1 })?;
    /// tool.step(&Input::CarrierOut { name: b"A", port: 1 })?;
    /// assert_eq!(tool.step(&Input::OutStart { port: 1 }), Err(Refusal::Conditions));
    ///
    /// // The port is free: the older one is started, and the port kept for it.
    /// tool.step(&Input::LoadFail { port: 1 })?;
    /// assert_eq!(tool.step(&Input::OutStart { port: 1 })?.to_string(), "3 1 0>1");
    /// let queue: Vec<_> = tool.requests().map(|r| (r.name.to_string(), r.port, r.started)).collect();
    /// assert_eq!(queue, [("B".to_string(), 1, 1), ("A".to_string(), 1, 0)]);
    /// assert_eq!(tool.step(&Input::LoadStart { port: 1, start: 0 }), Err(Refusal::ReservedOrTied));
    ///
    /// // It stands on the port.
    /// assert_eq!(tool.step(&Input::OutDone { port: 1 })?.to_string(), "1 1 1>2; 3 1 1>0; 4 1 0>1");
    /// assert_eq!(tool.requests().len(), 1);
    /// # Ok::<(), Refusal>(())
    /// ```
    pub fn requests(&self) -> impl ExactSizeIterator<Item = Request> + '_ {
        let queue = &self.as_bytes()[QUEUE_START..];
        let count = usize::from(queue[0]).min(REQUESTS);
        (0..count).map(move |place| {
            let request = &queue[1 + place * REQUEST_BYTES..][..REQUEST_BYTES];
            Request { name: name_at(request, 0), port: request[NAME_BYTES], started: request[NAME_BYTES + 1] }
        })
    }
}

#[cfg(test)]
mod tests {
    use super::*;
    use crate::raw::TOOL_BYTES;
    use std::vec::Vec;

    /// Each byte is its own place, as far as a byte reaches, so that a field read from a wrong place shows.
    #[test]
    fn requests_are_read_where_they_stand() {
        let mut bytes = [0; TOOL_BYTES];
        for (place, byte) in bytes.iter_mut().enumerate() {
            *byte = (place % 251) as u8 + 1;
        }
        bytes[2791] = 16;
        let tool = Tool::from_bytes(&bytes);
        let requests: Vec<Request> = tool.requests().collect();
        assert_eq!(requests.len(), 16);
        for (place, request) in requests.into_iter().enumerate() {
            let start = 2792 + 18 * place;
            assert_eq!(request.name.as_bytes(), &bytes[start..start + 16]);
            assert_eq!([request.port, request.started], bytes[start + 16..start + 18]);
        }
    }

    /// A tool of any bytes can be looked at, however many requests it claims.
    #[test]
    fn counts_past_the_table_are_not_followed() {
        assert_eq!(Tool::from_bytes(&[255; TOOL_BYTES]).requests().len(), REQUESTS);
        assert_eq!(Tool::none().requests().len(), 0);
    }
}
