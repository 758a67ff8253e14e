//! What an accepted input did to the queue for CarrierOut, which no report shows.
use crate::numbers::{request, row};
use hawsermole::{Name, Parts, Request, Tool};

/// A line for each request that came, started, ended or was dropped, and for one that runs on though it was cancelled.
pub fn changes(before: &Tool, after: &Tool, parts: &Parts) -> Vec<String> {
    let gone = before.requests().filter(|request| find(after, request).is_none());
    let gone = gone.map(|request| went(&request, parts.number));
    let came = after.requests().filter_map(|request| came(before, after, &request));
    let lines: Vec<String> = gone.chain(came).collect();
    match (lines.is_empty(), parts.number) {
        (true, row::CANCEL_CARRIER) => runs_on(after, parts.name).into_iter().collect(),
        (true, row::CANCEL_ALL_CARRIER_OUT) => vec!["no CarrierOut was queued that isn't started".into()],
        _ => lines,
    }
}

fn find(tool: &Tool, request: &Request) -> Option<Request> {
    tool.requests().find(|other| other.name == request.name)
}

fn went(Request { name, port, .. }: &Request, number: u32) -> String {
    match number {
        row::OUT_DONE => format!("carrier {name} came out to port {port}, its CarrierOut is done"),
        _ => format!("the CarrierOut of {name} to port {port} is dropped"),
    }
}

/// A request that wasn't queued before, or wasn't started.
fn came(before: &Tool, after: &Tool, new: &Request) -> Option<String> {
    let Request { name, port, started } = new;
    match find(before, new) {
        None => {
            let earlier = after.requests().take_while(|other| other.name != *name);
            let ahead: Vec<String> =
                earlier.filter(|other| other.port == *port).map(|other| other.name.to_string()).collect();
            let ahead = if ahead.is_empty() { "nothing".into() } else { ahead.join(", ") };
            Some(format!("carrier {name} is queued for port {port}; ahead of it there: {ahead}"))
        }
        Some(old) if old.started != *started => {
            Some(format!("the CarrierOut of {name} is started: port {port} is kept for it until OutDone"))
        }
        Some(_) => None,
    }
}

/// Of a carrier that is cancelled.
fn runs_on(after: &Tool, text: &[u8]) -> Option<String> {
    let name = Name::in_text(text).ok()?;
    let request = after.requests().find(|request| request.name == name)?;
    let started = request.started == request::STARTED;
    started.then(|| format!("its CarrierOut to port {} is started, and runs on to OutDone", request.port))
}

#[cfg(test)]
mod tests {
    use super::*;
    use crate::print::tests::stored;
    use hawsermole::Input;

    fn told(tool: &mut Tool, input: Input) -> Vec<String> {
        let before = tool.clone();
        tool.step(&input).unwrap();
        changes(&before, tool, &input.parts())
    }

    const OUT_A: Input = Input::CarrierOut { name: b"A", port: 1 };
    const OUT_B: Input = Input::CarrierOut { name: b"B", port: 1 };
    const OUT_C: Input = Input::CarrierOut { name: b"C", port: 2 };

    #[test]
    fn requests_that_come_and_go() {
        let mut tool = stored(2, &[b"A", b"B", b"C"]);
        assert_eq!(told(&mut tool, OUT_A), ["carrier A is queued for port 1; ahead of it there: nothing"]);
        assert_eq!(told(&mut tool, OUT_C), ["carrier C is queued for port 2; ahead of it there: nothing"]);
        assert_eq!(told(&mut tool, OUT_B), ["carrier B is queued for port 1; ahead of it there: A"]);
        let started = ["the CarrierOut of A is started: port 1 is kept for it until OutDone"];
        assert_eq!(told(&mut tool, Input::OutStart { port: 1 }), started);
        let done = ["carrier A came out to port 1, its CarrierOut is done"];
        assert_eq!(told(&mut tool, Input::OutDone { port: 1 }), done);
        assert!(told(&mut tool, Input::UnloadStart { port: 1, start: 0 }).is_empty());
    }

    #[test]
    fn requests_that_are_dropped_or_run_on() {
        let mut tool = stored(2, &[b"A", b"B", b"C"]);
        for input in [OUT_A, OUT_B, OUT_C, Input::OutStart { port: 1 }] {
            tool.step(&input).unwrap();
        }
        let dropped = |name, port| format!("the CarrierOut of {name} to port {port} is dropped");
        let cancelled = Input::CancelCarrier { name: b"B ", port: 0 };
        assert_eq!(told(&mut tool.clone(), cancelled), [dropped("B", 1)]);
        assert_eq!(told(&mut tool.clone(), Input::CancelCarrierOut { name: b"C" }), [dropped("C", 2)]);
        assert_eq!(told(&mut tool, Input::CancelAllCarrierOut), [dropped("B", 1), dropped("C", 2)]);
        let none = ["no CarrierOut was queued that isn't started"];
        assert_eq!(told(&mut tool, Input::CancelAllCarrierOut), none);
        let runs_on = ["its CarrierOut to port 1 is started, and runs on to OutDone"];
        assert_eq!(told(&mut tool, Input::CancelCarrier { name: b"A ", port: 0 }), runs_on);
        assert!(told(&mut tool, Input::CancelCarrier { name: b"C", port: 0 }).is_empty());
    }
}
