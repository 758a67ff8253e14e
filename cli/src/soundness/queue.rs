//! The clauses on the queue for CarrierOut. Each says where it doesn't hold.
use crate::numbers::{accessing, place, request, transfer};
use crate::people;
use hawsermole::{words, Carrier, Port, Request, Tool};

fn carrier_of(tool: &Tool, request: &Request) -> Option<Carrier> {
    tool.carriers().find(|carrier| carrier.name == request.name)
}

fn started(tool: &Tool) -> impl Iterator<Item = Request> + '_ {
    tool.requests().filter(|request| request.started == request::STARTED)
}

pub fn not_stored(tool: &Tool) -> Option<String> {
    let stands = |request: &Request| match carrier_of(tool, request) {
        None if request.name.is_none() => Some("- has no record".into()),
        None => Some(format!("{} has no record", request.name)),
        Some(carrier) if carrier.place == place::BUFFER => None,
        Some(carrier) => Some(format!("{} is {}", carrier.name, people::place(&carrier))),
    };
    let (number, stands) = (1..).zip(tool.requests()).find_map(|(n, of)| Some((n, stands(&of)?)))?;
    let number: u32 = number;
    Some(format!("request {number}: {stands}"))
}

pub fn twice(tool: &Tool) -> Option<String> {
    let requests: Vec<Request> = tool.requests().collect();
    let later = |one: usize| (one + 1..requests.len()).find(|&two| requests[one].name == requests[two].name);
    let (one, two) = (0..requests.len()).find_map(|one| later(one).map(|two| (one, two)))?;
    Some(format!("requests {} and {} are both of {}", one + 1, two + 1, requests[one].name))
}

pub fn not_shut(tool: &Tool) -> Option<String> {
    let odd = |carrier: Carrier| match (carrier.open, carrier.accessing) {
        (0, accessing::IN_ACCESS) => Some(format!("{} is IN ACCESS", carrier.name)),
        (0, _) => None,
        _ => Some(format!("{} is open", carrier.name)),
    };
    started(tool).find_map(|request| carrier_of(tool, &request).and_then(odd))
}

pub fn not_alone(tool: &Tool) -> Option<String> {
    let other = |one: &Request| started(tool).find(|two| two.port == one.port && two.name != one.name);
    let (one, two) = started(tool).find_map(|one| other(&one).map(|two| (one, two)))?;
    Some(format!("{} and {} are both started to port {}", one.name, two.name, one.port))
}

pub fn not_kept(tool: &Tool) -> Option<String> {
    let kept = |q: &Port| q.tie.is_none() && q.reserved != 0 && q.transfer == transfer::READY_TO_LOAD;
    let port = |request: &Request| tool.ports().find(|port| port.number == request.port);
    let odd = |request: Request| port(&request).filter(|port| !kept(port)).map(|port| (request.name, port));
    let (name, port) = started(tool).find_map(odd)?;
    let (transfer, reserved) = (words::transfer(port.transfer), words::reservation(port.reserved));
    let tie = words::tie(u8::from(!port.tie.is_none()));
    Some(format!("port {} of {name} is {transfer}, {reserved}, {tie}", port.number))
}
