//! The clauses on hands on an AUTO port. Each says where it doesn't hold.
use crate::numbers::{movement, transfer};
use hawsermole::{words, Hands, Port, Tool};

/// Each port with its alarm and its held pod.
fn each(tool: &Tool) -> impl Iterator<Item = (Port, Hands)> + '_ {
    tool.ports().zip(tool.hands())
}

pub fn held_otherwise(tool: &Tool) -> Option<String> {
    let otherwise = |(port, hands): &(Port, Hands)| {
        hands.held != 0 && (hands.alarm == 0 || port.movement != movement::LOADING)
    };
    let (port, hands) = each(tool).find(otherwise)?;
    let (transfer, movement) = (words::transfer(port.transfer), words::movement(port.movement));
    let alarm = words::alarm(hands.alarm);
    Some(format!("port {} is {transfer}, {movement}, with its alarm {alarm} and a pod held", port.number))
}

pub fn on_when_ready(tool: &Tool) -> Option<String> {
    let on = |(port, hands): &(Port, Hands)| hands.alarm != 0 && port.transfer == transfer::READY_TO_LOAD;
    each(tool).find(on).map(|(port, _)| format!("that of port {} is", port.number))
}
