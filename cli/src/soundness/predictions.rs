//! The clauses on predictions. Each says where it doesn't hold.
use crate::numbers::{place, prediction, transfer};
use crate::people;
use hawsermole::{words, Carrier, Prediction, Tool};

/// Each carrier with its prediction; none in a tool with a buffer.
fn each(tool: &Tool) -> impl Iterator<Item = (Carrier, Prediction)> + '_ {
    tool.carriers().zip(tool.predictions())
}

pub fn left_too_early(tool: &Tool) -> Option<String> {
    let early = |(carrier, own): &(Carrier, Prediction)| {
        own.state != prediction::WAITING_FOR_CARRIER && carrier.place != place::PORT
    };
    let (carrier, own) = each(tool).find(early)?;
    let stands = people::place(&carrier);
    Some(format!(
        "the prediction of {} is {}, and it is {stands}",
        carrier.name,
        words::prediction(own.state)
    ))
}

pub fn not_completed(tool: &Tool) -> Option<String> {
    let ready =
        |number| tool.ports().any(|port| port.number == number && port.transfer == transfer::READY_TO_UNLOAD);
    let late = |(carrier, own): &(Carrier, Prediction)| {
        [prediction::PREDICTED, prediction::ABORTED].contains(&own.state) && ready(carrier.port)
    };
    let (carrier, own) = each(tool).find(late)?;
    let (name, port) = (carrier.name, carrier.port);
    Some(format!(
        "the prediction of {name} is {}, and port {port} is READY TO UNLOAD",
        words::prediction(own.state)
    ))
}
