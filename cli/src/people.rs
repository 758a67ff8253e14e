//! The tool for people: what `state` prints.
use crate::explain::tool_kind;
use crate::soundness;
use hawsermole::{words, Carrier, Hands, Port, Prediction, Request, Tool};

/// A line for the tool, for the clock once there is one, for each port, for each carrier and for each CarrierOut that is
/// queued, the oldest first.
pub fn state(tool: &Tool) -> String {
    if *tool == Tool::none() {
        return "there is no tool: set one up with setup P B\n".into();
    }
    let ports: String = tool.ports().zip(tool.hands()).map(|(of, hands)| port(of, hands)).collect();
    let carriers: String = tool.carriers().map(|of| carrier(tool, of)).collect();
    let carriers = if carriers.is_empty() { "no carriers\n".into() } else { carriers };
    let requests: String = tool.requests().map(|of| format!("CarrierOut of {}\n", request(&of))).collect();
    let fault = soundness::fault(tool).map_or(String::new(), |fault| format!("not sound, {fault}\n"));
    let clock = if tool.clock() == 0 { String::new() } else { format!("clock {}\n", tool.clock()) };
    format!("{}\n", tool_kind(tool)) + &fault + &clock + &ports + &carriers + &requests
}

/// An alarm is told where it is on, and so is a pod that is held.
fn port(port: Port, hands: Hands) -> String {
    let tie = match port.tie.is_none() {
        true => words::tie(0).into(),
        false => format!("{} with {}", words::tie(1), port.tie),
    };
    let pod = match port.pod {
        0 => "no pod".into(),
        _ => format!("pod present, tag {}", words::tag(port.tag)),
    };
    let parts = [
        words::transfer(port.transfer).into(),
        words::access(port.access).into(),
        words::reservation(port.reserved).into(),
        tie,
        words::movement(port.movement).into(),
        pod,
    ];
    let alarm = if hands.alarm == 0 { "" } else { ", AccessModeViolation alarm on" };
    let held = if hands.held == 0 { "" } else { ", pod held until Continue or LoadFail" };
    format!("port {}: {}{alarm}{held}\n", port.number, parts.join(", "))
}

fn carrier(tool: &Tool, carrier: Carrier) -> String {
    let mut parts = vec![
        place(&carrier),
        if carrier.open == 0 { "closed" } else { "open" }.into(),
        words::id(carrier.id).into(),
        words::slot(carrier.slot).into(),
        words::accessing(carrier.accessing).into(),
    ];
    for (flag, word) in [(carrier.cancelled, "cancelled"), (carrier.came_out, "came out")] {
        if flag != 0 {
            parts.push(word.into());
        }
    }
    if let Some(own) = tool.prediction(carrier.name.as_bytes()) {
        parts.push(foretold(&own));
    }
    if let Some(map) = tool.expected_map(carrier.name.as_bytes()) {
        parts.push(format!("expected map {}", codes(map)));
    }
    if carrier.map.iter().any(|&code| code != 0) {
        parts.push(format!("slot map {}", codes(&carrier.map)));
    }
    format!("carrier {}: {}\n", carrier.name, parts.join(", "))
}

fn codes(map: &[u8]) -> String {
    map.iter().map(|code| code.to_string()).collect()
}

/// `PREDICTED, ready at 1100, now estimated at 1150`.
fn foretold(Prediction { state, tp, te, .. }: &Prediction) -> String {
    let tp = tp.map_or(String::new(), |tp| format!(", ready at {tp}"));
    let te = te.map_or(String::new(), |te| format!(", now estimated at {te}"));
    format!("{}{tp}{te}", words::prediction(*state))
}

/// `AB is PREDICTED, ready at 1100`.
pub fn prediction(of: &Prediction) -> String {
    format!("{} is {}", of.name, foretold(of))
}

/// `AB to port 1, queued`.
pub fn request(Request { name, port, started }: &Request) -> String {
    format!("{name} to port {port}, {}", words::request(*started))
}

/// `expected at port 1`, `at port 1`, `in buffer place 2`.
pub fn place(carrier: &Carrier) -> String {
    match (carrier.place, carrier.port) {
        (0, 0) => "expected".into(),
        (0, port) => format!("expected at port {port}"),
        (1, port) => format!("at port {port}"),
        _ => format!("in buffer place {}", carrier.spot),
    }
}

#[cfg(test)]
mod tests {
    use super::*;
    use crate::print::tests::{accessed, stored, tool};
    use hawsermole::{ExpectedMap, Input};

    fn after(ports: u32, places: u32, inputs: &[Input]) -> String {
        state(&tool(ports, places, inputs))
    }

    #[test]
    fn no_tool() {
        assert_eq!(state(&Tool::none()), "there is no tool: set one up with setup P B\n");
    }

    #[test]
    fn an_empty_tool() {
        let port = "READY TO LOAD, MANUAL, NOT RESERVED, NOT ASSOCIATED, idle, no pod";
        assert_eq!(after(1, 0, &[]), format!("fixed buffer tool, 1 port\nport 1: {port}\nno carriers\n"));
    }

    #[test]
    fn a_tool_that_is_not_sound() {
        let mut bytes = *Tool::setup(1, 0).unwrap().as_bytes();
        bytes[23] = 1;
        let told = state(&Tool::from_bytes(&bytes));
        let second = "not sound, not so: a port with a movement is BLOCKED, and one that is out of service, \
                      READY TO LOAD or loading has no pod (port 1 is READY TO LOAD, idle, with a pod present)";
        assert_eq!(told.lines().nth(1), Some(second));
    }

    #[test]
    fn carriers_by_place() {
        let bound =
            after(1, 2, &[Input::Bind { port: 1, name: b"AB" }, Input::CarrierNotification { name: b"C" }]);
        assert!(bound.contains("RESERVED, ASSOCIATED with AB, idle, no pod\n"), "{bound}");
        assert!(bound.contains("carrier AB: expected at port 1, closed, ID NOT READ, SLOT MAP NOT READ"));
        assert!(bound.contains("carrier C: expected, closed, ID NOT READ"));
    }

    #[test]
    fn expected_maps() {
        let map = ExpectedMap::new(&[1; 25]).unwrap();
        let announced = after(1, 1, &[Input::CarrierNotificationWithMap { name: b"C", map }]);
        let expected = "NOT ACCESSED, expected map 1111111111111111111111111\n";
        assert!(announced.ends_with(expected), "{announced}");
    }

    #[test]
    fn a_carrier_from_port_to_buffer_and_out() {
        let (name, codes) = (b"AB", [3; 25]);
        let mut inputs = vec![
            Input::LoadStart { port: 1, start: 0 },
            Input::LoadDone { port: 1 },
            Input::IdReadFailed { port: 1 },
        ];
        assert!(after(1, 2, &inputs).contains("idle, pod present, tag failed\n"));
        inputs.push(Input::ProceedWithCarrier { name, port: 1 });
        assert!(after(1, 2, &inputs).contains("carrier AB: at port 1, closed, ID VERIFICATION OK"));
        inputs.extend([
            Input::MoveIn { port: 1, place: 2 },
            Input::Open { name },
            Input::SlotMap { name, codes: &codes },
        ]);
        let open = "carrier AB: in buffer place 2, open, ID VERIFICATION OK, SLOT MAP WAITING FOR HOST, NOT ACCESSED, \
                    slot map 3333333333333333333333333\n";
        assert!(after(1, 2, &inputs).ends_with(open));
        inputs.extend([
            Input::CancelCarrier { name, port: 0 },
            Input::CarrierOut { name, port: 1 },
            Input::OutStart { port: 1 },
            Input::OutDone { port: 1 },
        ]);
        assert!(after(1, 2, &inputs).contains("NOT ACCESSED, cancelled, came out, slot map 3"));
    }

    #[test]
    fn predictions_and_the_clock() {
        let mut tool = accessed(60, 120);
        let told = state(&tool);
        assert!(told.starts_with("fixed buffer tool, 2 ports, setting time 60 s, timeout 120 s\nport 1:"));
        assert!(told.contains("IN ACCESS, WAITING FOR PREDICTION, slot map 3"), "{told}");
        tool.step(&Input::PredictedTime { clock: 1000, name: b"A", tp: 1050 }).unwrap();
        tool.step(&Input::Estimate { clock: 1001, name: b"A", te: 1049 }).unwrap();
        let told = state(&tool);
        assert!(told.contains(" s\nclock 1001\nport 1:"), "{told}");
        assert!(told.contains("PREDICTED, ready at 1050, now estimated at 1049, slot map"), "{told}");
    }

    #[test]
    fn alarms_and_held_pods() {
        let auto = Input::ChangeAccess { port: 1, access: 1 };
        let mut inputs = vec![auto, Input::LoadStart { port: 1, start: 0 }];
        let loading = "port 1: TRANSFER BLOCKED, AUTO, NOT RESERVED, NOT ASSOCIATED, loading, no pod, \
                       AccessModeViolation alarm on";
        assert!(after(1, 0, &inputs).contains(&format!("{loading}\n")));
        inputs.push(Input::LoadDone { port: 1 });
        assert!(after(1, 0, &inputs).contains(&format!("{loading}, pod held until Continue or LoadFail\n")));
    }

    #[test]
    fn requests_stand_last() {
        let mut tool = stored(2, &[b"A", b"B"]);
        for input in [
            Input::CarrierOut { name: b"B", port: 1 },
            Input::CarrierOut { name: b"A", port: 2 },
            Input::OutStart { port: 2 },
        ] {
            tool.step(&input).unwrap();
        }
        let queue = "\nCarrierOut of B to port 1, queued\nCarrierOut of A to port 2, started\n";
        assert!(state(&tool).ends_with(queue), "{}", state(&tool));
    }
}
