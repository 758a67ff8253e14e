//! Why a tool isn't sound: the first clause of document 01's list and the requests' P5, P7 and P9 that doesn't hold,
//! and where it doesn't. Whether a tool is sound is the archive's to say.
use crate::fields::{out_of_range, unused};
use crate::numbers::{movement, place, transfer, MOST_EXPECTED};
use hawsermole::{words, Carrier, Port, Tool};
use std::fmt;

mod hands;
mod predictions;
mod queue;

/// A clause of document 01's list, in its order, and then of requests P5's, P7's and P9's.
#[derive(Clone, Copy, Debug, PartialEq, Eq)]
pub enum Clause {
    InRange,
    UnusedZero,
    NamesDiffer,
    TiesAlike,
    PlacesTied,
    PlacesApart,
    FewExpected,
    PortsAgree,
    OpenAgrees,
    QueuedStored,
    QueuedOnce,
    StartedShut,
    StartedAlone,
    PortKept,
    PredictedAtPort,
    ReadyCompleted,
    HeldLoading,
    AlarmCleared,
}

impl Clause {
    /// In the documents' words.
    pub const fn text(self) -> &'static str {
        match self {
            Clause::InRange => "every field is in its range",
            Clause::UnusedZero => "unused bytes and records are zero",
            Clause::NamesDiffer => "names differ",
            Clause::TiesAlike => "ties read alike from either side",
            Clause::PlacesTied => "a carrier placed at a port is tied to it and one in the buffer to none",
            Clause::PlacesApart => "no two share a buffer place",
            Clause::FewExpected => "at most 16 are expected",
            Clause::PortsAgree => {
                "a port with a movement is BLOCKED, \
                 and one that is out of service, READY TO LOAD or loading has no pod"
            }
            Clause::OpenAgrees => "an open carrier is in the buffer or at an idle BLOCKED port",
            Clause::QueuedStored => "a carrier whose CarrierOut is queued is in the buffer",
            Clause::QueuedOnce => "no carrier's CarrierOut is queued twice",
            Clause::StartedShut => "a carrier whose CarrierOut is started is closed and not in access",
            Clause::StartedAlone => "a CarrierOut that is started is alone for its port",
            Clause::PortKept => {
                "the port of a CarrierOut that is started is untied, reserved and READY TO LOAD"
            }
            Clause::PredictedAtPort => "only a carrier at a port has left WAITING FOR CARRIER",
            Clause::ReadyCompleted => "none is PREDICTED or ABORTED with its port READY TO UNLOAD",
            Clause::HeldLoading => "a held port is loading with its alarm on",
            Clause::AlarmCleared => "no alarm is on at READY TO LOAD",
        }
    }
}

/// A clause that doesn't hold, and where it doesn't.
#[derive(Debug, PartialEq, Eq)]
pub struct Fault {
    pub clause: Clause,
    at: String,
}

/// `not so: names differ (records 1 and 2 are both AB)`
impl fmt::Display for Fault {
    fn fmt(&self, f: &mut fmt::Formatter<'_>) -> fmt::Result {
        write!(f, "not so: {} ({})", self.clause.text(), self.at)
    }
}

/// Says where a clause doesn't hold.
type Test = fn(&Tool) -> Option<String>;

/// Each looks at what the ones before it have let through.
const CLAUSES: [(Clause, Test); 18] = [
    (Clause::InRange, out_of_range),
    (Clause::UnusedZero, unused),
    (Clause::NamesDiffer, same_names),
    (Clause::TiesAlike, ties_apart),
    (Clause::PlacesTied, places_untied),
    (Clause::PlacesApart, places_shared),
    (Clause::FewExpected, many_expected),
    (Clause::PortsAgree, ports_at_odds),
    (Clause::OpenAgrees, open_elsewhere),
    (Clause::QueuedStored, queue::not_stored),
    (Clause::QueuedOnce, queue::twice),
    (Clause::StartedShut, queue::not_shut),
    (Clause::StartedAlone, queue::not_alone),
    (Clause::PortKept, queue::not_kept),
    (Clause::PredictedAtPort, predictions::left_too_early),
    (Clause::ReadyCompleted, predictions::not_completed),
    (Clause::HeldLoading, hands::held_otherwise),
    (Clause::AlarmCleared, hands::on_when_ready),
];

/// The first clause that doesn't hold; none of a sound tool.
pub fn fault(tool: &Tool) -> Option<Fault> {
    CLAUSES.iter().find_map(|&(clause, test)| test(tool).map(|at| Fault { clause, at }))
}

/// The first two records of which something holds.
fn first_two(tool: &Tool, holds: fn(&Carrier, &Carrier) -> bool) -> Option<(usize, usize, Carrier)> {
    let carriers: Vec<Carrier> = tool.carriers().collect();
    let later = |one: usize| (one + 1..carriers.len()).find(|&two| holds(&carriers[one], &carriers[two]));
    (0..carriers.len()).find_map(|one| later(one).map(|two| (one + 1, two + 1, carriers[one])))
}

fn same_names(tool: &Tool) -> Option<String> {
    let (one, two, carrier) = first_two(tool, |one, two| one.name == two.name)?;
    Some(format!("records {one} and {two} are both {}", carrier.name))
}

/// The port that a carrier names is tied to it, and a tied port is named by a carrier.
fn ties_apart(tool: &Tool) -> Option<String> {
    let port = |number: u8| tool.ports().find(|port| port.number == number);
    let apart = |c: &Carrier| port(c.port).is_some_and(|port| port.tie != c.name);
    if let Some(carrier) = tool.carriers().find(apart) {
        return Some(format!(
            "carrier {} is tied to port {}, which isn't tied to it",
            carrier.name, carrier.port
        ));
    }
    let named = |port: &Port| tool.carriers().any(|carrier| carrier.port == port.number);
    let port = tool.ports().find(|port| !port.tie.is_none() && !named(port))?;
    Some(format!("port {} is tied to {}, which isn't tied to it", port.number, port.tie))
}

fn places_untied(tool: &Tool) -> Option<String> {
    let untied =
        |c: &Carrier| (c.place == place::PORT && c.port == 0) || (c.place == place::BUFFER && c.port != 0);
    tool.carriers().find(untied).map(|Carrier { name, place, port, .. }| match place {
        place::PORT => format!("carrier {name} is at a port and tied to none"),
        _ => format!("carrier {name} is in the buffer and tied to port {port}"),
    })
}

fn places_shared(tool: &Tool) -> Option<String> {
    let (one, two, carrier) = first_two(tool, |one, two| one.spot != 0 && one.spot == two.spot)?;
    Some(format!("records {one} and {two} are both in place {}", carrier.spot))
}

fn many_expected(tool: &Tool) -> Option<String> {
    let expected = tool.carriers().filter(|carrier| carrier.place == place::EXPECTED).count();
    (expected > MOST_EXPECTED).then(|| format!("{expected} are"))
}

fn ports_at_odds(tool: &Tool) -> Option<String> {
    let moving = |port: &Port| port.movement != movement::NONE && port.transfer != transfer::BLOCKED;
    let empty = |port: &Port| port.transfer <= transfer::READY_TO_LOAD || port.movement == movement::LOADING;
    let port = tool.ports().find(|port| moving(port) || (empty(port) && port.pod != 0))?;
    let pod = if port.pod == 0 { "no pod" } else { "a pod present" };
    let (transfer, movement) = (words::transfer(port.transfer), words::movement(port.movement));
    Some(format!("port {} is {transfer}, {movement}, with {pod}", port.number))
}

fn open_elsewhere(tool: &Tool) -> Option<String> {
    let stands = |port: &Port| port.movement == movement::NONE && port.transfer == transfer::BLOCKED;
    let at = |carrier: &Carrier| {
        tool.ports().find(|port| carrier.place == place::PORT && port.number == carrier.port)
    };
    let elsewhere =
        |c: &Carrier| c.open != 0 && c.place != place::BUFFER && !at(c).is_some_and(|port| stands(&port));
    let carrier = tool.carriers().find(elsewhere)?;
    Some(match at(&carrier) {
        None => format!("carrier {} is open and expected", carrier.name),
        Some(Port { number, transfer, movement, .. }) => format!(
            "carrier {} is open at port {number}, which is {}, {}",
            carrier.name,
            words::transfer(transfer),
            words::movement(movement)
        ),
    })
}

#[cfg(test)]
mod tests {
    use super::*;
    use crate::print::tests::{accessed, stored, tool};
    use crate::runs::{damaged, inputs, long_run, Dice};
    use hawsermole::Input;

    /// What the archive says of a tool, and the clause that is named.
    fn judged(tool: &Tool) -> Option<Clause> {
        let fault = fault(tool);
        assert_eq!(fault.is_none(), tool.is_sound(), "{fault:?}");
        fault.map(|fault| fault.clause)
    }

    /// A clause is named exactly where the archive says that a tool isn't sound, and each of them is met.
    #[test]
    fn a_clause_is_named_where_a_tool_is_not_sound() {
        let mut dice = Dice::new(1);
        let mut met = [0; CLAUSES.len() + 1];
        for (ports, places) in [(1, 0), (2, 0), (1, 3), (2, 2), (2, 3), (4, 16)] {
            let inputs = inputs(ports, places, &[b"A", b"B", b"C", b"DD"], false);
            for tool in long_run(ports, places, &inputs, 3000, &mut dice) {
                assert_eq!(judged(&tool), None);
                for _ in 0..40 {
                    let clause = judged(&damaged(&tool, &mut dice));
                    met[clause.map_or(CLAUSES.len(), |clause| clause as usize)] += 1;
                }
            }
        }
        // More than 16 expected are a test of their own.
        let often = |clause: usize| met[clause] > 5 || clause == Clause::FewExpected as usize;
        assert!((0..met.len()).all(often), "{met:?}");
    }

    fn told(tool: &Tool, changes: &[(usize, u8)]) -> String {
        let mut bytes = *tool.as_bytes();
        for &(byte, value) in changes {
            bytes[byte] = value;
        }
        let damaged = Tool::from_bytes(&bytes);
        assert!(judged(&damaged).is_some());
        fault(&damaged).unwrap().to_string()
    }

    const A: &[u8] = b"A";
    const START: Input = Input::LoadStart { port: 1, start: 0 };
    const DONE: Input = Input::LoadDone { port: 1 };
    const READ: Input = Input::IdRead { port: 1, name: A };

    #[test]
    fn fields_out_of_range_are_named_with_their_bytes() {
        let tool = tool(2, 1, &[Input::Bind { port: 1, name: A }]);
        let range = "not so: every field is in its range";
        assert_eq!(told(&tool, &[(0, 5)]), format!("{range} (ports 5, not 1 to 4 (byte 0))"));
        assert_eq!(told(&tool, &[(1, 17)]), format!("{range} (buffer places 17, not 0 to 16 (byte 1))"));
        assert_eq!(
            told(&tool, &[(25, 4)]),
            format!("{range} (port 2: transfer state 4, not 0 to 3 (byte 25))")
        );
        let tie = "port 2: tied to what is no name (bytes 28 to 43)";
        assert_eq!(told(&tool, &[(29, 65)]), format!("{range} ({tie})"));
        assert_eq!(told(&tool, &[(91, 0)]), format!("{range} (record 1: no name (bytes 91 to 106))"));
        assert_eq!(told(&tool, &[(108, 1)]), format!("{range} (record 1: buffer place 1, not 0 (byte 108))"));
        assert_eq!(
            told(&tool, &[(113, 6)]),
            format!("{range} (record 1: slot map code 6, not 0 to 5 (byte 113))")
        );
        assert_eq!(
            told(&tool, &[(138, 0)]),
            format!("{range} (record 1: ID status 0, not 1 to 4 (byte 138))")
        );
        let map = "record 1: code 0 at slot 1 of its expected map, not 1 or 3 (byte 1891)";
        assert_eq!(told(&tool, &[(1892, 1)]), format!("{range} ({map})"));
    }

    #[test]
    fn unused_bytes_are_named() {
        let tool = tool(2, 1, &[Input::Bind { port: 1, name: A }]);
        let zero = "not so: unused bytes and records are zero";
        assert_eq!(told(&tool, &[(47, 1)]), format!("{zero} (byte 47 is 1, and part of no port)"));
        assert_eq!(told(&tool, &[(141, 1)]), format!("{zero} (byte 141 is 1, and part of no record)"));
        assert_eq!(
            told(&tool, &[(1916, 1)]),
            format!("{zero} (byte 1916 is 1, and part of no record's map)")
        );
        assert_eq!(told(&tool, &[(2792, 65)]), format!("{zero} (byte 2792 is 65, and part of no request)"));
        assert_eq!(told(&tool, &[(3781, 9)]), format!("{zero} (byte 3781 is 9, and part of nothing)"));
        assert!(fault(&Tool::none()).unwrap().to_string().ends_with("(ports 0, not 1 to 4 (byte 0))"));
    }

    #[test]
    fn carriers_and_ports_that_disagree_are_named() {
        let two = [Input::Bind { port: 1, name: A }, Input::CarrierNotification { name: b"B" }];
        let bound = tool(2, 2, &two);
        assert_eq!(told(&bound, &[(141, 65)]), "not so: names differ (records 1 and 2 are both A)");
        let alike = "not so: ties read alike from either side";
        let untied = "port 1 is tied to A, which isn't tied to it";
        assert_eq!(told(&bound, &[(109, 0)]), format!("{alike} ({untied})"));
        let other = "carrier A is tied to port 2, which isn't tied to it";
        assert_eq!(told(&bound, &[(109, 2)]), format!("{alike} ({other})"));
        assert!(told(&bound, &[(157, 1)]).ends_with("(carrier B is at a port and tied to none)"));
        assert!(
            told(&bound, &[(107, 2), (108, 1)]).ends_with("(carrier A is in the buffer and tied to port 1)")
        );
        let inside = [(157, 2), (158, 1), (109, 0), (6, 0), (107, 2), (108, 1)];
        let shared = "not so: no two share a buffer place (records 1 and 2 are both in place 1)";
        assert_eq!(told(&bound, &inside), shared);
    }

    #[test]
    fn odd_ports_and_openers_are_named() {
        let loading = tool(1, 0, &[START]);
        let says = |damaged: String, at: &str| assert!(damaged.ends_with(&format!(" ({at})")), "{damaged}");
        says(told(&loading, &[(23, 1)]), "port 1 is TRANSFER BLOCKED, loading, with a pod present");
        says(told(&loading, &[(3, 2)]), "port 1 is READY TO UNLOAD, loading, with no pod");
        let here = tool(1, 0, &[START, DONE, READ]);
        says(
            told(&here, &[(110, 1), (22, 2)]),
            "carrier A is open at port 1, which is TRANSFER BLOCKED, unloading",
        );
        let expected = tool(1, 0, &[Input::CarrierNotification { name: A }]);
        says(told(&expected, &[(110, 1)]), "carrier A is open and expected");
    }

    /// A in place 1 is on its way to port 1; B in place 2 is queued behind it.
    fn queued() -> Tool {
        let mut tool = stored(2, &[A, b"B", b"C"]);
        for input in [
            Input::CarrierOut { name: A, port: 1 },
            Input::CarrierOut { name: b"B", port: 1 },
            Input::OutStart { port: 1 },
        ] {
            tool.step(&input).unwrap();
        }
        tool
    }

    #[test]
    fn requests_out_of_range_are_named_with_their_bytes() {
        let range = "not so: every field is in its range";
        let told = |changes: &[(usize, u8)]| told(&queued(), changes);
        let many = "requests of CarrierOut 17, not 0 to 16 (byte 2791)";
        assert_eq!(told(&[(2791, 17)]), format!("{range} ({many})"));
        assert_eq!(told(&[(2826, 3)]), format!("{range} (request 2: port 3, not 1 to 2 (byte 2826))"));
        assert_eq!(told(&[(2809, 2)]), format!("{range} (request 1: started 2, not 0 to 1 (byte 2809))"));
    }

    #[test]
    fn requests_that_disagree_are_named() {
        let told = |changes: &[(usize, u8)]| told(&queued(), changes);
        let stored = "not so: a carrier whose CarrierOut is queued is in the buffer";
        assert_eq!(told(&[(2810, b'Z')]), format!("{stored} (request 2: Z has no record)"));
        assert_eq!(told(&[(2810, 0)]), format!("{stored} (request 2: - has no record)"));
        assert_eq!(told(&[(157, 0), (158, 0)]), format!("{stored} (request 2: B is expected)"));
        let twice = "not so: no carrier's CarrierOut is queued twice (requests 1 and 2 are both of A)";
        assert_eq!(told(&[(2810, b'A')]), twice);
        let shut = "not so: a carrier whose CarrierOut is started is closed and not in access";
        assert_eq!(told(&[(110, 1)]), format!("{shut} (A is open)"));
        assert_eq!(told(&[(140, 2)]), format!("{shut} (A is IN ACCESS)"));
        let alone = "not so: a CarrierOut that is started is alone for its port";
        assert_eq!(told(&[(2827, 1)]), format!("{alone} (A and B are both started to port 1)"));
        let kept = "not so: the port of a CarrierOut that is started is untied, reserved and READY TO LOAD";
        let free = "port 1 of A is READY TO LOAD, NOT RESERVED, NOT ASSOCIATED";
        assert_eq!(told(&[(5, 0)]), format!("{kept} ({free})"));
        let out = "port 1 of A is OUT OF SERVICE, RESERVED, NOT ASSOCIATED";
        assert_eq!(told(&[(3, 0)]), format!("{kept} ({out})"));
    }

    /// A is IN ACCESS and PREDICTED at port 1, B is expected.
    fn predicted() -> Tool {
        let mut tool = accessed(60, 120);
        for input in [
            Input::CarrierNotification { name: b"B" },
            Input::PredictedTime { clock: 1000, name: A, tp: 1001 },
        ] {
            tool.step(&input).unwrap();
        }
        tool
    }

    #[test]
    fn predictions_out_of_range_are_named_with_their_bytes() {
        let told = |changes: &[(usize, u8)]| told(&predicted(), changes);
        let range = "not so: every field is in its range";
        let long = "setting time 131132, not 0 to 86400 (bytes 3084 to 3087)";
        assert_eq!(told(&[(3086, 2)]), format!("{range} ({long})"));
        let long = "timeout 16777336, not 0 to 86400 (bytes 3088 to 3091)";
        assert_eq!(told(&[(3091, 1)]), format!("{range} ({long})"));
        let state = "record 2: prediction state 7, not 1 to 6 (byte 3103)";
        assert_eq!(told(&[(3103, 7)]), format!("{range} ({state})"));
        assert_eq!(told(&[(3094, 2)]), format!("{range} (record 1: has Te 2, not 0 to 1 (byte 3094))"));
        let none = "record 1: a Tp though it has none (bytes 3095 to 3098)";
        assert_eq!(told(&[(3093, 0)]), format!("{range} ({none})"));
        let none = "record 2: a Te though it has none (bytes 3110 to 3113)";
        assert_eq!(told(&[(3113, 1)]), format!("{range} ({none})"));
    }

    #[test]
    fn predictions_that_disagree_are_named() {
        let at = |tool: &Tool, changes: &[(usize, u8)]| told(tool, changes);
        let unused = "not so: unused bytes and records are zero";
        let no_record = format!("{unused} (byte 3114 is 2, and part of no record's prediction)");
        assert_eq!(at(&predicted(), &[(3114, 2)]), no_record);
        let buffer = stored(1, &[A]);
        let none = format!("{unused} (byte 3092 is 2, and part of no record's prediction)");
        assert_eq!(at(&buffer, &[(3092, 2)]), none);
        assert_eq!(at(&predicted(), &[(3496, 1)]), format!("{unused} (byte 3496 is 1, and part of nothing)"));
        let early = "not so: only a carrier at a port has left WAITING FOR CARRIER \
                     (the prediction of B is PREDICTION COMPLETED, and it is expected)";
        assert_eq!(at(&predicted(), &[(3103, 6)]), early);
        // closed, and its port READY TO UNLOAD
        let late = "not so: none is PREDICTED or ABORTED with its port READY TO UNLOAD \
                    (the prediction of A is PREDICTED, and port 1 is READY TO UNLOAD)";
        assert_eq!(at(&predicted(), &[(110, 0), (3, 2)]), late);
        let times = predicted();
        assert!(
            at(&times, &[(110, 0), (3, 2), (3092, 5)]).contains("the prediction of A is PREDICTION ABORTED")
        );
    }

    #[test]
    fn alarms_and_held_pods_that_disagree_are_named() {
        let auto = Input::ChangeAccess { port: 1, access: 1 };
        let loading = tool(2, 0, &[auto, START]);
        let range = "not so: every field is in its range";
        assert_eq!(
            told(&loading, &[(3488, 2)]),
            format!("{range} (port 1: alarm 2, not 0 to 1 (byte 3488))")
        );
        assert_eq!(told(&loading, &[(3491, 9)]), format!("{range} (port 2: held 9, not 0 to 1 (byte 3491))"));
        let unused = "not so: unused bytes and records are zero";
        assert_eq!(
            told(&loading, &[(3492, 1)]),
            format!("{unused} (byte 3492 is 1, and part of no port's alarm)")
        );
        let held = "not so: a held port is loading with its alarm on";
        let off = "port 1 is TRANSFER BLOCKED, loading, with its alarm off and a pod held";
        assert_eq!(told(&loading, &[(3488, 0), (3489, 1)]), format!("{held} ({off})"));
        let idle = "port 2 is READY TO LOAD, idle, with its alarm on and a pod held";
        assert_eq!(told(&loading, &[(3490, 1), (3491, 1)]), format!("{held} ({idle})"));
        let ready = "not so: no alarm is on at READY TO LOAD (that of port 2 is)";
        assert_eq!(told(&loading, &[(3490, 1)]), ready);
        // on in MANUAL and OUT OF SERVICE it is sound
        let mut bytes = *loading.as_bytes();
        (bytes[4], bytes[25], bytes[3490]) = (0, 0, 1);
        assert_eq!(judged(&Tool::from_bytes(&bytes)), None);
    }

    #[test]
    fn a_seventeenth_expected_carrier_is_named() {
        let names: Vec<[u8; 1]> = (b'a'..b'a' + 16).map(|name| [name]).collect();
        let announced = names.iter().map(|name| Input::CarrierNotification { name });
        let inputs: Vec<Input> = [START, DONE, READ].into_iter().chain(announced).collect();
        let tool = tool(1, 0, &inputs);
        assert_eq!(judged(&tool), None);
        assert_eq!(told(&tool, &[(107, 0)]), "not so: at most 16 are expected (17 are)");
    }
}
