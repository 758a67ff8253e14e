//! The printers: answers, reports and the state in the forms that programs read.
use hawsermole::{
    Carrier, Hands, Name, Port, Prediction, Refusal, Report, Reports, Request, Subject, Tool, Waiting,
};

/// What the machine answers to an input.
pub type Answer = Result<Reports, Refusal>;

/// 0, or the refusal's number.
pub fn answer(answer: &Answer) -> u8 {
    answer.as_ref().map_or_else(|refusal| refusal.number(), |_| 0)
}

/// The reports of an answer; none if it is a refusal.
pub fn reports(answer: &Answer) -> Reports {
    answer.as_ref().ok().cloned().unwrap_or_default()
}

/// `0 2 [1 1 1 3; 3 1 1 0]`: names in hex.
pub fn numbered(given: &Answer) -> String {
    let reports = reports(given);
    let count = reports.len();
    let entries: Vec<String> = reports.map(numbered_entry).collect();
    format!("{} {count} [{}]\n", answer(given), entries.join("; "))
}

fn numbered_entry(report: Report) -> String {
    let subject = match report.subject {
        Subject::Port(port) => port.to_string(),
        Subject::Carrier(name) => hex(name.as_bytes()),
    };
    format!("{} {subject} {} {}", report.model.number(), report.old, report.new)
}

/// `0  1 1 1>3; 3 1 1>0`, or `7  none`: the form of document 01's table, names as text.
pub fn named(given: &Answer) -> String {
    format!("{}  {}\n", answer(given), reports(given))
}

/// `exchange 0 6 0102a501000100`: the answer, the items of the message and the reply in hex, `-` with 14.
pub fn exchange(given: &Answer, items: u32, reply: &[u8]) -> String {
    format!("exchange {} {items} {}\n", answer(given), hex(reply))
}

/// `reply 0 0102a501000100`, or `reply 14 -`.
pub fn reply(written: Result<&[u8], Refusal>) -> String {
    match written {
        Ok(text) => format!("reply 0 {}\n", hex(text)),
        Err(refusal) => format!("reply {} -\n", refusal.number()),
    }
}

/// `waiting 3 4`, or `waiting none 5`: the first that waits, and how many records were read.
pub fn waiting(Waiting { first, read }: Waiting) -> String {
    let first = first.map_or("none".into(), |position| position.to_string());
    format!("waiting {first} {read}\n")
}

/// The whole state: a line for each port, record, expected map and request of CarrierOut, one for the times, one for each
/// prediction, one for each port's alarm, `end`. Without a tool there are no times.
pub fn dump(tool: &Tool) -> String {
    if *tool == Tool::none() {
        return "end\n".into();
    }
    let ports: String = tool.ports().map(port_line).collect();
    let records: String = tool.carriers().map(record_line).collect();
    let maps: String =
        tool.expected_maps().map(|(of, map)| format!("map {} {}\n", name(of), hex(map))).collect();
    let requests: String = tool.requests().map(request_line).collect();
    let times = format!("time {} {} {}\n", tool.clock(), tool.setting(), tool.timeout());
    let predictions: String = tool.predictions().map(prediction_line).collect();
    let alarms: String = tool.hands().map(alarm_line).collect();
    ports + &records + &maps + &requests + &times + &predictions + &alarms + "end\n"
}

fn alarm_line(Hands { port, alarm, held }: Hands) -> String {
    format!("alarm {port} {alarm} {held}\n")
}

fn prediction_line(Prediction { name: of, state, tp, te }: Prediction) -> String {
    let time = |given: Option<u32>| given.map_or("-".into(), |seconds| seconds.to_string());
    format!("predict {} {state} {} {}\n", name(of), time(tp), time(te))
}

fn request_line(request: Request) -> String {
    format!("out {} {} {}\n", name(request.name), request.port, request.started)
}

fn port_line(port: Port) -> String {
    let Port { number, transfer, access, reserved, tie, movement, pod, tag } = port;
    format!("port {number} {transfer} {access} {reserved} {} {movement} {pod} {tag}\n", name(tie))
}

fn record_line(carrier: Carrier) -> String {
    let Carrier { place, spot, port, open, cancelled, came_out, id, slot, accessing, .. } = carrier;
    let (name, map) = (name(carrier.name), map(&carrier.map));
    format!("rec {name} {place} {spot} {port} {open} {cancelled} {came_out} {map} {id} {slot} {accessing}\n")
}

fn name(name: Name) -> String {
    hex(name.as_bytes())
}

/// A map of zeros is no map: a new record has it, and nothing is lost, since `-` stands for no other.
fn map(map: &[u8]) -> String {
    match map.iter().all(|&code| code == 0) {
        true => hex(&[]),
        false => hex(map),
    }
}

/// Lower-case hex, `-` for no bytes.
fn hex(bytes: &[u8]) -> String {
    match bytes {
        [] => "-".into(),
        _ => bytes.iter().map(|byte| format!("{byte:02x}")).collect(),
    }
}

#[cfg(test)]
pub mod tests {
    use super::*;
    use hawsermole::{ExpectedMap, Input};

    /// The tool after some inputs, all of them accepted.
    pub fn tool(ports: u32, places: u32, inputs: &[Input]) -> Tool {
        let mut tool = Tool::setup(ports, places).unwrap();
        for input in inputs {
            tool.step(input).unwrap();
        }
        tool
    }

    /// A tool with these carriers in the places of its buffer from 1 on, all of them brought in through port 1.
    pub fn stored(ports: u32, names: &[&[u8]]) -> Tool {
        let mut tool = Tool::setup(ports, names.len() as u32).unwrap();
        for (place, name) in (1..).zip(names) {
            for input in [
                Input::LoadStart { port: 1, start: 0 },
                Input::LoadDone { port: 1 },
                Input::IdRead { port: 1, name },
                Input::ProceedWithCarrier { name, port: 1 },
                Input::MoveIn { port: 1, place },
            ] {
                tool.step(&input).unwrap();
            }
        }
        tool
    }

    /// A fixed buffer tool of two ports with these times; A is at port 1, IN ACCESS.
    pub fn accessed(setting: u32, timeout: u32) -> Tool {
        let mut tool = Tool::setup_with_times(2, 0, setting, timeout).unwrap();
        let (name, codes) = (b"A", &[3; 25]);
        for input in [
            Input::LoadStart { port: 1, start: 0 },
            Input::LoadDone { port: 1 },
            Input::IdRead { port: 1, name },
            Input::ProceedWithCarrier { name, port: 1 },
            Input::Open { name },
            Input::SlotMap { name, codes },
            Input::ProceedWithCarrier { name, port: 1 },
            Input::AccessStart { name },
        ] {
            tool.step(&input).unwrap();
        }
        tool
    }

    const BIND: Input = Input::Bind { port: 1, name: b"AB" };

    #[test]
    fn accepted_answers_in_both_forms() {
        let given = tool(1, 0, &[]).step(&BIND);
        let by_number = "0 6 [3 1 0 1; 4 1 0 1; 5 4142 0 1; 6 4142 0 1; 7 4142 0 1; 8 4142 0 2]\n";
        assert_eq!(numbered(&given), by_number);
        assert_eq!(named(&given), "0  3 1 0>1; 4 1 0>1; 5 AB 0>1; 6 AB 0>1; 7 AB 0>1; 8 AB 0>2\n");
    }

    #[test]
    fn answers_without_reports_in_both_forms() {
        let refused = tool(1, 0, &[]).step(&Input::Open { name: b"AB" });
        assert_eq!((numbered(&refused), named(&refused)), ("2 0 []\n".into(), "2  none\n".into()));
        let accepted =
            tool(1, 0, &[Input::LoadStart { port: 1, start: 0 }]).step(&Input::LoadDone { port: 1 });
        assert_eq!((numbered(&accepted), named(&accepted)), ("0 0 []\n".into(), "0  none\n".into()));
    }

    /// As they were sent, but for the blanks at their end.
    #[test]
    fn names_print_as_the_tool_has_them() {
        for name in [&br#"a'"\~!"#[..], br#"a'"\~!  "#] {
            let given = tool(1, 0, &[]).step(&Input::CarrierNotification { name });
            assert!(named(&given).starts_with(r#"0  5 a'"\~! 0>1"#));
            assert!(numbered(&given).starts_with("0 4 [5 6127225c7e21 0 1;"));
        }
    }

    #[test]
    fn dumps() {
        assert_eq!(dump(&Tool::none()), "end\n");
        let empty = "port 1 1 0 0 - 0 0 0\nport 2 1 0 0 - 0 0 0\ntime 0 0 0\nalarm 1 0 0\nalarm 2 0 0\nend\n";
        assert_eq!(dump(&tool(2, 3, &[])), empty);
        let bound = tool(1, 0, &[BIND, Input::LoadStart { port: 1, start: 0 }]);
        let expected = "port 1 3 0 0 4142 1 0 0\nrec 4142 0 0 1 0 0 0 - 1 1 1\n\
                        time 0 0 0\npredict 4142 2 - -\nalarm 1 0 0\nend\n";
        assert_eq!(dump(&bound), expected);
    }

    /// Every field of the two lines differs from its neighbours where its range allows it.
    #[test]
    fn dumps_of_a_buffer() {
        let (name, mut codes) = (b"AB", [3; 25]);
        codes[24] = 5;
        let read = Input::IdRead { port: 1, name };
        let moved = [Input::LoadStart { port: 1, start: 0 }, Input::LoadDone { port: 1 }, read];
        let mut tool = tool(1, 9, &moved);
        for input in [
            Input::ProceedWithCarrier { name, port: 1 },
            Input::MoveIn { port: 1, place: 9 },
            Input::Open { name },
            Input::SlotMap { name, codes: &codes },
            Input::ChangeAccess { port: 1, access: 1 },
        ] {
            tool.step(&input).unwrap();
        }
        let map = "03".repeat(24) + "05";
        let expected =
            format!("port 1 1 1 0 - 0 0 0\nrec 4142 2 9 0 1 0 0 {map} 3 2 1\ntime 0 0 0\nalarm 1 0 0\nend\n");
        assert_eq!(dump(&tool), expected);
    }

    /// In the order of the records, after all of them.
    #[test]
    fn dumps_of_expected_maps() {
        let (ones, threes) = ([1; 25], [3; 25]);
        let map = |codes| ExpectedMap::new(codes).unwrap();
        let inputs = [
            Input::CarrierNotificationWithMap { name: b"B", map: map(&ones) },
            Input::CarrierNotification { name: b"C" },
            Input::BindWithMap { port: 1, name: b"A", map: map(&threes) },
        ];
        let records = "rec 42 0 0 0 0 0 0 - 1 1 1\nrec 43 0 0 0 0 0 0 - 1 1 1\nrec 41 0 0 1 0 0 0 - 1 1 1\n";
        let maps = format!("map 42 {}\nmap 41 {}\n", "01".repeat(25), "03".repeat(25));
        let expected = format!("port 1 1 0 1 41 0 0 0\n{records}{maps}time 0 0 0\nalarm 1 0 0\nend\n");
        assert_eq!(dump(&tool(1, 1, &inputs)), expected);
    }

    /// The oldest first, after the maps.
    #[test]
    fn dumps_of_a_queue() {
        let mut tool = stored(2, &[b"A", b"B", b"C"]);
        let map = ExpectedMap::new(&[3; 25]).unwrap();
        for input in [
            Input::CarrierNotificationWithMap { name: b"D", map },
            Input::CarrierOut { name: b"C", port: 1 },
            Input::CarrierOut { name: b"A", port: 2 },
            Input::OutStart { port: 2 },
        ] {
            tool.step(&input).unwrap();
        }
        let alarms = "alarm 1 0 0\nalarm 2 0 0\n";
        let end = format!("map 44 {}\nout 43 1 0\nout 41 2 1\ntime 0 0 0\n{alarms}end\n", "03".repeat(25));
        assert!(dump(&tool).ends_with(&end), "{}", dump(&tool));
    }

    /// In the order of the records, after the times; in a tool without a buffer alone.
    #[test]
    fn dumps_of_predictions() {
        let mut tool = accessed(60, 86_400);
        for input in [
            Input::CarrierNotification { name: b"B" },
            Input::PredictedTime { clock: u32::MAX, name: b"A", tp: 0 },
            Input::Estimate { clock: u32::MAX, name: b"A", te: 7 },
        ] {
            tool.step(&input).unwrap();
        }
        let end =
            "time 4294967295 60 86400\npredict 41 5 0 7\npredict 42 2 - -\nalarm 1 0 0\nalarm 2 0 0\nend\n";
        assert!(dump(&tool).ends_with(end), "{}", dump(&tool));
        let mut buffer = Tool::setup_with_times(1, 1, 3, 4).unwrap();
        buffer.step(&Input::CarrierNotification { name: b"B" }).unwrap();
        buffer.step(&Input::Clock { clock: 9 }).unwrap();
        assert!(
            dump(&buffer).ends_with("rec 42 0 0 0 0 0 0 - 1 1 1\ntime 9 3 4\nalarm 1 0 0\nend\n"),
            "{}",
            dump(&buffer)
        );
    }

    /// By port, after the predictions.
    #[test]
    fn dumps_of_alarms() {
        let auto = [1, 2, 3].map(|port| Input::ChangeAccess { port, access: 1 });
        let loads = [2, 3].map(|port| Input::LoadStart { port, start: 0 });
        let inputs = [&auto[..], &loads, &[Input::LoadDone { port: 3 }]].concat();
        let told = dump(&tool(3, 0, &inputs));
        assert!(told.ends_with("time 0 0 0\nalarm 1 0 0\nalarm 2 1 0\nalarm 3 1 1\nend\n"), "{told}");
    }

    #[test]
    fn hex_is_lower_case() {
        assert_eq!((hex(&[0x0a, 0xff]), hex(&[])), ("0aff".into(), "-".into()));
        assert_eq!((map(&[0; 25]), map(&[0, 1])), ("-".into(), "0001".into()));
    }
}
