//! Plays a script of the command line and writes it as a table: each input, its answer and its reports,
//! and what stands after it.
use hawsermole::states::{PredictionState, Start};
use hawsermole::{
    words, Argument, Carrier, Hands, Input, Parts, Port, Prediction, Refusal, Reports, Request, Row, Tool,
};

/// A script's steps as rows of a Markdown table.
pub fn walk(script: &str) -> Result<Vec<String>, String> {
    let mut tool = Tool::none();
    let mut rows = Vec::new();
    for (place, line) in script.lines().enumerate() {
        let told = |message| format!("line {}: {message}", place + 1);
        let words: Vec<&str> = line.split_whitespace().collect();
        match words[..] {
            [] | ["dump"] => {}
            [first, ..] if first.starts_with('#') => {}
            ["setup", ref numbers @ ..] => tool = set_up(numbers).map_err(told)?,
            _ => rows.push(step(&mut tool, &words).map_err(told)?),
        }
    }
    Ok(rows)
}

/// Ports and places, and setting time and timeout, which may be left out.
fn set_up(numbers: &[&str]) -> Result<Tool, String> {
    let numbers: Result<Vec<u32>, _> = numbers.iter().map(|word| word.parse()).collect();
    let (ports, places, setting, timeout) = match numbers.as_deref() {
        Ok(&[ports, places]) => (ports, places, 0, 0),
        Ok(&[ports, places, setting, timeout]) => (ports, places, setting, timeout),
        _ => return Err("not a set-up".into()),
    };
    Tool::setup_with_times(ports, places, setting, timeout).map_err(|refusal| refusal.to_string())
}

/// An answer and its reports as the command line prints them.
fn answer(result: Result<Reports, Refusal>) -> String {
    match result {
        Ok(reports) => format!("0  {reports}"),
        Err(refusal) => format!("{}  none", refusal.number()),
    }
}

fn step(tool: &mut Tool, words: &[&str]) -> Result<String, String> {
    let codes = codes(words);
    let input = read(words, &codes).ok_or("not an input by name")?;
    let before = tool.clone();
    let answered = answer(tool.step(&input));
    let after = match answered.starts_with('0') {
        true => changes(&before, tool),
        false => "as before".into(),
    };
    Ok(format!("| {input} | `{answered}` | {after} |"))
}

fn codes(words: &[&str]) -> Vec<u8> {
    let digits = words.last().map_or("", |word| word);
    digits.bytes().map(|digit| digit.wrapping_sub(b'0')).collect()
}

fn read<'a>(words: &[&'a str], codes: &'a [u8]) -> Option<Input<'a>> {
    let row = Row::named(words[0])?;
    let mut parts = Parts { number: row.number, ..Parts::default() };
    let left_out = |argument: &&Argument| [Argument::MapOrNone, Argument::Start].contains(argument);
    let needed = row.arguments.len() - row.arguments.iter().filter(left_out).count();
    if !(needed..=row.arguments.len()).contains(&(words.len() - 1)) {
        return None;
    }
    for (argument, word) in row.arguments.iter().zip(&words[1..]) {
        match argument {
            Argument::Port | Argument::PortOrNone => parts.port = word.parse().ok()?,
            Argument::Name | Argument::NameOrNone => parts.name = word.as_bytes(),
            Argument::Codes | Argument::MapOrNone => parts.codes = codes,
            Argument::Start => {
                let start = Start::ALL.iter().find(|start| start.word() == *word)?;
                parts.value = start.number().into();
            }
            Argument::Clock => parts.clock = word.parse().ok()?,
            Argument::Tp | Argument::Te => parts.time = word.parse().ok()?,
            _ => parts.value = word.parse().ok()?,
        }
    }
    Input::from_parts(&parts)
}

/// Each port and carrier that isn't as it was, in full, the queue for CarrierOut, the clock, and each prediction that has
/// left WAITING FOR CARRIER.
fn changes(before: &Tool, after: &Tool) -> String {
    let old = |carrier: &Carrier| before.carriers().any(|old| old == *carrier);
    let ports = after.ports().zip(after.hands()).zip(before.ports().zip(before.hands()));
    let ports = ports.filter(|(now, then)| now != then).map(|((now, hands), _)| port(now, hands));
    let carriers = after.carriers().filter(|now| !old(now)).map(|now| carrier(after, now));
    let stays = |gone: &Carrier| after.carriers().any(|now| now.name == gone.name);
    let gone = before.carriers().filter(|then| !stays(then)).map(|then| format!("{}: no record", then.name));
    let queue = (!after.requests().eq(before.requests())).then(|| queue(after));
    let clock = (before.clock() != after.clock()).then(|| format!("clock {}", after.clock()));
    let waits = PredictionState::WaitingForCarrier.number();
    let new = |now: &Prediction| before.prediction(now.name.as_bytes()) != Some(*now) && now.state != waits;
    let predictions = after.predictions().filter(new).map(prediction);
    let all: Vec<String> =
        ports.chain(carriers).chain(gone).chain(queue).chain(clock).chain(predictions).collect();
    match all.is_empty() {
        true => "as before".into(),
        false => all.join("<br>"),
    }
}

fn queue(tool: &Tool) -> String {
    let request = |Request { name, port, started }: Request| {
        format!("{name} to port {port}{}", if started == 0 { "" } else { ", started" })
    };
    let requests: Vec<String> = tool.requests().map(request).collect();
    match requests.is_empty() {
        true => "queue: empty".into(),
        false => format!("queue: {}", requests.join("; ")),
    }
}

fn prediction(Prediction { name, state, tp, te }: Prediction) -> String {
    let time = |what, time: Option<u32>| time.map_or(String::new(), |time| format!(", {what} {time}"));
    format!("{name}: {}{}{}", words::prediction(state), time("Tp", tp), time("Te", te))
}

fn port(port: Port, hands: Hands) -> String {
    let mut text = format!("port {}: {}", port.number, words::transfer(port.transfer));
    if port.access != 0 {
        text += &format!(", {}", words::access(port.access));
    }
    if port.reserved != 0 {
        text += ", reserved";
    }
    if !port.tie.is_none() {
        text += &format!(", tied to {}", port.tie);
    }
    if port.movement != 0 {
        text += &format!(", {}", words::movement(port.movement));
    }
    if port.pod != 0 {
        text += &format!(", pod, tag {}", words::tag(port.tag));
    }
    for (flag, word) in [(hands.alarm, ", alarm on"), (hands.held, ", pod held")] {
        if flag != 0 {
            text += word;
        }
    }
    text
}

fn carrier(tool: &Tool, carrier: Carrier) -> String {
    let place = match carrier.place {
        0 => "expected".into(),
        1 => format!("at port {}", carrier.port),
        _ => format!("in place {}", carrier.spot),
    };
    let open = if carrier.open == 0 { "closed" } else { "open" };
    let Carrier { name, id, slot, accessing, .. } = carrier;
    let mut text = format!("{name}: {place}, {open}, ID {id}, slot {slot}, accessing {accessing}");
    let map = u8::from(tool.expected_map(name.as_bytes()).is_some());
    for (flag, word) in
        [(carrier.cancelled, ", cancelled"), (carrier.came_out, ", came out"), (map, ", map expected")]
    {
        if flag != 0 {
            text += word;
        }
    }
    text
}

#[cfg(test)]
mod tests {
    use super::*;

    #[test]
    fn steps_become_rows() {
        let rows =
            walk("# a comment\nsetup 1 0\n\nLoadStart 1\nOpen AB\nLoadFail 1\ndump\nChangeAccess 1 0\n")
                .unwrap();
        assert_eq!(
            rows,
            [
                "| LoadStart(1, manual) | `0  1 1 1>3` | port 1: TRANSFER BLOCKED, loading |",
                "| Open(AB) | `2  none` | as before |",
                "| LoadFail(1) | `0  1 1 3>1` | port 1: READY TO LOAD |",
                "| ChangeAccess(1, 0) | `0  none` | as before |",
            ]
        );
    }

    #[test]
    fn expected_maps_are_told() {
        let rows = walk("setup 1 0\nBind 1 AB 1111111111111111111111111\nCarrierNotification AC\n").unwrap();
        assert!(rows[0].starts_with("| Bind(1, AB, 25 codes) | `0  3 1 0>1;"), "{}", rows[0]);
        assert!(
            rows[0].ends_with("AB: expected, closed, ID 1, slot 1, accessing 1, map expected |"),
            "{}",
            rows[0]
        );
        assert!(rows[1].ends_with("AC: expected, closed, ID 1, slot 1, accessing 1 |"), "{}", rows[1]);
    }

    #[test]
    fn the_queue_is_told() {
        let stored = |name, place| {
            format!(
                "CarrierNotification {name}\nLoadStart 1\nLoadDone 1\nIdRead 1 {name}\nMoveIn 1 {place}\n"
            )
        };
        let script = format!(
            "setup 1 2\n{}{}CarrierOut AB 1\nCarrierOut AC 1\nOutStart 1\nOutDone 1\nCancelAllCarrierOut\n",
            stored("AB", 1),
            stored("AC", 2)
        );
        let rows = walk(&script).unwrap();
        assert_eq!(
            rows[10..],
            [
                "| CarrierOut(AB, 1) | `0  none` | queue: AB to port 1 |",
                "| CarrierOut(AC, 1) | `0  none` | queue: AB to port 1; AC to port 1 |",
                "| OutStart(1) | `0  3 1 0>1` | port 1: READY TO LOAD, reserved<br>\
                 queue: AB to port 1, started; AC to port 1 |",
                "| OutDone(1) | `0  1 1 1>2; 3 1 1>0; 4 1 0>1` | \
                 port 1: READY TO UNLOAD, tied to AB, pod, tag read<br>\
                 AB: at port 1, closed, ID 3, slot 1, accessing 1, came out<br>queue: AC to port 1 |",
                "| CancelAllCarrierOut | `0  none` | queue: empty |",
            ]
        );
    }

    #[test]
    fn times_are_told() {
        let visit = "LoadStart 1\nLoadDone 1\nIdRead 1 A\nProceedWithCarrier A 1\nOpen A\n\
                     SlotMap A 3333333333333333333333333\nProceedWithCarrier A 1\nAccessStart A\n";
        let rows = walk(&format!("setup 1 0 60 120\n{visit}PredictedTime 9 A 99\nClock 9\n")).unwrap();
        let started = "A: at port 1, open, ID 3, slot 3, accessing 2<br>A: WAITING FOR PREDICTION |";
        assert!(rows[7].ends_with(started), "{}", rows[7]);
        let predicted =
            "| PredictedTime(9, A, 99) | `0  none` | clock 9<br>A: WAITING FOR PREDICTION, Tp 99 |";
        assert_eq!(rows[8..], [predicted, "| Clock(9) | `0  none` | as before |"]);
    }

    #[test]
    fn hands_are_told() {
        let script =
            "setup 1 0\nLoadStart 1 automatic\nChangeAccess 1 1\nLoadStart 1\nLoadDone 1\nContinue 1\n";
        let rows = walk(script).unwrap();
        let port = "port 1: TRANSFER BLOCKED, AUTO";
        assert_eq!(rows[0], "| LoadStart(1, automatic) | `13  none` | as before |");
        assert_eq!(
            rows[2..],
            [
                format!("| LoadStart(1, manual) | `0  1 1 1>3; 9 1 0>1` | {port}, loading, alarm on |"),
                format!("| LoadDone(1) | `0  none` | {port}, loading, alarm on, pod held |"),
                format!("| Continue(1) | `0  9 1 1>0` | {port}, pod, tag unread |"),
            ]
        );
        assert_eq!(walk("setup 1 0\nLoadStart 1 hand").unwrap_err(), "line 2: not an input by name");
    }

    #[test]
    fn what_goes_is_told() {
        let rows = walk("setup 1 0\nCarrierNotification AB\nCancelCarrierNotification AB\n").unwrap();
        assert!(rows[0].ends_with("| AB: expected, closed, ID 1, slot 1, accessing 1 |"), "{}", rows[0]);
        assert!(rows[1].ends_with("| AB: no record |"), "{}", rows[1]);
    }

    #[test]
    fn lines_that_cant_be_read_are_told() {
        assert_eq!(walk("setup 1 0\nFrobnicate 1").unwrap_err(), "line 2: not an input by name");
        assert_eq!(walk("setup 1 0\n\nBind 1").unwrap_err(), "line 3: not an input by name");
        assert!(walk("setup 9 0").unwrap_err().starts_with("line 1: a port, place"));
        assert_eq!(walk("setup 1 0 60").unwrap_err(), "line 1: not a set-up");
    }
}
