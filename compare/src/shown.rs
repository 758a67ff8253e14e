//! States, as bytes with names.

use std::fmt::Write;

use independent::requests::alarms::{Alarm, Alarms};
use independent::requests::predict::{Prediction, Predictions};
use independent::requests::queue::{Queue, Request};
use independent::requests::Tool;
use independent::Plain;

use crate::script::{hex, unpadded};

const HEAD: usize = 3;
const PORT: usize = size_of::<independent::Port>();
const CARRIER: usize = size_of::<independent::Carrier>();
const CARRIERS: usize = HEAD + 4 * PORT;
const MAPS: usize = size_of::<independent::Tool>();
const MAP: usize = 25;
const QUEUE: usize = MAPS + 36 * MAP;
const REQUEST: usize = size_of::<Request>();
const TIMES: usize = QUEUE + size_of::<Queue>();
const PREDICTION: usize = size_of::<Prediction>();
const PREDICTED: usize = TIMES + 3 * 4;
const ALARMS: usize = TIMES + size_of::<Predictions>();
const UNUSED: usize = ALARMS + size_of::<Alarms>();

/// A tool's bytes: its head, its ports, the records up to the last that isn't zero, the expected maps, the requests,
/// the clock and the predictions, the alarms, and what is not zero of the bytes that should be.
pub fn bytes(tool: &Tool) -> String {
    let all = tool.base.bytes();
    let mut out = format!("  head      {}\n", hex(&all[..HEAD]));
    for (p, port) in all[HEAD..CARRIERS].chunks(PORT).enumerate() {
        let _ = writeln!(out, "  port {}    {}", p + 1, hex(port));
    }
    let records: Vec<&[u8]> = all[CARRIERS..].chunks(CARRIER).collect();
    let used = records.iter().rposition(|r| r.iter().any(|&byte| byte != 0)).map_or(0, |last| last + 1);
    for (k, record) in records[..used].iter().enumerate() {
        let _ = writeln!(out, "  record {:<2} {}", k + 1, hex(record));
    }
    for (k, map) in tool.maps.iter().enumerate().filter(|(_, map)| **map != [0; MAP]) {
        let name = hex(unpadded(&tool.base.carrier[k].name));
        let _ = writeln!(out, "  map {name} {} (record {})", hex(map), k + 1);
    }
    out += &requests(tool);
    out += &predictions(tool);
    out += &alarms(tool);
    if let Some(last) = tool.unused.iter().rposition(|&byte| byte != 0) {
        let _ = writeln!(out, "  unused    {}", hex(&tool.unused[..=last]));
    }
    let _ = writeln!(out, "  and zeros to the end");
    out
}

/// Each request, and a count that isn't theirs.
fn requests(tool: &Tool) -> String {
    let mut out = String::new();
    let is_one = |r: &Request| *r != Request::UNUSED;
    let used = tool.queue.request.iter().rposition(is_one).map_or(0, |last| last + 1);
    for (k, r) in tool.queue.request[..used.max(tool.queue.requests().len())].iter().enumerate() {
        let _ =
            writeln!(out, "  out {} {} {} (request {})", hex(unpadded(&r.name)), r.port, r.started, k + 1);
    }
    if tool.queue.count as usize != used {
        let _ = writeln!(out, "  requests  {}", tool.queue.count);
    }
    out
}

/// The clock, setting and timeout, and each prediction that isn't zero: its state, Tp and Te, and its bytes where these
/// are no good ones.
fn predictions(tool: &Tool) -> String {
    let p = &tool.predictions;
    if *p == Predictions::NONE {
        return String::new();
    }
    let mut out = format!("  time {} {} {}\n", p.clock(), p.setting(), p.timeout());
    let time = |time: Option<u32>| time.map_or("-".into(), |time| time.to_string());
    for (k, p) in p.of.iter().enumerate().filter(|(_, p)| **p != Prediction::NONE) {
        let name = hex(unpadded(&tool.base.carrier[k].name));
        let (state, tp, te) = (p.state, time(p.tp()), time(p.te()));
        let _ = writeln!(out, "  predict {name} {state} {tp} {te} (record {}: {})", k + 1, hex(p.bytes()));
    }
    out
}

/// Each port that has an alarm or holds a pod.
fn alarms(tool: &Tool) -> String {
    let mut out = String::new();
    for (p, alarm) in tool.alarms.iter().enumerate().filter(|(_, alarm)| **alarm != Alarm::NONE) {
        let _ = writeln!(out, "  alarm {} {} {}", p + 1, alarm.on, alarm.held);
    }
    out
}

/// What a byte of the tool is part of, in words.
pub fn field(at: usize) -> String {
    if at < HEAD {
        return ["ports", "places", "count"][at].into();
    }
    if at < CARRIERS {
        let (p, at) = ((at - HEAD) / PORT, (at - HEAD) % PORT);
        let what = match at {
            0..=2 => ["transfer", "access", "reserved"][at],
            3..=18 => "tie",
            _ => ["movement", "pod", "tag"][at - 19],
        };
        return format!("port {} {what}", p + 1);
    }
    if at >= MAPS {
        return field_of_requests(at);
    }
    let (k, at) = ((at - CARRIERS) / CARRIER, (at - CARRIERS) % CARRIER);
    let what = match at {
        0..=15 => "name",
        16..=21 => ["place", "spot", "port", "open", "cancelled", "came-out"][at - 16],
        22..=46 => "map",
        _ => ["id", "slot", "accessing"][at - 47],
    };
    format!("record {} {what}", k + 1)
}

/// The same for what document 02's requests have added.
fn field_of_requests(at: usize) -> String {
    if at < QUEUE {
        return format!("record {} expected map", (at - MAPS) / MAP + 1);
    }
    if at == QUEUE {
        return "requests".into();
    }
    if at >= UNUSED {
        return "unused".into();
    }
    if at >= ALARMS {
        let (p, at) = ((at - ALARMS) / size_of::<Alarm>(), (at - ALARMS) % size_of::<Alarm>());
        return format!("port {} {}", p + 1, ["alarm", "held"][at]);
    }
    if at >= PREDICTED {
        let (k, at) = ((at - PREDICTED) / PREDICTION, (at - PREDICTED) % PREDICTION);
        let what = ["prediction", "has Tp", "has Te", "Tp", "Te"][if at < 3 { at } else { 3 + (at - 3) / 4 }];
        return format!("record {} {what}", k + 1);
    }
    if at >= TIMES {
        return ["clock", "setting", "timeout"][(at - TIMES) / 4].into();
    }
    let (k, at) = ((at - QUEUE - 1) / REQUEST, (at - QUEUE - 1) % REQUEST);
    let what = match at {
        16 => "port",
        17 => "started",
        _ => "name",
    };
    format!("request {} {what}", k + 1)
}

#[cfg(test)]
mod tests {
    use super::*;
    use independent::requests::{setup, step};
    use independent::Reports;

    #[test]
    fn bytes_have_names() {
        let mut tool = Tool::NONE;
        let named = |tool: &Tool| field(tool.bytes().iter().position(|&b| b != 0).unwrap());
        tool.unused[0] = 1;
        assert_eq!(named(&tool), "unused");
        tool.queue.request[15].started = 1;
        assert_eq!(named(&tool), "request 16 started");
        tool.queue.request[15].port = 1;
        assert_eq!(named(&tool), "request 16 port");
        tool.queue.request[0].name[15] = 1;
        assert_eq!(named(&tool), "request 1 name");
        tool.queue.count = 1;
        assert_eq!(named(&tool), "requests");
        tool.maps[35][24] = 1;
        assert_eq!(named(&tool), "record 36 expected map");
        tool.maps[0][0] = 1;
        assert_eq!(named(&tool), "record 1 expected map");
        let base = |change: fn(&mut independent::Tool)| {
            let mut tool = tool;
            change(&mut tool.base);
            named(&tool)
        };
        assert_eq!(base(|tool| tool.carrier[35].accessing = 1), "record 36 accessing");
        assert_eq!(base(|tool| tool.carrier[1].map[24] = 1), "record 2 map");
        assert_eq!(base(|tool| tool.carrier[1].came_out = 1), "record 2 came-out");
        assert_eq!(base(|tool| tool.port[3].movement = 1), "port 4 movement");
        assert_eq!(base(|tool| tool.port[0].tie[0] = 1), "port 1 tie");
        assert_eq!(base(|tool| tool.count = 1), "count");
    }

    #[test]
    fn bytes_of_predictions_have_names() {
        let mut tool = Tool::NONE;
        let named = |tool: &Tool| field(tool.bytes().iter().position(|&b| b != 0).unwrap());
        tool.predictions.of[35].te[3] = 1;
        assert_eq!(named(&tool), "record 36 Te");
        tool.predictions.of[35].tp[0] = 1;
        assert_eq!(named(&tool), "record 36 Tp");
        tool.predictions.of[35].has_te = 1;
        assert_eq!(named(&tool), "record 36 has Te");
        tool.predictions.of[0].has_tp = 1;
        assert_eq!(named(&tool), "record 1 has Tp");
        tool.predictions.of[0].state = 1;
        assert_eq!(named(&tool), "record 1 prediction");
        tool.predictions.timeout[3] = 1;
        assert_eq!(named(&tool), "timeout");
        tool.predictions.setting[0] = 1;
        assert_eq!(named(&tool), "setting");
        tool.predictions.clock[3] = 1;
        assert_eq!(named(&tool), "clock");
    }

    #[test]
    fn maps_are_shown_with_their_names() {
        let mut tool = Tool::NONE;
        setup(1, 1, 0, 0, &mut tool);
        let shown = |tool: &Tool| bytes(tool).lines().map(String::from).collect::<Vec<_>>();
        let plain = shown(&tool);
        assert_eq!((plain.len(), plain[5].as_str()), (6, "  and zeros to the end"));
        for (name, codes) in [(b"AB", &[3; 25][..]), (b"AC", &[]), (b"AD", &[1; 25])] {
            step(&mut tool, 3, 0, 0, name, codes, &mut Reports::NONE.clone());
        }
        tool.maps[35][1] = 2;
        tool.unused[2] = 255;
        let lines = shown(&tool);
        assert_eq!(lines[8], format!("  map 4142 {} (record 1)", "03".repeat(25)));
        assert_eq!(lines[9], format!("  map 4144 {} (record 3)", "01".repeat(25)));
        assert_eq!(lines[10], format!("  map - 0002{} (record 36)", "00".repeat(23)));
        assert_eq!(lines[11..], ["  unused    0000ff", "  and zeros to the end"]);
    }

    #[test]
    fn requests_are_shown_as_the_command_line_does() {
        let mut tool = Tool::NONE;
        assert_eq!(requests(&tool), "");
        for (k, name) in [b"AB", b"AC"].into_iter().enumerate() {
            tool.queue.request[k].name[..2].copy_from_slice(name);
            (tool.queue.request[k].port, tool.queue.request[k].started) = (k as u8 + 3, k as u8);
        }
        tool.queue.count = 2;
        let both = "  out 4142 3 0 (request 1)\n  out 4143 4 1 (request 2)\n";
        assert_eq!(requests(&tool), both);
        tool.queue.count = 17;
        assert!(requests(&tool).ends_with("(request 16)\n  requests  17\n"), "{}", requests(&tool));
        tool.queue.count = 1;
        assert_eq!(requests(&tool), format!("{both}  requests  1\n"));
        assert_eq!((QUEUE, TIMES, PREDICTED, ALARMS, UNUSED), (2791, 3080, 3092, 3488, 3496));
    }

    #[test]
    fn predictions_are_shown_as_the_command_line_does() {
        let mut tool = Tool::NONE;
        assert_eq!(predictions(&tool), "");
        setup(1, 0, 60, 120, &mut tool);
        assert_eq!(predictions(&tool), "  time 0 60 120\n");
        step(&mut tool, 3, 0, 0, b"AB", &[], &mut Reports::NONE.clone());
        tool.predictions.of[0].set_te(9);
        tool.predictions.clock = [0, 1, 0, 0];
        let record = "(record 1: 0200010000000009000000)";
        assert_eq!(predictions(&tool), format!("  time 256 60 120\n  predict 4142 2 - 9 {record}\n"));
    }

    #[test]
    fn alarms_are_shown_as_the_command_line_does() {
        let mut tool = Tool::NONE;
        assert_eq!(alarms(&tool), "");
        (tool.alarms[0].on, tool.alarms[3]) = (1, Alarm { on: 1, held: 1 });
        assert_eq!(alarms(&tool), "  alarm 1 1 0\n  alarm 4 1 1\n");
        assert!(bytes(&tool).ends_with("  alarm 4 1 1\n  and zeros to the end\n"));
        let fields: Vec<String> = (ALARMS - 1..=UNUSED).map(field).collect();
        assert_eq!((fields[0].as_str(), fields[1].as_str()), ("record 36 Te", "port 1 alarm"));
        assert_eq!(fields[6..], ["port 3 held", "port 4 alarm", "port 4 held", "unused"]);
    }
}
