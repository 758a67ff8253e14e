//! The tool's fields, byte by byte: which is out of its range, and which byte isn't zero though nothing uses it.
use crate::numbers::place::BUFFER;
use hawsermole::{Carrier, Port, Tool, CARRIER_BYTES, PORTS, RECORDS, REQUESTS, SECONDS_MOST, SLOTS};

const HEAD_BYTES: usize = 3;
const PORT_BYTES: usize = 22;
const CARRIERS_START: usize = HEAD_BYTES + PORTS * PORT_BYTES;
const MAPS_START: usize = CARRIERS_START + RECORDS * CARRIER_BYTES;
const QUEUE_START: usize = MAPS_START + RECORDS * SLOTS;
const REQUESTS_START: usize = QUEUE_START + 1;
const REQUEST_BYTES: usize = NAME_BYTES + 2;
const CLOCK_START: usize = REQUESTS_START + REQUESTS * REQUEST_BYTES;
const SETTING_START: usize = CLOCK_START + TIME_BYTES;
const TIMEOUT_START: usize = SETTING_START + TIME_BYTES;
const PREDICTIONS_START: usize = TIMEOUT_START + TIME_BYTES;
const HANDS_START: usize = PREDICTIONS_START + RECORDS * PREDICTION_BYTES;
const UNUSED_START: usize = HANDS_START + PORTS * HANDS_BYTES;
const HANDS_BYTES: usize = 2;
const TIME_BYTES: usize = 4;
const PREDICTION_BYTES: usize = 3 + 2 * TIME_BYTES;
const NAME_BYTES: usize = 16;
const PLACES: u8 = 16;

/// A field of one byte: where it stands, what it is, its least and its greatest value.
struct Field(usize, &'static str, u8, u8);

impl Field {
    /// `transfer state 7, not 0 to 3 (byte 3)`
    fn outside(self, tool: &Tool) -> Option<String> {
        let Field(byte, what, least, most) = self;
        let value = tool.as_bytes()[byte];
        let range = if least == most { format!("{least}") } else { format!("{least} to {most}") };
        let odd = !(least..=most).contains(&value);
        odd.then(|| format!("{what} {value}, not {range} (byte {byte})"))
    }
}

/// The first field that is out of its range: `port 1: transfer state 7, not 0 to 3 (byte 3)`.
pub fn out_of_range(tool: &Tool) -> Option<String> {
    let ports = || tool.ports().find_map(|port| of_port(tool, &port));
    let carriers =
        || (1..).zip(tool.carriers()).find_map(|(record, carrier)| of_carrier(tool, record, &carrier));
    let maps = || (1..=tool.records().len()).find_map(|record| of_expected_map(tool, record));
    let requests = || of_queue(tool);
    let times = || of_times(tool);
    let predictions = || (1..=tool.predictions().count()).find_map(|record| of_prediction(tool, record));
    let of_01 = counts(tool).or_else(ports).or_else(carriers);
    let hands = || tool.ports().find_map(|port| of_hands(tool, &port));
    of_01.or_else(maps).or_else(requests).or_else(times).or_else(predictions).or_else(hands)
}

fn counts(tool: &Tool) -> Option<String> {
    let counts = [("ports", 1, PORTS as u8), ("buffer places", 0, PLACES), ("records", 0, RECORDS as u8)];
    let fields = (0..).zip(counts).map(|(byte, (what, least, most))| Field(byte, what, least, most));
    fields.into_iter().find_map(|field| field.outside(tool))
}

fn of_port(tool: &Tool, port: &Port) -> Option<String> {
    let start = HEAD_BYTES + PORT_BYTES * (usize::from(port.number) - 1);
    let tie = start + 3;
    let name = &tool.as_bytes()[tie..tie + NAME_BYTES];
    let odd = !zeros(name) && !holds_name(name);
    let odd = odd.then(|| format!("tied to what is no name (bytes {tie} to {})", tie + NAME_BYTES - 1));
    let fields = [
        (start, "transfer state", 3),
        (start + 1, "access mode", 1),
        (start + 2, "reserved", 1),
        (start + 19, "movement", 2),
        (start + 20, "pod", 1),
        (start + 21, "tag", 2),
    ];
    let mut fields = fields.into_iter().map(|(byte, what, most)| Field(byte, what, 0, most));
    let odd = fields.find_map(|field| field.outside(tool)).or(odd)?;
    Some(format!("port {}: {odd}", port.number))
}

fn of_carrier(tool: &Tool, record: usize, carrier: &Carrier) -> Option<String> {
    let start = CARRIERS_START + CARRIER_BYTES * (record - 1);
    let name = &tool.as_bytes()[start..start + NAME_BYTES];
    let odd = (!holds_name(name)).then(|| format!("no name (bytes {start} to {})", start + NAME_BYTES - 1));
    let odd = odd.or_else(|| fields(tool, start, carrier).find_map(|field| field.outside(tool)))?;
    Some(format!("record {record}: {odd}"))
}

/// The fields of a record after its name. The spot is a buffer place for a carrier in the buffer, and 0 for any other.
fn fields(tool: &Tool, start: usize, carrier: &Carrier) -> impl Iterator<Item = Field> {
    let (least, most) = if carrier.place == BUFFER { (1, tool.places()) } else { (0, 0) };
    let seats = [
        ("place", 0, BUFFER),
        ("buffer place", least, most),
        ("tied port", 0, tool.ports().len() as u8),
        ("open", 0, 1),
        ("cancelled", 0, 1),
        ("came out", 0, 1),
    ];
    let codes = [("slot map code", 0, 5); SLOTS];
    let statuses = ["ID status", "slot map status", "accessing status"].map(|what| (what, 1, 4));
    let fields = seats.into_iter().chain(codes).chain(statuses);
    (start + NAME_BYTES..).zip(fields).map(|(byte, (what, least, most))| Field(byte, what, least, most))
}

/// No map, or 25 codes, each 1 or 3.
fn of_expected_map(tool: &Tool, record: usize) -> Option<String> {
    let start = MAPS_START + SLOTS * (record - 1);
    let map = &tool.as_bytes()[start..start + SLOTS];
    let odd = map.iter().position(|code| ![1, 3].contains(code)).filter(|_| !zeros(map))?;
    let (slot, code, byte) = (odd + 1, map[odd], start + odd);
    Some(format!("record {record}: code {code} at slot {slot} of its expected map, not 1 or 3 (byte {byte})"))
}

/// The number of requests, and of each its port and whether it is started. Its name is a carrier's, or is told so.
fn of_queue(tool: &Tool) -> Option<String> {
    let count = Field(QUEUE_START, "requests of CarrierOut", 0, REQUESTS as u8);
    let request = |place: usize| {
        let port = REQUESTS_START + REQUEST_BYTES * place + NAME_BYTES;
        let ports = tool.ports().len() as u8;
        let mut fields = [Field(port, "port", 1, ports), Field(port + 1, "started", 0, 1)].into_iter();
        let odd = fields.find_map(|field| field.outside(tool))?;
        Some(format!("request {}: {odd}", place + 1))
    };
    count.outside(tool).or_else(|| (0..tool.requests().len()).find_map(request))
}

/// Every number is a clock; setting time and timeout have their most.
fn of_times(tool: &Tool) -> Option<String> {
    let times = [("setting time", tool.setting(), SETTING_START), ("timeout", tool.timeout(), TIMEOUT_START)];
    let (what, seconds, byte) = times.into_iter().find(|(_, seconds, _)| *seconds > SECONDS_MOST)?;
    Some(format!("{what} {seconds}, not 0 to {SECONDS_MOST} ({})", bytes_of_time(byte)))
}

/// The state, whether there is a Tp and a Te, and zeros where there is none.
fn of_prediction(tool: &Tool, record: usize) -> Option<String> {
    let start = PREDICTIONS_START + PREDICTION_BYTES * (record - 1);
    let fields = [("prediction state", 1, 6), ("has Tp", 0, 1), ("has Te", 0, 1)];
    let fields = (start..).zip(fields).map(|(byte, (what, least, most))| Field(byte, what, least, most));
    let times = [("Tp", start + 1, start + 3), ("Te", start + 2, start + 3 + TIME_BYTES)];
    let bytes = tool.as_bytes();
    let odd = |flag: usize, time: usize| bytes[flag] == 0 && !zeros(&bytes[time..time + TIME_BYTES]);
    let odd = times.into_iter().find(|&(_, flag, time)| odd(flag, time));
    let odd = odd.map(|(what, _, time)| format!("a {what} though it has none ({})", bytes_of_time(time)));
    let odd = fields.into_iter().find_map(|field| field.outside(tool)).or(odd)?;
    Some(format!("record {record}: {odd}"))
}

/// Alarm and held pod of a port.
fn of_hands(tool: &Tool, port: &Port) -> Option<String> {
    let start = HANDS_START + HANDS_BYTES * (usize::from(port.number) - 1);
    let mut fields = [Field(start, "alarm", 0, 1), Field(start + 1, "held", 0, 1)].into_iter();
    let odd = fields.find_map(|field| field.outside(tool))?;
    Some(format!("port {}: {odd}", port.number))
}

/// `bytes 3084 to 3087`
fn bytes_of_time(start: usize) -> String {
    format!("bytes {start} to {}", start + TIME_BYTES - 1)
}

/// The first byte that isn't zero though nothing uses it.
pub fn unused(tool: &Tool) -> Option<String> {
    let (bytes, ports, records) = (tool.as_bytes(), tool.ports().len(), tool.records().len());
    let (requests, predictions) = (tool.requests().len(), tool.predictions().count());
    let unused = [
        (HEAD_BYTES + PORT_BYTES * ports..CARRIERS_START, "no port"),
        (CARRIERS_START + CARRIER_BYTES * records..MAPS_START, "no record"),
        (MAPS_START + SLOTS * records..QUEUE_START, "no record's map"),
        (REQUESTS_START + REQUEST_BYTES * requests..CLOCK_START, "no request"),
        (PREDICTIONS_START + PREDICTION_BYTES * predictions..HANDS_START, "no record's prediction"),
        (HANDS_START + HANDS_BYTES * ports..UNUSED_START, "no port's alarm"),
        (UNUSED_START..bytes.len(), "nothing"),
    ];
    unused.into_iter().filter(|(range, _)| !zeros(&bytes[range.clone()])).find_map(|(mut range, of)| {
        let byte = range.find(|&byte| bytes[byte] != 0)?;
        Some(format!("byte {byte} is {}, and part of {of}", bytes[byte]))
    })
}

fn zeros(bytes: &[u8]) -> bool {
    bytes.iter().fold(0, |any, byte| any | byte) == 0
}

/// 1 to 16 bytes of 0x21 to 0x7E, and zeros after them.
fn holds_name(bytes: &[u8]) -> bool {
    let length = bytes.iter().position(|&byte| byte == 0).unwrap_or(bytes.len());
    let (name, rest) = bytes.split_at(length);
    !name.is_empty() && name.iter().all(|byte| (0x21..=0x7E).contains(byte)) && zeros(rest)
}
