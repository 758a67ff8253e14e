//! What tests run on: every state that runs of a small tool reach, the states of a long run, and odd ones.
use crate::numbers::row;
use crate::script::Sent;
use hawsermole::{Argument, Tool, Wafer, REQUESTS, ROWS, SLOTS, TOOL_BYTES, WAFERS};
use std::collections::BTreeSet;

/// Numbers that look like chance and are the same in every test.
pub struct Dice(u64);

impl Dice {
    pub fn new(seed: u64) -> Dice {
        Dice(seed.wrapping_mul(2).wrapping_add(1))
    }

    /// 0 to one less than the number of sides.
    pub fn below(&mut self, sides: usize) -> usize {
        self.0 = self.0.wrapping_mul(6_364_136_223_846_793_005).wrapping_add(1_442_695_040_888_963_407);
        (self.0 >> 33) as usize % sides
    }

    pub fn one<'a, T>(&mut self, of: &'a [T]) -> &'a T {
        &of[self.below(of.len())]
    }
}

/// What an argument may be: a port, a second number, a name, codes.
type Choice = Box<dyn Fn(&mut Sent)>;

fn numbers(numbers: impl IntoIterator<Item = u32>, set: fn(&mut Sent, u32)) -> Vec<Choice> {
    let choice = |number| Box::new(move |sent: &mut Sent| set(sent, number)) as Choice;
    numbers.into_iter().map(choice).collect()
}

fn texts(texts: &[&[u8]], set: fn(&mut Sent, Vec<u8>)) -> Vec<Choice> {
    let choice = |text: &&[u8]| {
        let text = text.to_vec();
        Box::new(move |sent: &mut Sent| set(sent, text.clone())) as Choice
    };
    texts.iter().map(choice).collect()
}

/// So many wafers of the same times.
fn wafers(lots: &[(usize, f64, f64)]) -> Vec<Choice> {
    let choice = |&(count, process, handling): &(usize, f64, f64)| {
        Box::new(move |sent: &mut Sent| sent.wafers = vec![Wafer { process, handling }; count]) as Choice
    };
    lots.iter().map(choice).collect()
}

/// Clocks and times that meet all that is judged, with this setting time and timeout: a carrier that is ready at 1 is
/// PREDICTED at once, and late from 3 on; one that is ready at 4 waits until 3.
const CLOCKS: [u32; 3] = [0, 1, 3];
const TIMES: [u32; 2] = [1, 4];
/// Wafers that are ready at once, and after two seconds and a half.
const LOTS: [(usize, f64, f64); 2] = [(0, 0.0, 0.0), (2, 1.0, 0.25)];
/// Too many, and times that are no good.
const ODD_LOTS: [(usize, f64, f64); 4] =
    [(WAFERS + 1, 0.0, 0.0), (1, 0.1, -0.0), (WAFERS, 0.0, -1.0), (2, f64::NAN, f64::INFINITY)];

/// A tool with the times above.
pub fn set_up(ports: u32, places: u32) -> Tool {
    Tool::setup_with_times(ports, places, 1, 2).unwrap()
}

/// Every input to a tool: each row with each choice of its arguments. `odd` adds what is outside the ranges.
pub fn inputs(ports: u32, places: u32, names: &[&[u8]], odd: bool) -> Vec<Sent> {
    let beyond = u32::from(odd);
    let odd_texts: &[&[u8]] = if odd { &[b"", b"  ", b"A B", b"A  ", &[b'A'; 17]] } else { &[b""] };
    let (threes, sixes): (&[u8], &[u8]) = (&[3; SLOTS], &[6; SLOTS]);
    let odd_codes: &[&[u8]] = if odd { &[sixes, &[3; 24]] } else { &[] };
    let (codes, maps) = ([&[threes], odd_codes].concat(), [&[b"" as &[u8]], odd_codes].concat());
    let names = [names, odd_texts].concat();
    let lots = [&LOTS[..], if odd { &ODD_LOTS } else { &[] }].concat();
    let mut every = Vec::new();
    for row in &ROWS {
        let mut sent = vec![Sent { number: row.number, ..Sent::default() }];
        for argument in row.arguments {
            let choices = match argument {
                Argument::Port | Argument::PortOrNone => {
                    numbers(0..=ports + beyond, |sent, port| sent.port = port)
                }
                Argument::Place => numbers(0..=places + beyond, |sent, value| sent.value = value),
                Argument::Access | Argument::Service | Argument::End | Argument::Start => {
                    numbers(0..=1 + beyond, |sent, value| sent.value = value)
                }
                Argument::Clock => numbers(CLOCKS, |sent, clock| sent.clock = clock),
                Argument::Tp | Argument::Te => numbers(TIMES, |sent, time| sent.time = time),
                Argument::Name | Argument::NameOrNone => texts(&names, |sent, name| sent.name = name),
                Argument::Codes => texts(&codes, |sent, codes| sent.codes = codes),
                Argument::MapOrNone => texts(&maps, |sent, codes| sent.codes = codes),
                Argument::Wafers => wafers(&lots),
            };
            sent = with_each(&sent, &choices);
        }
        every.extend(sent);
    }
    every
}

fn with_each(sent: &[Sent], choices: &[Choice]) -> Vec<Sent> {
    let with = |sent: &Sent, choice: &Choice| {
        let mut sent = sent.clone();
        choice(&mut sent);
        sent
    };
    sent.iter().flat_map(|sent| choices.iter().map(move |choice| with(sent, choice))).collect()
}

/// The states that runs of these inputs reach from a tool, in the order in which they are met, but no more than so many.
pub fn reached(first: Tool, inputs: &[Sent], most: usize) -> Vec<Tool> {
    let mut states = vec![first];
    let mut met = BTreeSet::from([key(&states[0])]);
    let mut next = 0;
    while next < states.len() && states.len() < most {
        for sent in inputs {
            let mut tool = states[next].clone();
            if tool.step_parts(&sent.parts()).is_ok() && met.insert(key(&tool)) {
                states.push(tool);
            }
        }
        next += 1;
    }
    states
}

/// Where the queue begins: the number of requests.
const QUEUE: usize = 2791;
/// Where the clock stands, and the first prediction.
const CLOCK: usize = 3080;
const PREDICTIONS: usize = 3092;
/// Where the ports' alarms stand, two bytes each.
const HANDS: usize = 3488;

/// The bytes of a tool that its ports with their alarms, its times, its first few records with their predictions and
/// its first few requests use.
fn key(tool: &Tool) -> Vec<u8> {
    let bytes = tool.as_bytes();
    let requests = [&bytes[1891..1966], &bytes[QUEUE..QUEUE + 55], &bytes[CLOCK..PREDICTIONS + 33]].concat();
    [&bytes[..91], &bytes[HANDS..HANDS + 8], tool.records().concat().as_slice(), &requests].concat()
}

/// Rows that take back, turn away or let go: drawn less often, so that a run fills its tool.
const BACKWARD: [u32; 10] = [2, 4, 6, 10, 12, 15, 24, 26, 29, 30];

/// The states of one long run. Its clock goes on, and the times of its inputs with it; in a tool with a buffer, which
/// predicts nothing, it is the clock alone. Wafers lead where a predicted time does, and are left out. Three of four pods
/// are moved by whom their port is for.
pub fn long_run(ports: u32, places: u32, inputs: &[Sent], steps: usize, dice: &mut Dice) -> Vec<Tool> {
    let mut tool = set_up(ports, places);
    let mut states = Vec::new();
    let last = if places == 0 { row::NO_PREDICTION } else { row::CLOCK };
    let does = |sent: &&Sent| sent.number <= last || sent.number == row::CONTINUE;
    let inputs: Vec<&Sent> = inputs.iter().filter(does).collect();
    for step in 0..steps {
        let mut sent = (*dice.one(&inputs)).clone();
        let day = step as u32 / 50 * 5;
        (sent.clock, sent.time) = (sent.clock + day, sent.time + day);
        if [row::LOAD_START, row::UNLOAD_START].contains(&sent.number) && dice.below(4) > 0 {
            sent.value = whom_it_is_for(&tool, sent.port);
        }
        let drawn = !BACKWARD.contains(&sent.number) || dice.below(8) == 0;
        if drawn && tool.step_parts(&sent.parts()).is_ok() {
            states.push(tool.clone());
        }
    }
    states
}

/// Who starts at a port without an alarm.
fn whom_it_is_for(tool: &Tool, port: u32) -> u32 {
    tool.ports().find(|own| u32::from(own.number) == port).map_or(0, |own| own.access.into())
}

/// The tool with some of its bytes changed: any, or fields in their ranges, so that it may be sound and odd.
pub fn damaged(tool: &Tool, dice: &mut Dice) -> Tool {
    let mut bytes = *tool.as_bytes();
    for _ in 0..1 + dice.below(3) {
        match dice.below(9) {
            0 => bytes[dice.below(TOOL_BYTES)] = dice.below(256) as u8,
            1 => bytes[1891 + dice.below(75)] = dice.below(5) as u8,
            2 => change_port(&mut bytes, 3 + 22 * dice.below(tool.ports().len()), dice),
            3 | 7 if tool.requests().len() > 0 => change_request(&mut bytes, tool, dice),
            3 | 4 | 7 => add_request(&mut bytes, tool, dice),
            5 => change_prediction(&mut bytes, tool, dice),
            6 => bytes[HANDS + dice.below(2 * tool.ports().len() + 2).min(7)] = dice.below(3) as u8,
            _ if tool.records().is_empty() => bytes[91 + dice.below(50)] = 1,
            _ => change_record(&mut bytes, tool, dice),
        }
    }
    Tool::from_bytes(&bytes)
}

fn change_port(bytes: &mut [u8; TOOL_BYTES], start: usize, dice: &mut Dice) {
    let (offset, values) = *dice.one(&[(0, 4), (0, 4), (1, 2), (2, 2), (19, 3), (20, 2), (21, 3), (3, 128)]);
    bytes[start + offset] = dice.below(values) as u8;
}

/// A carrier of the table is queued, in the buffer or not, queued already or not, started or not.
fn add_request(bytes: &mut [u8; TOOL_BYTES], tool: &Tool, dice: &mut Dice) {
    let (requests, records) = (tool.requests().len(), tool.records().len());
    if requests == REQUESTS || records == 0 {
        return;
    }
    let (start, record) = (QUEUE + 1 + 18 * requests, 91 + 50 * dice.below(records));
    bytes.copy_within(record..record + 16, start);
    bytes[start + 16] = 1 + dice.below(tool.ports().len()) as u8;
    bytes[start + 17] = dice.below(2) as u8;
    bytes[QUEUE] = requests as u8 + 1;
}

fn change_request(bytes: &mut [u8; TOOL_BYTES], tool: &Tool, dice: &mut Dice) {
    let start = QUEUE + 1 + 18 * dice.below(tool.requests().len());
    let other = QUEUE + 1 + 18 * dice.below(tool.requests().len());
    let record = 91 + 50 * dice.below(tool.records().len().max(1));
    match dice.below(6) {
        0 => bytes.copy_within(record..record + 16, start),
        1 => bytes[start + 16] = dice.below(tool.ports().len() + 2) as u8,
        2 => bytes[start + 17] = dice.below(3) as u8,
        3 => bytes[QUEUE] = dice.below(REQUESTS + 2) as u8,
        4 => bytes.copy_within(other + 16..other + 18, start + 16),
        _ => bytes[start + dice.below(16)] = dice.below(128) as u8,
    }
}

fn change_prediction(bytes: &mut [u8; TOOL_BYTES], tool: &Tool, dice: &mut Dice) {
    let start = PREDICTIONS + 11 * dice.below(tool.records().len().max(1));
    match dice.below(5) {
        0 | 1 => bytes[start] = dice.below(8) as u8,
        2 => bytes[start + 1 + dice.below(2)] = dice.below(3) as u8,
        3 => bytes[start + 3 + dice.below(8)] = dice.below(5) as u8,
        _ => bytes[CLOCK + dice.below(12)] = dice.below(4) as u8,
    }
}

fn change_record(bytes: &mut [u8; TOOL_BYTES], tool: &Tool, dice: &mut Dice) {
    let (places, ports, records) = (usize::from(tool.places()), tool.ports().len(), tool.records().len());
    let start = 91 + 50 * dice.below(records);
    let other = 91 + 50 * dice.below(records);
    match dice.below(6) {
        0 => bytes.copy_within(other..other + 16, start),
        1 => bytes[start + 18] = dice.below(ports + 1) as u8,
        2 => (bytes[start + 16], bytes[start + 17]) = (2, dice.below(places + 1) as u8),
        3 => (bytes[start + 16], bytes[start + 17]) = (dice.below(2) as u8, 0),
        4 => bytes[start + 19 + dice.below(3)] = dice.below(2) as u8,
        _ => bytes[start + 47 + dice.below(3)] = 1 + dice.below(4) as u8,
    }
}
