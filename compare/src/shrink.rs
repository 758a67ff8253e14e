//! The shortest script that still shows a difference.

use independent::gen::Input;
use independent::requests::alarms::Alarm;
use independent::requests::predict::Prediction;
use independent::requests::queue::{Request, MAX_REQUESTS};
use independent::requests::Tool;
use independent::Carrier;

use crate::laws::{shortened, unlawful};
use crate::machine::{Both, Outcome, SetUp};
use crate::pods::Pods;
use crate::script::Run;

/// After how many inputs of the run the programs differ, or are both against the documents:
/// 0 where they differ at the set-up.
pub fn differs_after(both: &Both, run: &Run) -> Option<usize> {
    let Some((_, mut tool)) = both.setup(run.setup) else {
        return Some(0);
    };
    let mut pods = Pods::at_setup();
    for (k, input) in run.inputs.iter().enumerate() {
        let lawful = both
            .step(&tool, input)
            .filter(|o| unlawful(&tool, input, o).is_none() && stays(both, &tool, o))
            .filter(|o| pods.note(input, o).is_none());
        match lawful {
            Some(o) => tool = o.tool,
            None => return Some(k + 1),
        }
    }
    None
}

/// A sound state is followed by a sound one.
fn stays(both: &Both, tool: &Tool, o: &Outcome) -> bool {
    both.sound(&o.tool) == Some(true) || both.sound(tool) != Some(true)
}

/// The run cut behind its first difference, if it has one.
fn cut(both: &Both, mut run: Run) -> Option<Run> {
    let length = differs_after(both, &run)?;
    run.inputs.truncate(length);
    Some(run)
}

/// Drops inputs, singly and together, while a difference stays; then takes the smallest set-up and the plainest
/// parts that still show one. In the end no one input and no two can be left out.
pub fn shortest(both: &Both, run: &Run) -> Run {
    let Some(mut best) = cut(both, run.clone()) else {
        return run.clone();
    };
    loop {
        let before = best.clone();
        drop_stretches(both, &mut best);
        drop_twos(both, &mut best);
        rename(both, &mut best);
        shrink_setup(both, &mut best);
        plainer_maps(both, &mut best);
        earlier(both, &mut best);
        plainer_inputs(both, &mut best);
        if best == before {
            return best;
        }
    }
}

/// Takes the candidate if it still shows a difference.
fn take(both: &Both, best: &mut Run, candidate: Run) -> bool {
    match cut(both, candidate) {
        Some(run) => {
            *best = run;
            true
        }
        None => false,
    }
}

/// Stretches of half the run, then of a quarter, and so on down to single inputs.
fn drop_stretches(both: &Both, best: &mut Run) {
    let mut size = best.inputs.len().div_ceil(2);
    while size > 0 {
        let mut at = 0;
        while at < best.inputs.len() {
            let mut candidate = best.clone();
            candidate.inputs.drain(at..(at + size).min(best.inputs.len()));
            if !take(both, best, candidate) {
                at += size;
            }
        }
        size /= 2;
    }
}

/// Two inputs that only together can be left out, as a LoadStart and its LoadFail.
fn drop_twos(both: &Both, best: &mut Run) {
    let mut first = 0;
    while first < best.inputs.len() {
        let shorter = (first + 1..best.inputs.len()).any(|second| {
            let mut candidate = best.clone();
            candidate.inputs.remove(second);
            candidate.inputs.remove(first);
            take(both, best, candidate)
        });
        if !shorter {
            first += 1;
        }
    }
}

fn shrink_setup(both: &Both, best: &mut Run) {
    let with = |best: &Run, setup: SetUp| Run { setup, ..best.clone() };
    let was = best.setup;
    for ports in 1..was.ports.min(5) {
        if take(both, best, with(best, SetUp { ports, ..best.setup })) {
            break;
        }
    }
    for places in 0..was.places.min(17) {
        if take(both, best, with(best, SetUp { places, ..best.setup })) {
            break;
        }
    }
    for setting in smaller(was.setting) {
        if take(both, best, with(best, SetUp { setting, ..best.setup })) {
            break;
        }
    }
    for timeout in smaller(was.timeout) {
        if take(both, best, with(best, SetUp { timeout, ..best.setup })) {
            break;
        }
    }
}

/// A port by a lower number, and names by A, B and so on as they come, in all inputs at once. Blanks stay behind them.
fn rename(both: &Both, best: &mut Run) {
    for from in 2..=4 {
        for to in 1..from {
            let mut candidate = best.clone();
            let named = candidate.inputs.iter_mut().filter(|input| input.port == from);
            if named.map(|input| input.port = to).count() > 0 && take(both, best, candidate) {
                break;
            }
        }
    }
    let mut names: Vec<&[u8]> = Vec::new();
    for name in best.inputs.iter().map(|input| shortened(&input.name)).filter(|name| !name.is_empty()) {
        if !names.contains(&name) {
            names.push(name);
        }
    }
    let mut candidate = best.clone();
    for input in &mut candidate.inputs {
        let name = shortened(&input.name);
        if let Some(at) = names.iter().position(|known| *known == name) {
            let length = name.len();
            input.name.splice(..length, [b'A' + at as u8 % 26]);
        }
    }
    take(both, best, candidate);
}

/// A 1 at one slot of all maps at once: those that agree there go on to agree.
fn plainer_maps(both: &Both, best: &mut Run) {
    for slot in 0..25 {
        let mut candidate = best.clone();
        let maps =
            candidate.inputs.iter_mut().map(|input| &mut input.codes).filter(|codes| codes.len() == 25);
        if maps.filter(|map| map[slot] > 1).map(|map| map[slot] = 1).count() > 0 {
            take(both, best, candidate);
        }
    }
}

/// Smaller numbers, the smallest first.
fn smaller(number: u32) -> Vec<u32> {
    let least = if number <= 100 { number.saturating_sub(1) } else { number };
    let all = [0, 1, 2, 10, number / 1000, number / 2, least];
    all.into_iter().filter(|&one| one < number).collect()
}

/// A later time made smaller in all inputs at once: those that are near each other stay so.
fn earlier(both: &Both, best: &mut Run) {
    let all = best.inputs.iter().flat_map(|i| [i.clock, i.time]);
    let Some(most) = all.max() else { return };
    for by in [most, most / 2, most / 10] {
        let mut candidate = best.clone();
        for input in &mut candidate.inputs {
            input.clock = input.clock.saturating_sub(by);
            input.time = input.time.saturating_sub(by);
        }
        if by > 0 && candidate != *best && take(both, best, candidate) {
            return;
        }
    }
}

/// The same input with one part left out or made small.
fn plainer(input: &Input) -> Vec<Input> {
    let with = |port, value, name: &[u8], codes: &[u8]| Input {
        port,
        value,
        name: name.to_vec(),
        codes: codes.to_vec(),
        ..input.clone()
    };
    let clocks = smaller(input.clock).into_iter().map(|clock| Input { clock, ..input.clone() });
    let times = smaller(input.time).into_iter().map(|time| Input { time, ..input.clone() });
    let (port, value, name, codes) = (input.port, input.value, &input.name[..], &input.codes[..]);
    let all = [
        with(port, value, name, &[]),
        with(port, value, name, &codes[..codes.len() / 2]),
        with(port, value, name, &vec![0; codes.len()]),
        with(port, value, name, &vec![1; codes.len()]),
        with(port, value, &[], codes),
        with(port, value, b"A", codes),
        with(port, value, shortened(name), codes),
        with(port, value, &name[..name.len() / 2], codes),
        with(port, value, &name[..name.len().saturating_sub(1)], codes),
        with(0, value, name, codes),
        with(1, value, name, codes),
        with(port, 0, name, codes),
        with(port, 1, name, codes),
    ];
    let size = |i: &Input| {
        let sum: u32 = i.codes.iter().map(|&code| code as u32).sum();
        let times: usize = i.wafers.iter().map(|&bits| plainness(bits)).sum();
        ((i.wafers.len(), times), i.codes.len(), sum, i.name.len(), i.port, i.value, i.clock, i.time)
    };
    let wafers = fewer_wafers(&input.wafers).into_iter().map(|wafers| Input { wafers, ..input.clone() });
    all.into_iter().chain(clocks).chain(times).chain(wafers).filter(|one| size(one) < size(input)).collect()
}

/// Times that are plain, the plainest first: none, a second, 1/1024, and the longest.
const PLAIN: [u64; 4] = [0, 0x3FF0_0000_0000_0000, 0x3F50_0000_0000_0000, 0x412F_FFFF_FF80_0000];

fn plainness(time: u64) -> usize {
    PLAIN.iter().position(|&plain| plain == time).unwrap_or(PLAIN.len())
}

/// The times without some wafers, without all that are 0, and with a plain one for each.
fn fewer_wafers(times: &[u64]) -> Vec<Vec<u64>> {
    let mut filled: Vec<u64> = times.iter().copied().filter(|&time| time != 0).collect();
    filled.resize(filled.len() + (filled.len() + times.len()) % 2, 0);
    let mut all = vec![Vec::new(), times[..times.len() / 4 * 2].to_vec(), filled];
    for at in (0..times.len()).step_by(2) {
        let mut fewer = times.to_vec();
        fewer.drain(at..(at + 2).min(times.len()));
        all.push(fewer);
    }
    for at in 0..times.len() {
        for plain in PLAIN {
            let mut plainer = times.to_vec();
            plainer[at] = plain;
            all.push(plainer);
        }
    }
    all
}

fn plainer_inputs(both: &Both, best: &mut Run) {
    for at in 0..best.inputs.len() {
        // A candidate may be cut shorter than the place that is looked at.
        while let Some(input) = best.inputs.get(at) {
            let better = plainer(input).into_iter().any(|input| {
                let mut candidate = best.clone();
                candidate.inputs[at] = input;
                take(both, best, candidate)
            });
            if !better {
                break;
            }
        }
    }
}

/// The state without request `k`; sound if the state was. Its port stays reserved.
fn without_request(tool: &Tool, k: usize) -> Tool {
    let mut tool = *tool;
    tool.queue.request.copy_within(k + 1.., k);
    tool.queue.request[MAX_REQUESTS - 1] = Request::UNUSED;
    tool.queue.count = tool.queue.count.saturating_sub(1);
    tool
}

/// The state without record `i`, its tie, its map, its prediction and its request; sound if the state was.
fn without(tool: &Tool, i: usize) -> Tool {
    let name = tool.base.carrier[i].name;
    let asked = tool.queue.requests().iter().position(|r| r.name == name);
    let mut tool = asked.map_or(*tool, |k| without_request(tool, k));
    let base = &mut tool.base;
    let port = base.carrier[i].port as usize;
    if let Some(port) = port.checked_sub(1).and_then(|p| base.port.get_mut(p)) {
        port.tie = [0; 16];
    }
    let count = base.count as usize;
    base.carrier.copy_within(i + 1..count, i);
    base.carrier[count - 1] = Carrier::UNUSED;
    base.count -= 1;
    tool.maps.copy_within(i + 1..count, i);
    tool.maps[count - 1] = [0; 25];
    tool.predictions.of.copy_within(i + 1..count, i);
    tool.predictions.of[count - 1] = Prediction::NONE;
    tool
}

/// A state with fewer requests, records, maps and alarms that shows a difference still.
pub fn smallest(tool: &Tool, differs: impl Fn(&Tool) -> bool) -> Tool {
    let mut best = *tool;
    for k in (0..MAX_REQUESTS).rev() {
        let candidate = without_request(&best, k);
        if best.queue.request[k] != Request::UNUSED && differs(&candidate) {
            best = candidate;
        }
    }
    let mut i = (best.base.count as usize).min(best.base.carrier.len());
    while i > 0 {
        i -= 1;
        if best.base.count as usize <= best.base.carrier.len() {
            let candidate = without(&best, i);
            if differs(&candidate) {
                best = candidate;
            }
        }
    }
    let plainer = (0..best.maps.len()).map(Plainer::Map).chain((0..best.alarms.len()).map(Plainer::Alarm));
    for plainer in plainer {
        let candidate = plainer.of(&best);
        if differs(&candidate) {
            best = candidate;
        }
    }
    best
}

/// What a state can do without: the map of a record, or the alarm of a port with what is held there.
enum Plainer {
    Map(usize),
    Alarm(usize),
}

impl Plainer {
    fn of(&self, tool: &Tool) -> Tool {
        let mut tool = *tool;
        match *self {
            Plainer::Map(i) => tool.maps[i] = [0; 25],
            Plainer::Alarm(p) => tool.alarms[p] = Alarm::NONE,
        }
        tool
    }
}

/// A text without the bytes that can be left out, many at a time and then singly, and with an A for each that can be
/// one.
pub fn shortest_text(text: &[u8], differs: impl Fn(&[u8]) -> bool) -> Vec<u8> {
    let mut best = text.to_vec();
    let mut size = best.len().div_ceil(2);
    while size > 0 {
        for at in (0..best.len().div_ceil(size)).rev().map(|stretch| stretch * size) {
            let mut candidate = best.clone();
            candidate.drain(at..(at + size).min(best.len()));
            if differs(&candidate) {
                best = candidate;
            }
        }
        size /= 2;
    }
    for at in 0..best.len() {
        let was = std::mem::replace(&mut best[at], b'A');
        if !differs(&best) {
            best[at] = was;
        }
    }
    best
}

/// A single input that is plainer and shows a difference still.
pub fn plainest(input: &Input, differs: impl Fn(&Input) -> bool) -> Input {
    let mut best = input.clone();
    while let Some(better) = plainer(&best).into_iter().find(|i| differs(i)) {
        best = better;
    }
    best
}
