//! P7's words in the plainest form: predictions are a list by name, which is read from the tool and
//! written back to it, and transitions are numbered as document 000 numbers them.

use independent::gen::{padded, Input};
use independent::requests::predict::Prediction;
use independent::requests::Tool;
use independent::{Plain, Report, Reports};

use crate::plain_wafers::plain_tp;

/// The words on soundness, clause by clause, where document 01's tool is sound.
pub fn plainly_sound(t: &Tool) -> bool {
    let p = &t.predictions;
    let seconds = |time: [u8; 4]| u32::from_le_bytes(time);
    seconds(p.setting) <= 86_400
        && seconds(p.timeout) <= 86_400
        && p.of.iter().enumerate().all(|(i, p)| {
            if t.base.places > 0 || i >= t.base.count as usize {
                return p.bytes().iter().all(|&byte| byte == 0);
            }
            let c = &t.base.carrier[i];
            let ready = c.port > 0 && t.base.port[c.port as usize - 1].transfer == 2;
            // Every field is in its range, and a time that isn't there is 0.
            (1..=6).contains(&p.state)
                && p.has_tp <= 1
                && p.has_te <= 1
                && (p.has_tp == 1 || seconds(p.tp) == 0)
                && (p.has_te == 1 || seconds(p.te) == 0)
                // Only a carrier at a port has left WAITING FOR CARRIER.
                && (p.state == 2 || c.place == 1)
                // None is PREDICTED or ABORTED with its port READY TO UNLOAD.
                && !([4, 5].contains(&p.state) && ready)
        })
}

/// A carrier's prediction, and what it is told by.
struct Foretold {
    name: [u8; 16],
    state: u8,
    tp: Option<u64>,
    te: Option<u64>,
    ready: bool,
}

/// All predictions in record order, and the turns that an input makes.
struct Plainly {
    now: u64,
    setting: u64,
    timeout: u64,
    all: Vec<Foretold>,
    turns: Vec<([u8; 16], u8, u8)>,
}

/// The two states of a transition. An abort from WAITING FOR PREDICTION has the states of 27.
fn states(transition: u32) -> (u8, u8) {
    match transition {
        23 => (2, 3),
        24 => (3, 4),
        25 => (4, 6),
        26 => (2, 1),
        27 => (3, 5),
        28 => (4, 5),
        29 => (5, 6),
        _ => panic!("no transition {transition}"),
    }
}

fn seconds(time: [u8; 4], there: u8) -> Option<u64> {
    (there == 1).then(|| u32::from_le_bytes(time) as u64)
}

impl Plainly {
    /// What a tool foretells of the records of another, which follows it.
    fn read(before: &Tool, after: &Tool) -> Plainly {
        let p = &before.predictions;
        let find = |name| before.base.carriers().iter().position(|c| c.name == name);
        let of = |c: &independent::Carrier| {
            let old = find(c.name).map_or(Prediction::NONE, |i| p.of[i]);
            Foretold {
                name: c.name,
                state: old.state,
                tp: seconds(old.tp, old.has_tp),
                te: seconds(old.te, old.has_te),
                ready: c.place == 1 && after.base.port[c.port as usize - 1].transfer == 2,
            }
        };
        Plainly {
            now: seconds(p.clock, 1).unwrap(),
            setting: seconds(p.setting, 1).unwrap(),
            timeout: seconds(p.timeout, 1).unwrap(),
            all: after.base.carriers().iter().map(of).collect(),
            turns: Vec::new(),
        }
    }

    fn write(&self, after: &mut Tool, reports: &mut Reports) {
        let time = |time: Option<u64>| u32::try_from(time.unwrap_or(0)).unwrap().to_le_bytes();
        after.predictions.clock = time(Some(self.now));
        after.predictions.of.fill(Prediction::NONE);
        for (to, f) in after.predictions.of.iter_mut().zip(&self.all) {
            let (has_tp, has_te) = (f.tp.is_some() as u8, f.te.is_some() as u8);
            *to = Prediction { state: f.state, has_tp, has_te, tp: time(f.tp), te: time(f.te) };
        }
        for &(name, old, new) in &self.turns {
            reports.items[reports.count as usize] = Report { model: 8, port: 0, name, old, new };
            reports.count += 1;
        }
    }

    fn make(&mut self, i: usize, transition: u32) {
        let (old, new) = states(transition);
        assert_eq!(self.all[i].state, old);
        self.all[i].state = new;
        self.turns.push((self.all[i].name, old, new));
    }

    /// 25 and 29 come at once.
    fn make_ready(&mut self, i: usize) {
        match (self.all[i].state, self.all[i].ready) {
            (4, true) => self.make(i, 25),
            (5, true) => self.make(i, 29),
            _ => {}
        }
    }

    fn judge(&mut self) {
        for i in 0..self.all.len() {
            let Foretold { state, tp, te, .. } = self.all[i];
            let Some(tp) = tp.filter(|_| [3, 4].contains(&state)) else { continue };
            let te = te.or((self.now > tp).then_some(self.now));
            let abort = self.timeout != 0 && te.is_some_and(|te| te >= tp + self.timeout);
            match (state, abort) {
                (3, true) => self.make(i, 27),
                (_, true) => self.make(i, 28),
                (3, false) if tp as i64 - self.now as i64 <= self.setting as i64 => self.make(i, 24),
                _ => {}
            }
            self.make_ready(i);
        }
    }
}

/// The lowest number that inputs 31 to 35 are refused for, where `at` is the record that is named.
fn refusal(before: &Tool, i: &Input, p: &Plainly, at: Option<usize>) -> Option<u32> {
    let wrong = match (i.number, at.map(|at| &p.all[at])) {
        (31, _) => false,
        _ if before.base.places > 0 => true,
        (32 | 35, Some(f)) => f.state != 3 || f.tp.is_some(),
        (33, Some(f)) => f.tp.is_none(),
        (_, Some(f)) => f.state != 3,
        (_, None) => false,
    };
    let refusals = [
        (2, i.number != 31 && at.is_none()),
        (5, wrong),
        (11, (i.clock as u64) < p.now),
        (12, i.number == 35 && plain_tp(i.clock, &i.times()).is_none()),
    ];
    refusals.iter().find(|(_, applies)| *applies).map(|(refusal, _)| *refusal)
}

/// What inputs 31 to 35 give from a sound state, for a name and a number of wafers that are good; `None` for other
/// rows.
pub fn step(before: &Tool, i: &Input) -> Option<(u32, Tool, Reports)> {
    if !(31..=35).contains(&i.number) {
        return None;
    }
    let mut p = Plainly::read(before, before);
    let at = p.all.iter().position(|f| f.name == padded(if i.number == 31 { &[] } else { &i.name }));
    if let Some(refusal) = refusal(before, i, &p, at) {
        return Some((refusal, *before, Reports::NONE));
    }
    p.now = i.clock as u64;
    match (i.number, at) {
        (32, Some(at)) => p.all[at].tp = Some(i.time as u64),
        (33, Some(at)) => p.all[at].te = Some(i.time as u64),
        (34, Some(at)) => {
            p.make(at, 27);
            p.make_ready(at);
        }
        (35, Some(at)) => p.all[at].tp = plain_tp(i.clock, &i.times()),
        _ => {}
    }
    p.judge();
    let (mut after, mut reports) = (*before, Reports::NONE);
    p.write(&mut after, &mut reports);
    Some((0, after, reports))
}

/// The predictions after another row has been accepted, and the turns it makes, behind the other
/// reports.
pub fn after(before: &Tool, i: &Input, after: &mut Tool, reports: &mut Reports) {
    after.predictions = before.predictions;
    if before.base.places > 0 {
        return;
    }
    let mut p = Plainly::read(before, after);
    let is = |f: &Foretold, name: [u8; 16]| f.name == name;
    for (k, c) in before.base.carriers().iter().enumerate() {
        if !p.all.iter().any(|f| is(f, c.name)) {
            p.turns.push((c.name, before.predictions.of[k].state, 0));
        }
    }
    for f in p.all.iter_mut().filter(|f| f.state == 0) {
        f.state = 2;
        p.turns.push((f.name, 0, 2));
    }
    let named = [6, 21].contains(&i.number).then(|| padded(&i.name));
    if let Some(at) = named.and_then(|name| p.all.iter().position(|f| is(f, name) && f.state == 2)) {
        p.make(at, if p.setting == 0 { 26 } else { 23 });
        if i.number == 6 && p.setting != 0 {
            p.all[at].tp = Some(p.now);
            p.make(at, 24);
        }
    }
    (0..p.all.len()).for_each(|at| p.make_ready(at));
    p.write(after, reports);
}
