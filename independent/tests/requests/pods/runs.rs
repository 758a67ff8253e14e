//! Long random runs from set-up: both sides are equal after every input, and counts that tempt aren't.

use independent::gen::requests::{counted, random_run_input, random_times, COUNTED};
use independent::gen::Rng;

use super::*;

const LENGTH: usize = 4_000;

/// What was met along the runs.
#[derive(Default)]
struct Met {
    events: [u64; COUNTED.len()],
    /// Moments with a pod at a port, with one in the buffer, and with both.
    at_ports: u64,
    in_buffer: u64,
    both: u64,
    most: usize,
}

impl Met {
    fn note(&mut self, before: &Tool, i: &Input, answer: u32, day: &Counted) {
        if let Some(k) = counted(before, i, answer) {
            self.events[k] += 1;
        }
        let (_, _, ports, buffer) = day.counts();
        self.at_ports += (ports > 0) as u64;
        self.in_buffer += (buffer > 0) as u64;
        self.both += (ports > 0 && buffer > 0) as u64;
        self.most = self.most.max(ports + buffer);
    }

    fn often_enough(&self) {
        for (what, times) in COUNTED.iter().zip(self.events) {
            println!("{what}: {times}");
        }
        for (what, times) in COUNTED.iter().zip(self.events) {
            assert!(times > 100, "{what}: {times}");
        }
        let Met { at_ports, in_buffer, both, most, .. } = *self;
        println!(
            "moments with a pod at a port {at_ports}, in the buffer {in_buffer}, both {both}; most {most}"
        );
        assert!(at_ports > 50_000 && in_buffer > 50_000 && both > 50_000 && most == 20);
    }
}

fn run(p: u32, b: u32, rng: &mut Rng, met: &mut Met) -> Counted {
    let (setting, timeout) = random_times(rng);
    let mut t = Tool::NONE;
    assert_eq!(setup(p, b, setting, timeout, &mut t), 0);
    let mut day = Counted::new(t);
    for _ in 0..LENGTH {
        let (before, i) = (day.tool, random_run_input(&day.tool, rng));
        let (answer, _) = day.give(i.clone());
        met.note(&before, &i, answer, &day);
    }
    day
}

/// Runs of tools of all sizes.
fn runs(seed: u64, met: &mut Met, mut look: impl FnMut(&Counted)) {
    let mut rng = Rng::new(seed);
    for p in 1..=4 {
        for b in [0, 1, 2, 5, 11, 16] {
            look(&run(p, b, &mut rng, met));
        }
    }
}

#[test]
fn both_sides_are_equal_after_every_input() {
    let mut met = Met::default();
    runs(111, &mut met, |day| {
        assert_eq!(plainly(&day.run), (day.pods.came(), day.pods.went()));
    });
    met.often_enough();
}

/// Counts that tempt: every LoadDone, no Continue, every start by hand held, every load in AUTO held, a pod that goes
/// into the buffer as one that went, and refused inputs too. The runs tell each of them from the right one.
#[test]
fn counts_that_tempt_are_wrong() {
    let number = |number: u32| move |(i, answer): &&(Input, u32)| i.number == number && *answer == 0;
    let mut wrong = [0; 6];
    runs(112, &mut Met::default(), |day| {
        let times = |n| day.run.iter().filter(number(n)).count() as i64;
        let (came, went, ports, buffer) = day.counts();
        let here = (ports + buffer) as i64;
        assert_eq!(came as i64 - went as i64, here);
        let held = times(14) + times(36) - came as i64;
        let by_hand = held_if(&day.run, |value, _| value == 0);
        let in_auto = held_if(&day.run, |_, mode| mode == 1);
        let refused = day.run.iter().filter(|(i, answer)| i.number == 14 && *answer != 0).count() as i64;
        let sums = [
            times(14) + times(36) - times(25),
            times(14) - held - times(25),
            times(14) - by_hand + times(36) - times(25),
            times(14) - in_auto + times(36) - times(25),
            times(14) - held + times(36) - times(25) - times(18),
            times(14) - held + times(36) - times(25) + refused,
        ];
        for (wrong, sum) in wrong.iter_mut().zip(sums) {
            *wrong += (sum != here) as u32;
        }
    });
    println!("{wrong:?} of 24 runs tell");
    // Four of the tools have no buffer for a pod to go into.
    assert!(wrong.iter().all(|&runs| runs >= 20), "{wrong:?}");
}

/// How many LoadDones would be held if this told it from the value of the start and the mode.
fn held_if(run: &[(Input, u32)], held: fn(u32, u32) -> bool) -> i64 {
    let mut mode = [0; 5];
    let mut by = [false; 5];
    let mut all = 0;
    for (i, _) in run.iter().filter(|(_, answer)| *answer == 0) {
        let p = i.port as usize;
        match i.number {
            9 => mode[p] = i.value,
            13 => by[p] = held(i.value, mode[p]),
            14 => all += by[p] as i64,
            _ => {}
        }
    }
    all
}
