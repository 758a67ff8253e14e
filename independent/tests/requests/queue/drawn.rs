//! What the generator draws for the queue: all that may befall it happens along runs and from states.

use independent::gen::requests::{befalls, random_run_input, random_sound_tool, BEFALLS};
use independent::gen::{Input, Rng};

use super::*;

/// How often each thing befell a queue, and how often the queue was empty, and four were started.
type Met = ([u32; BEFALLS.len()], [u32; 2]);

/// Gives an input and takes note of what it was to the queue.
fn note((befallen, kinds): &mut Met, t: &mut Tool, i: &Input) {
    let before = *t;
    let answer = step_input(t, i, &mut Reports::NONE.clone());
    if let Some(k) = befalls(&before, i, answer) {
        befallen[k] += 1;
    }
    let begun = before.queue.requests().iter().filter(|r| r.started == 1).count();
    kinds[0] += (before.queue.count == 0) as u32;
    kinds[1] += (begun == 4) as u32;
}

fn often_enough(from: &str, (befallen, kinds): Met) {
    println!("{from}: {befallen:?}, {kinds:?}");
    for (what, n) in BEFALLS.iter().zip(befallen) {
        assert!(n > 10, "{from}: {what}: {n}");
    }
    assert!(kinds.iter().all(|&n| n > 10), "{from}: {kinds:?}");
}

#[test]
fn everything_befalls_the_queue_along_runs() {
    let mut met = Met::default();
    let mut rng = Rng::new(21);
    for (p, b) in [(1, 2), (2, 5), (3, 16), (4, 16), (4, 16), (4, 16)] {
        let mut t = tool(p, b);
        for _ in 0..20_000 {
            let i = random_run_input(&t, &mut rng);
            note(&mut met, &mut t, &i);
        }
    }
    often_enough("runs", met);
}

#[test]
fn everything_befalls_the_queue_of_a_state() {
    let mut met = Met::default();
    let mut rng = Rng::new(22);
    for _ in 0..160_000 {
        let mut t = random_sound_tool(&mut rng);
        let i = random_run_input(&t, &mut rng);
        note(&mut met, &mut t, &i);
    }
    often_enough("states", met);
}

/// The names of what may befall a queue differ, and each stands where it is found.
#[test]
fn what_befalls_has_a_name() {
    let mut t = stocked(1, 2, &["A", "B"]);
    ask(&mut t, &[("A", 1), ("B", 1)]);
    let what = |t: &Tool, number, name: &str, answer| {
        let i = Input { number, port: 1, name: name.into(), ..Input::default() };
        befalls(t, &i, answer).map(|k| BEFALLS[k])
    };
    assert_eq!(what(&t, 27, "", 0), Some("OutStart takes the oldest of all"));
    assert_eq!(what(&t, 13, "", 0), Some("LoadStart where one waits"));
    assert_eq!(what(&t, 7, "B ", 10), Some("queued already, and waits"));
    accept(&mut t, 19, 0, 0, "A");
    assert_eq!(what(&t, 27, "", 0), Some("OutStart passes an older one over"));
    accept(&mut t, 27, 1, 0, "");
    assert_eq!(what(&t, 13, "", 4), Some("LoadStart at a started port"));
    assert_eq!(what(&t, 7, "B", 10), Some("queued already, and started"));
    assert_eq!(what(&t, 28, "", 0), Some("OutDone of another carrier"));
    assert_eq!((what(&t, 13, "", 5), what(&t, 3, "B", 3)), (None, None));
}
