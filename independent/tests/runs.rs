//! Many inputs along runs and from random sound states.

mod common;

use common::{plain_reports, plainly_sound, ALLOWED};
use independent::gen::{describe, random_run_input, random_sound_tool, Input, Rng};
use independent::{setup, sound, step, step_known_sound, Plain, Report, Reports, Tool};

type Table = [[u64; 9]; 27];

/// Gives an input and looks at everything that holds of all inputs.
fn checked(t: &mut Tool, i: &Input) -> u32 {
    let dirty = Report { model: 9, port: 9, name: [9; 16], old: 9, new: 9 };
    let mut out = Reports { count: 200, items: [dirty; 10] };
    let before = *t;
    let answer = step(t, i.number, i.port, i.value, &i.name, &i.codes, &mut out);
    let story = || format!("{i:?} answers {answer}\nbefore {}after {}", describe(&before), describe(t));
    if answer == 0 {
        assert_eq!(out, plain_reports(&before, t), "{}", story());
        assert!(sound(t) && plainly_sound(t), "{}", story());
        assert!(t.count as u32 <= t.ports as u32 + t.places as u32 + 16);
        assert_eq!((t.ports, t.places), (before.ports, before.places));
    } else {
        assert_eq!(t.bytes(), before.bytes(), "{}", story());
        assert_eq!(out, Reports::NONE, "{}", story());
    }
    if (1..=26).contains(&i.number) {
        assert!(ALLOWED[i.number as usize - 1].1.contains(&answer), "{}", story());
    } else {
        assert_eq!(answer, 1);
    }
    // The records that stay keep their order, and a new one stands last.
    let stayed = |from: &Tool, other: &Tool| -> Vec<[u8; 16]> {
        let known = |name| other.carriers().iter().any(|d| d.name == name);
        from.carriers().iter().map(|c| c.name).filter(|&name| known(name)).collect()
    };
    let kept = stayed(t, &before);
    assert_eq!(kept, stayed(&before, t), "{}", story());
    assert!(t.carriers().iter().zip(&kept).all(|(c, name)| c.name == *name), "{}", story());

    let mut again = before;
    let mut out_again = Reports::NONE;
    let other = step_known_sound(&mut again, i.number, i.port, i.value, &i.name, &i.codes, &mut out_again);
    assert!(other == answer && again == *t && out_again == out);
    answer
}

fn count(table: &mut Table, i: &Input, answer: u32) {
    let row = if i.number <= 26 { i.number } else { 0 };
    table[row as usize][answer as usize] += 1;
}

/// 20,000 inputs for every P and B.
fn runs(table: &mut Table) -> u64 {
    let mut inputs = 0;
    for p in 1..=4 {
        for b in 0..=16 {
            let mut rng = Rng::new(1000 * p as u64 + b as u64);
            let mut most = 0;
            for _ in 0..2 {
                let mut t = Tool::NONE;
                assert_eq!(setup(p, b, &mut t), 0);
                for _ in 0..10_000 {
                    let i = random_run_input(&t, &mut rng);
                    let answer = checked(&mut t, &i);
                    count(table, &i, answer);
                    most = most.max(t.count as u32);
                    inputs += 1;
                }
            }
            assert_eq!(most, p + b + 16, "P {p} B {b} never full");
        }
    }
    inputs
}

fn odd_states(table: &mut Table) -> u64 {
    let mut rng = Rng::new(42);
    let mut inputs = 0;
    for _ in 0..60_000 {
        let mut t = random_sound_tool(&mut rng);
        for _ in 0..4 {
            let i = random_run_input(&t, &mut rng);
            let answer = checked(&mut t, &i);
            count(table, &i, answer);
            inputs += 1;
        }
    }
    inputs
}

#[test]
fn runs_and_odd_states_meet_every_pair() {
    let pairs: usize = ALLOWED.iter().map(|(_, answers)| answers.len()).sum();
    assert_eq!(pairs, 104);
    let mut table = [[0; 9]; 27];
    let along = runs(&mut table);
    let by_runs = table;
    let from = odd_states(&mut table);
    println!("{along} inputs along runs, {from} from random sound states");
    let mut met = 0;
    let mut met_by_runs = 0;
    for (row, answers) in ALLOWED {
        println!(
            "row {row:>2}: {:?}",
            answers.iter().map(|&a| (a, table[row as usize][a as usize])).collect::<Vec<_>>()
        );
        for &answer in answers {
            met += (table[row as usize][answer as usize] > 0) as usize;
            met_by_runs += (by_runs[row as usize][answer as usize] > 0) as usize;
        }
    }
    println!("{met} of {pairs} pairs met, {met_by_runs} of them along runs");
    assert_eq!(met, pairs);
}
