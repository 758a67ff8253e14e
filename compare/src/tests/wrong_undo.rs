//! Two programs that are wrong alike about what is undone.

use super::*;

type Fault = fn(&Tool, &Input, &mut Outcome);

/// Whether the input is of this row and accepted.
fn is(input: &Input, o: &Outcome, row: u32) -> bool {
    input.number == row && o.accepted()
}

/// The port that an input names.
fn port<'a>(o: &'a mut Outcome, input: &Input) -> &'a mut independent::Port {
    &mut o.tool.base.port[input.port as usize - 1]
}

fn along_runs(both: &Both, rng: &mut Rng) -> Result<(), Finding> {
    runs::compare(both, 5_000, rng).map(drop)
}

fn from_states(both: &Both, rng: &mut Rng) -> Result<(), Finding> {
    states::undone(both, 20_000, rng).map(drop)
}

fn undoes(why: &str, undo: u32, first: u32) -> bool {
    why.starts_with(&format!("row {undo} after row {first} gives back the state before it: in {undo} "))
}

#[test]
fn what_is_left_behind_is_against_the_documents() {
    let faults: [(Fault, u32, u32); 6] = [
        (
            |_, i, o| {
                if is(i, o, 2) && i.port > 0 {
                    port(o, i).reserved = 1
                }
            },
            2,
            1,
        ),
        (|_, i, o| o.tool.base.port[0].access |= is(i, o, 4) as u8, 4, 3),
        (
            |_, i, o| {
                if is(i, o, 12) {
                    port(o, i).access = 0
                }
            },
            12,
            11,
        ),
        (
            |_, i, o| {
                if is(i, o, 26) {
                    port(o, i).tag = 0
                }
            },
            26,
            24,
        ),
        (
            |_, i, o| {
                if is(i, o, 15) {
                    port(o, i).reserved = 1
                }
            },
            15,
            13,
        ),
        (|_, i, o| o.tool.base.carrier[0].cancelled |= is(i, o, 23) as u8, 23, 19),
    ];
    for (fault, undo, first) in faults {
        let why = against(fault, from_states);
        assert!(undoes(&why, undo, first), "{first} {undo}: {why}");
    }
}

/// At some moment of a run, with the state and both inputs in the words.
#[test]
fn a_fault_is_found_along_runs() {
    let fault: Fault = |_, i, o| {
        if is(i, o, 15) {
            port(o, i).reserved = 1
        }
    };
    assert!(undoes(&against(fault, along_runs), 15, 13));
    let faulty = Faulty(fault);
    let both = Both { proved: &faulty, independent: &faulty };
    let finding = runs::compare(&both, 5_000, &mut Rng::new(5)).err().expect("a finding");
    let told = tell(&both, &finding);
    assert!(told.contains("\n  head ") && told.contains("\nin 13 ") && told.contains(": in 15 "), "{told}");
}

/// Where only one of the two is wrong, they differ.
#[test]
fn one_that_is_wrong_differs() {
    let faulty = Faulty(|_, i, o| {
        if is(i, o, 12) {
            port(o, i).access ^= 1
        }
    });
    let both = Both { proved: &faulty, independent: &Independent };
    assert!(
        matches!(states::undone(&both, 20_000, &Rng::new(5)), Err(Finding::State(_, i)) if i.number == 12)
    );
}

/// Every pair is tried often, and where its condition doesn't hold something is left.
#[test]
fn what_is_undone_is_counted() {
    let both = Both { proved: &Independent, independent: &Independent };
    let mut rng = Rng::new(5);
    let of_states = states::undone(&both, 20_000, &rng).expect("no finding");
    assert_eq!(of_states.unmet(), [""; 0]);
    let buffered = runs::compare(&both, 20_000, &mut rng).expect("no finding").undone;
    let fixed = runs::without_buffer(&both, 20_000, &mut rng).expect("no finding").undone;
    assert_eq!(buffered.and(&fixed).unmet(), [""; 0]);
    // No carrier leaves a buffer that isn't there.
    assert_eq!(fixed.unmet(), ["7 by 29 (0 times)"]);
    let [undone, left] = buffered.and(&fixed).counts();
    assert!(undone > 5_000 && left > 500, "{undone} {left}");
}
