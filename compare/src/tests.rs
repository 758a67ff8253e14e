//! Programs that are wrong on purpose, and the scripts that must be found for them.

mod wrong_alarms;
mod wrong_logs;
mod wrong_maps;
mod wrong_messages;
mod wrong_names;
mod wrong_pods;
mod wrong_predict;
mod wrong_queue;
mod wrong_replies;
mod wrong_undo;
mod wrong_wafers;

use independent::gen::requests::random_run_input;
use independent::gen::{Input, Rng};
use independent::requests::Tool;
use independent::{Report, Reports};

use crate::machine::{Both, Bridged, Heard, Independent, Machine, Outcome, SetUp, Way};
use crate::parts::{
    alarmed, damaged, edges, foretold, maps, messages, names, odd, out, runs, setups, small, states,
    totalled, twelve, ways,
};
use crate::play::{Finding, Player, Tally};
use crate::script::Run;
use crate::shrink::{differs_after, shortest};
use crate::tell::tell;

/// A program that is wrong on purpose: the independent one, but for what it does otherwise.
trait Wrong {
    fn setup(&self, of: SetUp, tool: &mut Tool) -> u32 {
        Independent.setup(of, tool)
    }

    fn step(&self, tool: &mut Tool, input: &Input, reports: &mut Reports) -> u32 {
        Independent.step(tool, input, reports)
    }

    fn by(&self, way: Way, tool: &mut Tool, input: &Input, reports: &mut Reports) -> u32 {
        Independent.by(way, tool, input, reports)
    }

    fn sound(&self, tool: &Tool) -> u32 {
        Independent.sound(tool)
    }

    fn name(&self, text: &[u8]) -> u32 {
        Independent.name(text)
    }

    fn secs(&self, tool: &mut Tool, message: &[u8], reports: &mut Reports) -> Heard {
        Independent.secs(tool, message, reports)
    }
}

/// The defaults stand there and not in `Machine`, where a program could lack a method unnoticed.
impl<W: Wrong> Machine for W {
    fn setup(&self, of: SetUp, tool: &mut Tool) -> u32 {
        Wrong::setup(self, of, tool)
    }

    fn step(&self, tool: &mut Tool, input: &Input, reports: &mut Reports) -> u32 {
        Wrong::step(self, tool, input, reports)
    }

    fn by(&self, way: Way, tool: &mut Tool, input: &Input, reports: &mut Reports) -> u32 {
        Wrong::by(self, way, tool, input, reports)
    }

    fn sound(&self, tool: &Tool) -> u32 {
        Wrong::sound(self, tool)
    }

    fn name(&self, text: &[u8]) -> u32 {
        Wrong::name(self, text)
    }

    fn secs(&self, tool: &mut Tool, message: &[u8], reports: &mut Reports) -> Heard {
        Wrong::secs(self, tool, message, reports)
    }
}

/// The independent program with a fault planted in what comes out of a step.
struct Faulty<F: Fn(&Tool, &Input, &mut Outcome)>(F);

impl<F: Fn(&Tool, &Input, &mut Outcome)> Wrong for Faulty<F> {
    fn step(&self, tool: &mut Tool, input: &Input, reports: &mut Reports) -> u32 {
        let before = *tool;
        let answer = Independent.step(tool, input, reports);
        let mut o = Outcome { answer, tool: *tool, reports: *reports };
        self.0(&before, input, &mut o);
        (*tool, *reports) = (o.tool, o.reports);
        o.answer
    }
}

/// The independent program, which takes what it is given for something else.
struct Mistaken {
    setup: fn(SetUp) -> SetUp,
    input: fn(&Input) -> Input,
    tool: fn(&Tool) -> Tool,
    text: fn(&[u8]) -> Vec<u8>,
    message: fn(&[u8]) -> Vec<u8>,
}

impl Mistaken {
    const IN_NOTHING: Mistaken = Mistaken {
        setup: |of| of,
        input: Input::clone,
        tool: |tool| *tool,
        text: <[u8]>::to_vec,
        message: <[u8]>::to_vec,
    };
}

impl Wrong for Mistaken {
    fn setup(&self, of: SetUp, tool: &mut Tool) -> u32 {
        Independent.setup((self.setup)(of), tool)
    }

    fn step(&self, tool: &mut Tool, input: &Input, reports: &mut Reports) -> u32 {
        Independent.step(tool, &(self.input)(input), reports)
    }

    fn sound(&self, tool: &Tool) -> u32 {
        Independent.sound(&(self.tool)(tool))
    }

    fn name(&self, text: &[u8]) -> u32 {
        Independent.name(&(self.text)(text))
    }

    fn secs(&self, tool: &mut Tool, message: &[u8], reports: &mut Reports) -> Heard {
        Independent.secs(tool, &(self.message)(message), reports)
    }
}

/// The shortest script for a fault that random runs find.
fn found(ports: u32, places: u32, fault: impl Fn(&Tool, &Input, &mut Outcome)) -> Run {
    let faulty = Faulty(fault);
    let both = Both { proved: &faulty, independent: &Independent };
    let mut tally = Tally::default();
    let mut player = Player::begin(&both, &mut tally, ports, places).unwrap();
    let mut rng = Rng::new(3);
    for _ in 0..60_000 {
        let input = random_run_input(&player.tool, &mut rng);
        match player.give(input) {
            Ok(_) => {}
            Err(Finding::Run(run)) => {
                assert_eq!(differs_after(&both, &run), Some(run.inputs.len()));
                let short = shortest(&both, &run);
                assert_eq!(differs_after(&both, &short), Some(short.inputs.len()));
                return short;
            }
            Err(other) => panic!("{other:?}"),
        }
    }
    panic!("the fault was not found");
}

#[test]
fn a_fault_in_the_state_takes_two_inputs() {
    let run = found(4, 16, |_, input, o| {
        if input.number == 15 && o.accepted() {
            o.tool.base.port[input.port as usize - 1].reserved = 1;
        }
    });
    assert_eq!(run.script(), "setup 1 0\nin 13 1 0 - -\nin 15 1 0 - -\n");
}

#[test]
fn a_lost_report_takes_four_inputs() {
    let run = found(3, 5, |_, _, o| {
        if o.reports.count == 7 {
            o.reports.items[6] = Report::UNUSED;
        }
    });
    assert_eq!(run.script(), "setup 1 1\nin 1 1 0 41 -\nin 13 1 0 - -\nin 14 1 0 - -\nin 16 1 0 42 -\n");
}

/// The temptation that document 01 names: a cancelled carrier in the buffer is opened because its ID is still OK.
#[test]
fn a_wrong_answer_deep_in_a_run_takes_seven_inputs() {
    let run = found(4, 16, |before, input, o| {
        let named = |c: &&independent::Carrier| independent::gen::unpadded(&c.name) == input.name;
        let cancelled =
            before.base.carriers().iter().find(named).is_some_and(|c| c.cancelled == 1 && c.id == 3);
        if input.number == 19 && o.answer == 7 && cancelled && before.base.places > 0 {
            o.answer = 0;
        }
    });
    assert_eq!((run.setup.ports, run.setup.places), (1, 1));
    let numbers: Vec<u32> = run.inputs.iter().map(|input| input.number).collect();
    assert_eq!((numbers.len(), numbers[6]), (7, 19), "{numbers:?}");
}

#[test]
fn a_fault_of_the_set_up_needs_no_input() {
    let setup = |of: SetUp| if of.ports == 260 { SetUp { ports: 4, ..of } } else { of };
    let cuts = Mistaken { setup, ..Mistaken::IN_NOTHING };
    let both = Both { proved: &cuts, independent: &Independent };
    let Err(finding @ Finding::Run(_)) = setups::compare(&both, &mut Rng::new(1)) else {
        panic!("the fault was not found");
    };
    let told = tell(&both, &finding);
    assert!(told.contains("setup 260 0\nproved       setup 0\nindependent  setup 1\n"), "{told}");
    assert!(told.contains("byte 0, ports: proved 4, independent 0"), "{told}");
}

#[test]
fn a_run_without_a_difference_stays_as_it_is() {
    let both = Both { proved: &Independent, independent: &Independent };
    let run = Run { setup: SetUp::of(1, 0), inputs: vec![Input { number: 13, port: 1, ..Input::default() }] };
    assert_eq!(shortest(&both, &run), run);
}

/// The first finding of all parts, with few inputs in each.
fn first_finding(both: &Both) -> Option<Finding> {
    let mut rng = Rng::new(5);
    let mut all = || -> Result<(), Finding> {
        twelve::compare(both)?;
        edges::compare(both)?;
        maps::compare(both)?;
        names::compare(both)?;
        names::texts(both, 5_000, &mut rng)?;
        out::compare(both)?;
        foretold::compare(both)?;
        totalled::compare(both, 5_000, &mut rng)?;
        alarmed::compare(both)?;
        small::queues(both)?;
        small::predictions(both)?;
        small::alarms(both)?;
        setups::compare(both, &mut rng)?;
        runs::compare(both, 5_000, &mut rng)?;
        runs::without_buffer(both, 5_000, &mut rng)?;
        states::compare(both, 20_000, &mut rng)?;
        states::undone(both, 20_000, &rng)?;
        damaged::every_byte(both, 1, &mut rng)?;
        damaged::mixed_up(both, 2_000, &mut rng)?;
        damaged::random_bytes(both, 2_000, &mut rng)?;
        odd::compare(both, 20_000, &mut rng)?;
        messages::compare(both, 5_000, &mut rng)?;
        ways::compare(both)?;
        Ok(())
    };
    all().err()
}

#[test]
fn two_programs_that_agree_show_nothing() {
    let both = Both { proved: &Independent, independent: &Independent };
    let finding = first_finding(&both).map(|finding| tell(&both, &finding));
    assert_eq!(finding, None);
}

/// Why the documents are against two programs that are wrong alike.
fn against(
    fault: impl Fn(&Tool, &Input, &mut Outcome),
    part: impl Fn(&Both, &mut Rng) -> Result<(), Finding>,
) -> String {
    let faulty = Faulty(fault);
    match part(&Both { proved: &faulty, independent: &faulty }, &mut Rng::new(5)) {
        Err(Finding::Document(_, why) | Finding::Law(_, _, why)) => why,
        Err(other) => panic!("{other:?}"),
        Ok(()) => panic!("the fault was not found"),
    }
}

#[test]
fn both_wrong_alike_is_against_the_documents() {
    let why = against(
        |_, input, o| o.answer = if input.number == 18 && o.answer == 1 { 5 } else { o.answer },
        |both, _| edges::compare(both).map(drop),
    );
    assert_eq!(why, "the last input is answered 1, not 5");
    let why = against(
        |_, _, o| o.reports.items[0].new ^= (o.reports.count == 2) as u8,
        |both, _| twelve::compare(both).map(drop),
    );
    assert_eq!(why, "the last input reports 1 1 1>3; 3 1 1>0, not 1 1 1>2; 3 1 1>0");
    let why = against(
        |_, _, o| o.tool.base.port[3].tag ^= (o.answer == 8) as u8,
        |both, rng| runs::compare(both, 5_000, rng).map(drop),
    );
    assert_eq!(why, "a refusal changes no state and leaves no report");
    let why = against(
        |_, input, o| o.answer = if input.number == 13 && o.answer == 5 { 8 } else { o.answer },
        |both, rng| runs::compare(both, 5_000, rng).map(drop),
    );
    assert_eq!(why, "row 13 has no answer 8");
    let why =
        against(|_, _, o| o.reports.items[6].old = 1, |both, rng| states::compare(both, 100, rng).map(drop));
    assert_eq!(why, "at most ten reports, and zeros past the count");
}

/// Such a run is shrunk too.
#[test]
fn a_run_against_the_documents_is_short() {
    let wrong =
        Faulty(|_, input, o| o.answer = if input.number == 13 && o.answer == 5 { 8 } else { o.answer });
    let spoils =
        Faulty(|_, input, o| o.tool.base.port[0].tag += 7 * (input.number == 13 && o.accepted()) as u8);
    for (faulty, lines) in [(&wrong as &dyn Machine, 3), (&spoils, 2)] {
        let both = Both { proved: faulty, independent: faulty };
        let finding = runs::compare(&both, 5_000, &mut Rng::new(5)).err().expect("a finding");
        let told = tell(&both, &finding);
        assert!(told.starts_with("BOTH ARE AGAINST THE DOCUMENTS"), "{told}");
        assert_eq!(told.lines().count(), 1 + lines, "{told}");
    }
}

#[test]
fn unsound_states_are_against_the_documents() {
    let spoils = |_: &Tool, input: &Input, o: &mut Outcome| {
        o.tool.base.port[0].tag =
            if input.number == 13 && o.accepted() { 7 } else { o.tool.base.port[0].tag };
    };
    let why = against(spoils, |both, rng| runs::compare(both, 5_000, rng).map(drop));
    assert_eq!(why, "every state that a run reaches is sound");
    let why = against(spoils, |both, rng| states::compare(both, 5_000, rng).map(drop));
    assert_eq!(why, "a sound state is followed by a sound one");
    let why = against(
        |before, input, o| {
            o.answer = if independent::requests::sound(before) || input.number != 10 { o.answer } else { 4 }
        },
        |both, rng| damaged::every_byte(both, 1, rng).map(drop),
    );
    assert_eq!(why, "a state that isn't sound is answered 1");
}

/// 0x7F in a name, or a code 6, held for good by both.
#[test]
fn odd_names_and_codes_have_document_01s_answers() {
    let mends = |input: &Input, o: &mut Outcome, before: &Tool, good: Input| {
        if good != *input {
            o.tool = *before;
            o.answer = Independent.step(&mut o.tool, &good, &mut o.reports);
        }
    };
    let name = |i: &Input| i.name.iter().map(|&b| if b == 0x7F { b'~' } else { b }).collect();
    let codes = |i: &Input| i.codes.iter().map(|&c| if c == 6 { 5 } else { c }).collect();
    let part = |both: &Both, rng: &mut Rng| odd::compare(both, 1, rng).map(drop);
    let why = against(|before, i, o| mends(i, o, before, Input { name: name(i), ..i.clone() }), part);
    assert_eq!(why, "a text that has no name in it is answered 1");
    let why = against(|before, i, o| mends(i, o, before, Input { codes: codes(i), ..i.clone() }), part);
    assert_eq!(why, "the last input is answered 1, not 0");
}

/// A program that cuts a port to two bytes differs only on odd numbers.
#[test]
fn a_cut_number_is_found() {
    let input = |input: &Input| Input { port: input.port & 0xFFFF, ..input.clone() };
    let cuts = Mistaken { input, ..Mistaken::IN_NOTHING };
    let both = Both { proved: &cuts, independent: &Independent };
    let Some(Finding::Run(run)) = first_finding(&both) else { panic!("the fault was not found") };
    assert_eq!(shortest(&both, &run).inputs.len(), 1);
}

/// A program that holds some states for sound that aren't.
#[test]
fn a_fault_of_soundness_is_shown_with_the_bytes() {
    let tool = |tool: &Tool| {
        let mut mended = *tool;
        mended.base.carrier.iter_mut().for_each(|c| c.came_out &= 1);
        mended
    };
    let trusts = Mistaken { tool, ..Mistaken::IN_NOTHING };
    let both = Both { proved: &trusts, independent: &Independent };
    let Some(finding @ Finding::Sound(_)) = first_finding(&both) else { panic!("the fault was not found") };
    let told = tell(&both, &finding);
    assert!(told.contains("proved       sound\nindependent  not sound\n"), "{told}");
    assert_eq!(told.matches("  record ").count(), 1, "{told}");
}

#[test]
fn a_fault_that_no_run_reaches_is_shown_with_the_bytes() {
    // READY TO UNLOAD without a pod.
    let faulty = Faulty(|before, input, o| {
        let port = before.base.port.get((input.port as usize).wrapping_sub(1));
        let odd = port.is_some_and(|p| p.transfer == 2 && p.pod == 0);
        if input.number == 24 && odd && o.accepted() {
            o.answer = 5;
        }
    });
    let both = Both { proved: &faulty, independent: &Independent };
    let Some(finding @ Finding::State(..)) = first_finding(&both) else { panic!("the fault was not found") };
    let told = tell(&both, &finding);
    assert!(told.contains("\nin 24 ") && told.contains("  head ") && !told.contains("setup"), "{told}");
    assert_eq!(told.matches("  record ").count(), 0, "{told}");
    assert!(told.contains("proved       5 ") && told.contains(" [1 "), "{told}");
}
