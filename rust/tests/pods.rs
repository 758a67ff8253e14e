//! Pods in, pods out (request P11), through the typed interface: after every input both sides are the same.
use hawsermole::states::{AccessMode, Start};
use hawsermole::{Input, Parts, Pods, Refusal, Tool};

const HAND: u32 = Start::Manual as u32;
const VEHICLE: u32 = Start::Automatic as u32;

struct Day {
    tool: Tool,
    pods: Pods,
}

impl Day {
    fn new(ports: u32, places: u32) -> Day {
        Day { tool: Tool::setup(ports, places).unwrap(), pods: Pods::at_setup() }
    }

    fn give(&mut self, input: Input) -> Option<Refusal> {
        let answer = self.tool.step(&input);
        self.pods.note(&input, &answer);
        assert!(self.pods.agree(&self.tool), "{input}: {:?}", self.counts());
        answer.err()
    }

    fn accept(&mut self, inputs: &[Input]) {
        inputs.iter().for_each(|&input| assert_eq!(self.give(input), None, "{input}"));
    }

    /// What came in, what went out, at ports, in the buffer.
    fn counts(&self) -> (u64, u64, usize, usize) {
        let Day { tool, pods } = self;
        (pods.came_in(), pods.went_out(), tool.pods_at_ports(), tool.carriers_in_buffer())
    }
}

fn auto(port: u32) -> Input<'static> {
    Input::ChangeAccess { port, access: AccessMode::Auto as u32 }
}

fn load(port: u32, start: u32) -> Input<'static> {
    Input::LoadStart { port, start }
}

#[test]
fn a_pod_comes_and_goes() {
    let mut day = Day::new(2, 0);
    let name = b"A";
    day.accept(&[load(1, HAND), Input::LoadFail { port: 1 }, load(1, HAND), Input::LoadDone { port: 1 }]);
    assert_eq!(day.counts(), (1, 0, 1, 0));
    day.accept(&[Input::IdRead { port: 1, name }, Input::CancelCarrier { name, port: 0 }]);
    day.accept(&[Input::UnloadStart { port: 1, start: HAND }, Input::UnloadFail { port: 1 }]);
    day.accept(&[Input::UnloadStart { port: 1, start: HAND }]);
    assert_eq!(day.counts(), (1, 0, 1, 0));
    day.accept(&[Input::UnloadDone { port: 1 }]);
    assert_eq!(day.counts(), (1, 1, 0, 0));
}

/// A held pod isn't in until Continue, and never is where it is taken off again.
#[test]
fn a_held_pod() {
    let mut day = Day::new(3, 0);
    day.accept(&[auto(1), auto(2), auto(3), load(1, HAND), load(2, HAND), load(3, VEHICLE)]);
    day.accept(&[1, 2, 3].map(|port| Input::LoadDone { port }));
    assert!(day.tool.held(1) && day.tool.held(2) && !day.tool.held(3));
    assert_eq!(day.counts(), (1, 0, 1, 0));
    assert_eq!(day.give(Input::LoadDone { port: 1 }), Some(Refusal::Conditions));
    day.accept(&[Input::Continue { port: 1 }, Input::LoadFail { port: 2 }]);
    assert_eq!(day.counts(), (2, 0, 2, 0));
}

/// Into the buffer, out, in again and out: nothing of it counts.
#[test]
fn the_buffer() {
    let mut day = Day::new(2, 2);
    let name = b"A";
    day.accept(&[load(1, HAND), Input::LoadDone { port: 1 }, Input::IdRead { port: 1, name: b"A  " }]);
    day.accept(&[Input::ProceedWithCarrier { name, port: 0 }, Input::MoveIn { port: 1, place: 2 }]);
    assert_eq!(day.counts(), (1, 0, 0, 1));
    let out = [Input::CarrierOut { name, port: 2 }, Input::OutStart { port: 2 }];
    day.accept(&out);
    assert_eq!(day.counts(), (1, 0, 0, 1));
    day.accept(&[Input::OutDone { port: 2 }, Input::CarrierIn { name }]);
    assert_eq!(day.counts(), (1, 0, 1, 0));
    day.accept(&[Input::MoveIn { port: 2, place: 1 }]);
    day.accept(&out);
    day.accept(&[Input::OutDone { port: 2 }, Input::UnloadStart { port: 2, start: HAND }]);
    day.accept(&[Input::UnloadDone { port: 2 }]);
    assert_eq!(day.counts(), (1, 1, 0, 0));
}

/// Refusals and odd numbers leave the count as it is.
#[test]
fn what_is_refused() {
    let mut day = Day::new(1, 0);
    day.accept(&[load(1, HAND)]);
    let before = day.pods;
    assert_eq!(day.give(auto(1)), Some(Refusal::Conditions));
    for port in [0, 2, 5, 257, u32::MAX] {
        for number in [9, 13, 14, 25, 36] {
            let parts = Parts { number, port, ..Parts::default() };
            let answer = day.tool.step_parts(&parts);
            day.pods.note_parts(&parts, &answer);
            assert_eq!(answer, Err(Refusal::OutOfRange));
        }
    }
    assert_eq!(day.pods, before);
    day.accept(&[Input::LoadDone { port: 1 }]);
    assert_eq!(day.counts(), (1, 0, 1, 0));
}
