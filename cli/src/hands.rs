//! What an accepted input has to do with hands on an AUTO port, beside the report of an alarm: what is held, and how an
//! alarm ends.
use crate::numbers::row;
use hawsermole::{Parts, Tool};

/// A line where the port of the input has an alarm, or had one.
pub fn changes(before: &Tool, after: &Tool, parts: &Parts) -> Option<String> {
    let (was, is) = (before.alarm(parts.port), after.alarm(parts.port));
    let (was_held, is_held) = (before.held(parts.port), after.held(parts.port));
    let port = format!("port {}", parts.port);
    match parts.number {
        row::LOAD_START if is && !was => Some(format!(
            "{port} is for vehicles, and a hand loads it: LoadDone will hold the pod, Continue lets it stay, \
             LoadFail says that it was taken off"
        )),
        row::UNLOAD_START if is && !was => {
            Some(format!("{port} is for vehicles, and a hand unloads it: {UNTIL_READY}"))
        }
        _ if is_held && !was_held => {
            Some(format!("{port}: the pod is held, and counts as still loading until Continue or LoadFail"))
        }
        row::CONTINUE => Some(format!("{port}: the pod that was held stays, loaded as by LoadDone")),
        row::LOAD_FAIL if was_held => Some(format!("{port}: the pod that was held is let go")),
        _ if was && is && after != before => Some(format!("{port}: {UNTIL_READY}")),
        _ => None,
    }
}

const UNTIL_READY: &str = "the alarm stays on until the port is READY TO LOAD";

#[cfg(test)]
mod tests {
    use super::*;
    use crate::print::tests::tool;
    use hawsermole::Input;

    const AUTO: Input = Input::ChangeAccess { port: 1, access: 1 };
    const HAND: Input = Input::LoadStart { port: 1, start: 0 };
    const VEHICLE: Input = Input::LoadStart { port: 1, start: 1 };
    const DONE: Input = Input::LoadDone { port: 1 };
    const FAIL: Input = Input::LoadFail { port: 1 };

    /// What is told of the last input.
    fn told(inputs: &[Input]) -> Option<String> {
        let (last, earlier) = inputs.split_last().unwrap();
        let before = tool(2, 0, earlier);
        let after = tool(2, 0, inputs);
        changes(&before, &after, &last.parts())
    }

    #[test]
    fn loads_by_hand() {
        let held = "port 1: the pod is held, and counts as still loading until Continue or LoadFail";
        assert!(told(&[AUTO, HAND])
            .unwrap()
            .starts_with("port 1 is for vehicles, and a hand loads it: LoadDone"));
        assert_eq!(told(&[AUTO, HAND, DONE]).unwrap(), held);
        let stays = "port 1: the pod that was held stays, loaded as by LoadDone";
        assert_eq!(told(&[AUTO, HAND, DONE, Input::Continue { port: 1 }]).unwrap(), stays);
        assert_eq!(told(&[AUTO, HAND, DONE, FAIL]).unwrap(), "port 1: the pod that was held is let go");
        for ordinary in
            [&[AUTO, VEHICLE][..], &[AUTO, VEHICLE, DONE], &[HAND], &[HAND, DONE], &[AUTO, HAND, FAIL]]
        {
            assert_eq!(told(ordinary), None);
        }
    }

    #[test]
    fn unloads_by_hand() {
        let name = b"A";
        let arrive =
            [AUTO, VEHICLE, DONE, Input::IdRead { port: 1, name }, Input::CancelCarrier { name, port: 1 }];
        let (hand, fail) = (Input::UnloadStart { port: 1, start: 0 }, Input::UnloadFail { port: 1 });
        let after = |inputs: &[Input]| told(&[&arrive, inputs].concat());
        let stays = "the alarm stays on until the port is READY TO LOAD";
        let raised = format!("port 1 is for vehicles, and a hand unloads it: {stays}");
        assert_eq!(after(&[hand]), Some(raised));
        assert_eq!(after(&[hand, fail]), Some(format!("port 1: {stays}")));
        let manual = Input::ChangeAccess { port: 1, access: 0 };
        assert_eq!(after(&[hand, fail, manual]), Some(format!("port 1: {stays}")));
        assert_eq!(after(&[hand, fail, AUTO]), None);
        assert_eq!(after(&[hand, Input::UnloadDone { port: 1 }]), None);
    }
}
