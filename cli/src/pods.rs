//! `pods`: the pods that came in and went out, counted over the run since its set-up, and those that are here.
use crate::explain::counted;
use hawsermole::{Pods, Tool};

/// Where what came in and went out isn't known.
const UNKNOWN: &str = "-";

/// A tool, and the count of its pods; none of a tool that was loaded, since its run isn't known.
#[derive(Clone, PartialEq, Eq)]
pub struct Played {
    pub tool: Tool,
    pub pods: Option<Pods>,
}

impl Played {
    /// No tool, as before a set-up.
    pub fn none() -> Played {
        Played::loaded(Tool::none())
    }

    pub fn set_up(tool: Tool) -> Played {
        Played { tool, pods: Some(Pods::at_setup()) }
    }

    pub fn loaded(tool: Tool) -> Played {
        Played { tool, pods: None }
    }

    /// What `pods` prints. `Err` says that there is no tool, or that the run and the tool tell different numbers.
    pub fn told(&self, explain: bool) -> Result<String, String> {
        if self.tool == Tool::none() {
            return Err("there is no tool whose pods could be counted: set one up with setup P B".into());
        }
        let line = self.line();
        if self.pods.is_some_and(|pods| !pods.agree(&self.tool)) {
            return Err(format!(
                "{line}: by the inputs and their answers {}, but the tool has {}: \
                 these should be equal, so that one of them is wrong",
                self.run(),
                self.here()
            ));
        }
        Ok(match explain {
            true => format!("{line}\n  {}; {}\n{}", self.run(), self.here(), self.held()),
            false => line + "\n",
        })
    }

    /// `pods IN OUT PORTS BUFFER`.
    fn line(&self) -> String {
        let counts = self.pods.map(|pods| [pods.came_in(), pods.went_out()].map(|count| count.to_string()));
        let [came_in, went_out] = counts.unwrap_or([UNKNOWN, UNKNOWN].map(String::from));
        format!("pods {came_in} {went_out} {} {}", self.tool.pods_at_ports(), self.tool.carriers_in_buffer())
    }

    /// `5 pods came in, 3 went out`.
    fn run(&self) -> String {
        match self.pods {
            Some(pods) => {
                format!("{} came in, {} went out", counted(pods.came_in() as usize, "pod"), pods.went_out())
            }
            None => "what came in and went out isn't known: the tool was loaded".into(),
        }
    }

    /// `1 at ports, 1 in the buffer`.
    fn here(&self) -> String {
        format!("{} at ports, {} in the buffer", self.tool.pods_at_ports(), self.tool.carriers_in_buffer())
    }

    /// A line for each pod that isn't counted yet.
    fn held(&self) -> String {
        let held = self.tool.hands().filter(|hands| hands.held != 0);
        held.map(|hands| format!("  a pod is held at port {}: Continue brings it in\n", hands.port)).collect()
    }
}

#[cfg(test)]
mod tests {
    use super::*;
    use crate::print::tests::stored;
    use hawsermole::Input;

    fn play(played: &mut Played, inputs: &[Input]) {
        for input in inputs {
            let answer = played.tool.step(input);
            assert!(answer.is_ok(), "{input}");
            played.pods.as_mut().unwrap().note(input, &answer);
        }
    }

    #[test]
    fn both_sides_in_numbers_and_in_words() {
        let mut played = Played::set_up(Tool::setup(2, 1).unwrap());
        assert_eq!(played.told(false), Ok("pods 0 0 0 0\n".into()));
        let auto = Input::ChangeAccess { port: 1, access: 1 };
        let loads = [1, 2].map(|port| Input::LoadStart { port, start: 0 });
        play(&mut played, &[auto, loads[0], loads[1]]);
        play(&mut played, &[1, 2].map(|port| Input::LoadDone { port }));
        let told = "pods 1 0 1 0\n  1 pod came in, 0 went out; 1 at ports, 0 in the buffer\n  \
                    a pod is held at port 1: Continue brings it in\n";
        assert_eq!(played.told(true), Ok(told.into()));
        play(&mut played, &[Input::Continue { port: 1 }]);
        let told = "pods 2 0 2 0\n  2 pods came in, 0 went out; 2 at ports, 0 in the buffer\n";
        assert_eq!(played.told(true), Ok(told.into()));
    }

    #[test]
    fn a_loaded_tool_has_no_run() {
        let loaded = Played::loaded(stored(1, &[b"A", b"B"]));
        assert_eq!(loaded.told(false), Ok("pods - - 0 2\n".into()));
        let told = "pods - - 0 2\n  what came in and went out isn't known: the tool was loaded; \
                    0 at ports, 2 in the buffer\n";
        assert_eq!(loaded.told(true), Ok(told.into()));
    }

    #[test]
    fn without_a_tool_there_is_nothing_to_count() {
        let error = "there is no tool whose pods could be counted: set one up with setup P B";
        assert_eq!(Played::none().told(true), Err(error.into()));
    }

    /// A count that left something out, which the program itself never does.
    #[test]
    fn sides_that_differ_are_told() {
        let played = Played { pods: Some(Pods::at_setup()), ..Played::loaded(stored(1, &[b"A"])) };
        let error = "pods 0 0 0 1: by the inputs and their answers 0 pods came in, 0 went out, \
                     but the tool has 0 at ports, 1 in the buffer: \
                     these should be equal, so that one of them is wrong";
        assert_eq!((played.told(false), played.told(true)), (Err(error.into()), Err(error.into())));
    }
}
