//! The player: the tool, and what each command prints.
use crate::pods::Played;
use crate::print::{self, Answer};
use crate::script::{Command, Sent, SetUp};
use crate::{explain, message, people, reply};
use hawsermole::{Bridged, Exchanged, Refusal, Tool};

/// A tool that is played on, with the count of its pods; at first there is none.
pub struct Player {
    now: Played,
    explain: bool,
}

impl Player {
    pub fn new(explain: bool) -> Player {
        Player { now: Played::none(), explain }
    }

    pub fn tool(&self) -> &Tool {
        &self.now.tool
    }

    pub fn now(&self) -> &Played {
        &self.now
    }

    pub fn explains(&self) -> bool {
        self.explain
    }

    /// Goes on with another tool and its count, and gives what was there.
    pub fn replace(&mut self, with: Played) -> Played {
        std::mem::replace(&mut self.now, with)
    }

    /// What came in and went out, and what is here.
    pub fn pods(&self) -> Result<String, String> {
        self.now.told(self.explain)
    }

    /// Carries a command out and gives what it prints; those of the dialogue around it print nothing here.
    pub fn play(&mut self, command: &Command) -> String {
        match command {
            Command::Nothing => String::new(),
            Command::Setup(set_up) => self.setup(*set_up),
            Command::In(sent) => self.input(sent, print::numbered),
            Command::Named(sent) => self.input(sent, print::named),
            Command::Secs(message) => self.secs(message),
            Command::Exchange { message, room } => self.exchange(message, *room),
            Command::Reply { number, room } => self.reply(*number, *room),
            Command::Dump => print::dump(self.tool()),
            Command::State => people::state(self.tool()),
            Command::Waiting => self.waiting(),
            Command::Pods | Command::Save(_) | Command::Load(_) | Command::Undo | Command::Expect(_) => {
                String::new()
            }
        }
    }

    /// A refused set-up takes the tool away.
    fn setup(&mut self, SetUp { ports, places, setting, timeout }: SetUp) -> String {
        let refusal = match Tool::setup_with_times(ports, places, setting, timeout) {
            Ok(tool) => {
                self.now = Played::set_up(tool);
                None
            }
            Err(refusal) => {
                self.now = Played::none();
                Some(refusal)
            }
        };
        let printed = format!("setup {}\n", refusal.map_or(0, |refusal| refusal.number()));
        match self.explain {
            true => printed + &explain::setup(self.tool(), refusal),
            false => printed,
        }
    }

    /// Without a tool there are no records, and none that waits.
    fn waiting(&self) -> String {
        let found = self.tool().waiting();
        let printed = print::waiting(found);
        match self.explain {
            true => printed + &explain::waiting(self.tool(), found),
            false => printed,
        }
    }

    fn input(&mut self, sent: &Sent, print: fn(&Answer) -> String) -> String {
        let (parts, before) = (sent.parts(), self.tool().clone());
        let answer = self.now.tool.step_parts(&parts);
        if let Some(pods) = &mut self.now.pods {
            pods.note_parts(&parts, &answer);
        }
        let printed = print(&answer);
        match self.explain {
            true => printed + &explain::answer(&before, self.tool(), &parts, &answer),
            false => printed,
        }
    }

    /// What was read, and where that was good the input's answer as `in` prints it. No message brings a pod.
    fn secs(&mut self, bytes: &[u8]) -> String {
        let before = self.tool().clone();
        let Bridged { answer, items } = self.now.tool.secs_step(bytes);
        let refusal = answer.as_ref().err().copied().filter(|refusal| refusal.is_of_message());
        let mut printed = format!("secs {} {items}\n", refusal.map_or(0, |refusal| refusal.number()));
        if self.explain {
            printed += &message::read(bytes, items, refusal);
        }
        printed + &self.stepped(&before, bytes, items, &answer)
    }

    /// The same with its reply, which stands on the first line.
    fn exchange(&mut self, bytes: &[u8], room: usize) -> String {
        let (before, mut lent) = (self.tool().clone(), vec![0; room]);
        let Exchanged { answer, items, reply } = self.now.tool.secs_exchange(bytes, &mut lent);
        let mut printed = print::exchange(&answer, items, reply);
        if self.explain {
            let refusal = answer.as_ref().err().copied().filter(|refusal| refusal.is_of_message());
            printed += &message::read(bytes, items, refusal);
            printed += &match answer {
                Err(Refusal::RoomTooSmall) => reply::not_exchanged(before.clone(), bytes, room),
                _ => reply::read(reply),
            };
        }
        printed + &self.stepped(&before, bytes, items, &answer)
    }

    /// The answer of the input that a message asked for; nothing where the tool got none.
    fn stepped(&self, before: &Tool, bytes: &[u8], items: u32, answer: &Answer) -> String {
        if answer.as_ref().is_err_and(|refusal| refusal.is_of_message() || *refusal == Refusal::RoomTooSmall)
        {
            return String::new();
        }
        let printed = print::numbered(answer);
        match self.explain {
            true => {
                let asked = message::asked(bytes, items);
                printed + &explain::answer(before, self.tool(), &asked.parts(), answer)
            }
            false => printed,
        }
    }

    fn reply(&self, number: u32, room: usize) -> String {
        let mut lent = vec![0; room];
        let written = hawsermole::reply(number, &mut lent);
        let printed = print::reply(written);
        match (self.explain, written) {
            (true, Ok(text)) => printed + &reply::read(text),
            (true, Err(_)) => printed + &reply::not_written(number, room),
            (false, _) => printed,
        }
    }
}

#[cfg(test)]
mod tests {
    use super::*;
    use crate::script;

    fn played(explain: bool, lines: &[&str]) -> String {
        let mut player = Player::new(explain);
        lines.iter().map(|line| player.play(&script::read(line.as_bytes()).unwrap())).collect()
    }

    #[test]
    fn without_a_tool_every_input_is_answered_1() {
        let lines = ["dump", "Bind 1 AB", "in 13 1 0 - -", "state", "waiting"];
        let expected = "end\n1  none\n1 0 []\nthere is no tool: set one up with setup P B\nwaiting none 0\n";
        assert_eq!(played(false, &lines), expected);
    }

    #[test]
    fn a_refused_set_up_takes_the_tool_away() {
        let lines =
            ["setup 2 0", "LoadStart 1", "setup 0 0", "LoadDone 1", "dump", "setup 1 0", "LoadStart 1"];
        let expected = "setup 0\n0  1 1 1>3\nsetup 1\n1  none\nend\nsetup 0\n0  1 1 1>3\n";
        assert_eq!(played(false, &lines), expected);
    }

    const BIND: &str = "secs 0105A50107410442696E6441024142A501010100";

    #[test]
    fn messages_are_read_and_then_stepped() {
        let lines = [BIND, "secs -", "setup 1 0", BIND, BIND, "secs 0105"];
        let expected =
            format!("secs 0 6\n1 0 []\nsecs 20 0\nsetup 0\nsecs 0 6\n{BOUND}\nsecs 0 6\n3 0 []\nsecs 20 1\n");
        assert_eq!(played(false, &lines), expected);
    }

    /// Without the lines that explain, the rest is as it is without `--explain`.
    #[test]
    fn messages_are_explained_below_each_line() {
        let lines = ["setup 1 0", BIND, "secs 0105"];
        let explained = played(true, &lines);
        let plain: Vec<&str> = explained.lines().filter(|line| !line.starts_with("  ")).collect();
        assert_eq!(plain.join("\n") + "\n", played(false, &lines));
        assert!(explained.contains("     18    L,0\n0 6 ["), "{explained}");
        assert!(explained.contains("]\n  Bind(1, AB): associate"), "{explained}");
        assert!(explained.ends_with(
            "  at byte 2: the message ends where an item should begin\n  the tool gets no input\n"
        ));
    }

    const BOUND: &str = "0 6 [3 1 0 1; 4 1 0 1; 5 4142 0 1; 6 4142 0 1; 7 4142 0 1; 8 4142 0 2]";

    /// Where the room is too small, the tool gets no input, and the same message is accepted afterwards.
    #[test]
    fn exchanges_are_messages_with_their_reply() {
        let bind = BIND.replace("secs", "exchange");
        let lines =
            ["setup 1 0", &format!("{bind} 6"), &format!("{bind} 7"), "exchange 0105 31", "exchange 0105 32"];
        let cut = "0102a5010301010102a902001441114d657373616765206375742073686f7274";
        let expected = format!(
            "setup 0\nexchange 14 6 -\nexchange 0 6 0102a501000100\n{BOUND}\nexchange 14 1 -\nexchange 20 1 {cut}\n"
        );
        assert_eq!(played(false, &lines), expected);
        let explained = played(true, &lines);
        let plain: Vec<&str> = explained.lines().filter(|line| !line.starts_with("  ")).collect();
        assert_eq!(plain.join("\n") + "\n", expected);
    }

    #[test]
    fn replies_to_any_number() {
        let lines = ["reply 0 7", "reply 0 6", "reply 4294967295 30", "reply 4294967295 29"];
        let unknown = "0102a5010501010102a902ffff410f556e6b6e6f776e207265667573616c";
        let expected = format!("reply 0 0102a501000100\nreply 14 -\nreply 0 {unknown}\nreply 14 -\n");
        assert_eq!(played(false, &lines), expected);
    }

    #[test]
    fn explanations_stand_below_the_answer() {
        let expected = "setup 0\n  accepted: fixed buffer tool, 1 port\n0 1 [1 1 1 3]\n\
                        \x20 LoadStart(1, manual): a pod starts to arrive\n  accepted\n\
                        \x20 port 1: READY TO LOAD to TRANSFER BLOCKED\n";
        assert_eq!(played(true, &["# a comment", "setup 1 0", "in 13 1 0 - -"]), expected);
    }
}
