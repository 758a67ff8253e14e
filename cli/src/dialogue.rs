//! A dialogue with the tool: what is kept beside it, so that a slip costs nothing and a script can be a test. It takes
//! inputs back, saves and loads the tool's bytes, and compares what was printed with what was expected.
use crate::explain;
use crate::player::Player;
use crate::pods::Played;
use crate::script::{self, Command};
use crate::soundness;
use crate::values::shown;
use hawsermole::{Tool, TOOL_BYTES};
use std::collections::VecDeque;
use std::fs::{self, File};
use std::io::Read;
use std::path::Path;

/// How many changes can be taken back.
const KEPT: usize = 1000;

/// What a line came to: what it prints, and how an `expect` wasn't met.
#[derive(Debug, Default, PartialEq, Eq)]
pub struct Turn {
    pub printed: String,
    pub unmet: Option<String>,
}

/// A player, and what came before.
pub struct Dialogue {
    player: Player,
    check: bool,
    /// The tools and the counts of their pods before each change, the latest last, with the line that changed them.
    before: VecDeque<(Played, String)>,
    /// The lines that the last command printed and no `expect` has been held to yet.
    unread: VecDeque<String>,
    /// How many lines were expected, and how many of them weren't printed.
    pub expected: u64,
    pub unmet: u64,
}

impl Dialogue {
    pub fn new(explain: bool, check: bool) -> Dialogue {
        Dialogue {
            player: Player::new(explain),
            check,
            before: VecDeque::new(),
            unread: VecDeque::new(),
            expected: 0,
            unmet: 0,
        }
    }

    /// Carries a line out. `Err` says why it can't be: the tool stays as it is.
    pub fn take(&mut self, line: &[u8]) -> Result<Turn, String> {
        let command = script::read(line);
        if !matches!(command, Ok(Command::Nothing | Command::Expect(_))) {
            self.unread.clear();
        }
        let printed = match command? {
            Command::Expect(words) => return Ok(Turn { unmet: self.expect(&words), ..Turn::default() }),
            Command::Save(file) => self.save(&file)?,
            Command::Load(file) => self.load(&file, line)?,
            Command::Undo => self.undo(),
            Command::Pods => self.player.pods()?,
            command => {
                let before = self.player.now().clone();
                let printed = self.player.play(&command);
                self.keep(before, line);
                printed
            }
        };
        self.unread.extend(printed.lines().filter(|line| !line.starts_with("  ")).map(String::from));
        Ok(Turn { printed, unmet: None })
    }

    /// Keeps what was before a line, if the line has changed the tool or the count of its pods.
    fn keep(&mut self, before: Played, line: &[u8]) {
        if before == *self.player.now() {
            return;
        }
        if self.before.len() == KEPT {
            self.before.pop_front();
        }
        self.before.push_back((before, shown(line.trim_ascii())));
    }

    fn undo(&mut self) -> String {
        match self.before.pop_back() {
            None => "undo none\n".into(),
            Some((before, line)) => {
                self.player.replace(before);
                format!("undo {line}\n")
            }
        }
    }

    fn save(&self, file: &Path) -> Result<String, String> {
        let written = fs::write(file, self.player.tool().as_bytes());
        written.map_err(|error| format!("{}: {error}", shown(file.as_os_str().as_encoded_bytes())))?;
        Ok(format!("save {TOOL_BYTES}\n"))
    }

    /// Any bytes of the right length are taken: whether they are a sound tool is told.
    fn load(&mut self, file: &Path, line: &[u8]) -> Result<String, String> {
        let name = shown(file.as_os_str().as_encoded_bytes());
        let mut bytes = Vec::new();
        let opened = File::open(file).map(|file| file.take(TOOL_BYTES as u64 + 1));
        opened
            .and_then(|mut file| file.read_to_end(&mut bytes))
            .map_err(|error| format!("{name}: {error}"))?;
        let more = if bytes.len() > TOOL_BYTES { "more than " } else { "" };
        let length = bytes.len().min(TOOL_BYTES);
        let bytes: &[u8; TOOL_BYTES] = bytes
            .as_slice()
            .try_into()
            .map_err(|_| format!("{name}: it has {more}{length} bytes, and a tool has {TOOL_BYTES}"))?;
        let before = self.player.replace(Played::loaded(Tool::from_bytes(bytes)));
        self.keep(before, line);
        Ok(self.loaded())
    }

    fn loaded(&self) -> String {
        let tool = self.player.tool();
        if *tool == Tool::none() {
            return "load none\n".into();
        }
        match soundness::fault(tool) {
            Some(fault) => format!("load unsound, {fault}\n"),
            None if self.player.explains() => format!("load sound\n  loaded: {}\n", explain::tool_kind(tool)),
            None => "load sound\n".into(),
        }
    }

    /// How the next line that was printed differs from the words; a last word `..` stands for whatever follows.
    fn expect(&mut self, words: &[String]) -> Option<String> {
        if !self.check {
            return None;
        }
        self.expected += 1;
        let line = self.unread.pop_front();
        let printed: Vec<&str> = line.iter().flat_map(|line| line.split_ascii_whitespace()).collect();
        let met = match words {
            [first @ .., last] if last == ".." => line.is_some() && printed.starts_with(&strs(first)),
            _ => printed == strs(words),
        };
        if met {
            return None;
        }
        self.unmet += 1;
        let expected: Vec<String> = words.iter().map(|word| shown(word.as_bytes())).collect();
        let printed = if line.is_some() { format!("'{}'", printed.join(" ")) } else { "nothing more".into() };
        Some(format!("expected '{}', printed {printed}", expected.join(" ")))
    }
}

fn strs(words: &[String]) -> Vec<&str> {
    words.iter().map(String::as_str).collect()
}

#[cfg(test)]
mod tests {
    use super::*;
    use std::path::PathBuf;

    fn printed(dialogue: &mut Dialogue, lines: &[&str]) -> String {
        lines.iter().map(|line| dialogue.take(line.as_bytes()).unwrap().printed).collect()
    }

    fn dialogue(lines: &[&str]) -> Dialogue {
        let mut dialogue = Dialogue::new(false, true);
        printed(&mut dialogue, lines);
        dialogue
    }

    /// A file of this test's own.
    fn file(name: &str) -> PathBuf {
        std::env::temp_dir().join(format!("hawsermole-{}-{name}", std::process::id()))
    }

    #[test]
    fn changes_are_taken_back_one_by_one() {
        let mut dialogue = dialogue(&["setup 1 0", "dump", "LoadStart  1 ", "LoadStart 1", "waiting"]);
        let undone = "undo LoadStart  1\nundo setup 1 0\nundo none\nend\n";
        assert_eq!(printed(&mut dialogue, &["undo", "undo", "undo", "dump"]), undone);
    }

    #[test]
    fn as_many_changes_are_kept_as_are_promised() {
        let mut dialogue = dialogue(&["setup 1 0"]);
        for _ in 0..KEPT / 2 {
            printed(&mut dialogue, &["ReserveAtPort 1", "CancelReservationAtPort 1"]);
        }
        let undone = printed(&mut dialogue, &["undo"; KEPT]);
        assert!(undone.ends_with("\nundo ReserveAtPort 1\n") && !undone.contains("setup"));
        assert_eq!(printed(&mut dialogue, &["undo"]), "undo none\n");
    }

    #[test]
    fn a_tool_is_saved_and_loaded() {
        let file = file("saved");
        let (save, load) = (format!("save {}", file.display()), format!("load {}", file.display()));
        let mut one = dialogue(&["setup 2 1 60 120", "Clock 9", "Bind 1 AB"]);
        assert_eq!(printed(&mut one, &[&save]), "save 3782\n");
        assert_eq!(fs::read(&file).unwrap(), one.player.tool().as_bytes());
        let mut other = dialogue(&["setup 1 0"]);
        assert_eq!(printed(&mut other, &[&load]), "load sound\n");
        assert_eq!(other.player.tool(), one.player.tool());
        assert_eq!(printed(&mut other, &["undo"]), format!("undo {}\n", shown(load.as_bytes())));
        let mut explained = Dialogue::new(true, false);
        let told = "load sound\n  loaded: internal buffer tool, 2 ports, 1 buffer place, \
                    setting time 60 s, timeout 120 s\n";
        assert_eq!(printed(&mut explained, &[&load]), told);
        fs::remove_file(file).unwrap();
    }

    #[test]
    fn whatever_is_loaded_is_told() {
        let file = file("damaged");
        let load = format!("load {}", file.display());
        let mut dialogue = dialogue(&["setup 1 0"]);
        let mut bytes = *dialogue.player.tool().as_bytes();
        bytes[3] = 7;
        fs::write(&file, bytes).unwrap();
        let at = "port 1: transfer state 7, not 0 to 3 (byte 3)";
        let unsound = format!("load unsound, not so: every field is in its range ({at})\n");
        assert_eq!(printed(&mut dialogue, &[&load]), unsound);
        assert_eq!(printed(&mut dialogue, &["LoadStart 1"]), "1  none\n");
        fs::write(&file, [0; TOOL_BYTES]).unwrap();
        assert_eq!(printed(&mut dialogue, &[&load]), "load none\n");
        for (length, told) in
            [(0, "0 bytes"), (3781, "3781 bytes"), (3783, "more than 3782 bytes"), (9999, "more")]
        {
            fs::write(&file, vec![0; length]).unwrap();
            let error = dialogue.take(load.as_bytes()).unwrap_err();
            assert!(error.contains(&format!(": it has {told}")), "{error}");
        }
        assert_eq!(printed(&mut dialogue, &["undo"]), format!("undo {}\n", shown(load.as_bytes())));
        fs::remove_file(file).unwrap();
    }

    /// The count goes on through what prints, is taken back with what changed it, and isn't known after a load.
    #[test]
    fn pods_are_counted_since_the_set_up() {
        let file = file("pods");
        let (save, load) = (format!("save {}", file.display()), format!("load {}", file.display()));
        let mut dialogue = dialogue(&["setup 1 0", "LoadStart 1", "LoadDone 1", "dump", "LoadDone 1"]);
        assert_eq!(printed(&mut dialogue, &["pods"]), "pods 1 0 1 0\n");
        printed(&mut dialogue, &[&save, &load]);
        assert_eq!(printed(&mut dialogue, &["pods"]), "pods - - 1 0\n");
        let undone = format!("undo {}\npods 1 0 1 0\n", shown(load.as_bytes()));
        assert_eq!(printed(&mut dialogue, &["undo", "pods"]), undone);
        assert_eq!(printed(&mut dialogue, &["undo", "pods"]), "undo LoadDone 1\npods 0 0 0 0\n");
        printed(
            &mut dialogue,
            &["in 14 1 0 - -", "IdRead 1 A", "CancelCarrier A 1", "UnloadStart 1", "UnloadDone 1"],
        );
        assert_eq!(printed(&mut dialogue, &["pods"]), "pods 1 1 0 0\n");
        // The tool is as after its set-up: a second one changes the count alone, and is taken back as well.
        assert_eq!(printed(&mut dialogue, &["setup 1 0", "pods"]), "setup 0\npods 0 0 0 0\n");
        assert_eq!(printed(&mut dialogue, &["undo", "pods"]), "undo setup 1 0\npods 1 1 0 0\n");
        fs::remove_file(file).unwrap();
    }

    #[test]
    fn pods_need_a_tool() {
        let mut dialogue = dialogue(&[]);
        assert!(dialogue.take(b"pods").unwrap_err().contains("set one up with setup P B"));
        printed(&mut dialogue, &["setup 1 0", "setup 5 0"]);
        assert!(dialogue.take(b"pods").is_err());
        printed(&mut dialogue, &["undo"]);
        assert_eq!(printed(&mut dialogue, &["pods"]), "pods 0 0 0 0\n");
    }

    fn unmet(dialogue: &mut Dialogue, line: &str) -> Option<String> {
        dialogue.take(line.as_bytes()).unwrap().unmet
    }

    #[test]
    fn words_are_expected_of_the_lines_in_turn() {
        let mut dialogue = dialogue(&["setup 2 0", "dump", "", "# blank lines and comments are passed over"]);
        assert_eq!(unmet(&mut dialogue, "expect port  1 1 0 0 - 0 0 0"), None);
        assert_eq!(unmet(&mut dialogue, "expect port 2 .."), None);
        assert_eq!(unmet(&mut dialogue, "expect time 0 0 0"), None);
        assert_eq!(unmet(&mut dialogue, "expect alarm 1 0 0"), None);
        assert_eq!(unmet(&mut dialogue, "expect alarm 2 .."), None);
        assert_eq!(unmet(&mut dialogue, "expect end .."), None);
        let nothing = "expected 'end ..', printed nothing more";
        assert_eq!(unmet(&mut dialogue, "expect end .."), Some(nothing.into()));
        assert_eq!(unmet(&mut dialogue, "expect .."), Some("expected '..', printed nothing more".into()));
        assert_eq!((dialogue.expected, dialogue.unmet), (8, 2));
    }

    #[test]
    fn more_and_fewer_words_are_not_met() {
        let mut dialogue = dialogue(&["setup 1 0", "LoadDone 1"]);
        assert_eq!(unmet(&mut dialogue, "expect 5"), Some("expected '5', printed '5 none'".into()));
        printed(&mut dialogue, &["LoadDone 1"]);
        assert!(unmet(&mut dialogue, "expect 5 none 1").is_some());
        assert!(dialogue.take(b"nonsense").is_err());
        assert!(unmet(&mut dialogue, "expect 5 none").is_some());
    }

    /// What explains isn't compared.
    #[test]
    fn explanations_are_not_expected() {
        let mut dialogue = Dialogue::new(true, true);
        printed(&mut dialogue, &["setup 1 0"]);
        assert_eq!(unmet(&mut dialogue, "expect setup 0"), None);
        assert!(unmet(&mut dialogue, "expect ..").is_some());
    }
}
