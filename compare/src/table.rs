//! What each part compared, printed as it comes, and the lines at the end.

use std::process::ExitCode;

use independent::gen::requests::{ALONG_RUNS, BEFALLS, FORETELLS, TOTALS, VIOLATES};

use crate::alarms::Violated;
use crate::pairs::{allowed, Pairs};
use crate::parts::damaged::Damage;
use crate::parts::judge::Logs;
use crate::parts::messages::Messages;
use crate::parts::names::Texts;
use crate::parts::replies::Replies;
use crate::parts::waiting::Tables;
use crate::play::Tally;
use crate::pods::Counted;
use crate::predict::Foretold;
use crate::queue::Befallen;
use crate::undo::Undone;
use crate::wafers::Totalled;

/// Runs that refuse most of what they are given would show little.
const LEAST_ACCEPTED: f64 = 60.0;

#[derive(Default)]
pub struct Table {
    inputs: u64,
    pub along_runs: Pairs,
    pub runs_accepted: f64,
    /// Slot maps that were OK at once, along the runs and from states.
    pub at_once: [u64; 2],
    /// Accepted inputs whose name was padded, along the runs and from states.
    pub padded: [u64; 2],
    /// What befell the queues, along the runs and from states.
    pub befallen: [Befallen; 2],
    /// What befell the predictions, along the runs without a buffer and from states.
    pub foretold: [Foretold; 2],
    /// What wafers were, along the runs without a buffer and from states.
    pub totalled: [Totalled; 2],
    /// What befell the alarms, along the runs and from states.
    pub violated: [Violated; 2],
    /// What befell the count of pods, along all runs.
    pub counted: Counted,
    /// What was undone, along all runs and from states.
    pub undone: [Undone; 2],
    /// Inputs that were given by a function that isn't theirs.
    pub by_others: u64,
    pub texts: Texts,
    pub tables: Tables,
    pub messages: Messages,
    pub replies: Replies,
    pub logs: Logs,
}

impl Table {
    pub fn begin() -> Table {
        println!(
            "{:<44}{:>10}{:>11}{:>7}{:>10}{:>10}",
            "part", "inputs", "accepted", "pairs", "at once", "padded"
        );
        Table::default()
    }

    pub fn line(&mut self, part: &str, tally: &Tally) {
        self.inputs += tally.inputs;
        let (inputs, accepted, pairs) = (tally.inputs, tally.percent(), tally.pairs.met());
        let (at_once, padded) = (tally.at_once, tally.padded);
        println!("{part:<44}{inputs:>10}{accepted:>9.1} %{pairs:>7}{at_once:>10}{padded:>10}");
    }

    pub fn damage(&mut self, part: &str, damage: &Damage) {
        self.line(&format!("{part}, {} still sound", damage.sound), &damage.tally);
    }

    /// The last lines; a failure where something wasn't met that must be.
    pub fn end(&self) -> ExitCode {
        let unmet = self.unmet();
        unmet.iter().for_each(|line| println!("{line}"));
        self.counts();
        let (met, all, inputs) = (self.along_runs.met(), allowed(), self.inputs);
        println!("{met} of {all} pairs of row and answer met along the runs; {inputs} inputs compared, no difference");
        if unmet.is_empty() {
            ExitCode::SUCCESS
        } else {
            ExitCode::FAILURE
        }
    }

    /// A line for each part that left out what it must meet.
    fn unmet(&self) -> Vec<String> {
        let pairs = self.along_runs.missing().iter().map(|(row, answer)| format!("{row} {answer}")).collect();
        let [queues_of_runs, queues_of_states] = self.befallen;
        let [predictions_of_runs, predictions_of_states] = self.foretold;
        let [wafers_of_runs, _] = self.totalled;
        let [alarms_of_runs, alarms_of_states] = self.violated;
        let [undone_of_runs, undone_of_states] = self.undone;
        let parts: [(&str, Vec<String>); 14] = [
            ("along the runs, row and answer", pairs),
            ("along the runs, by a queue", queues_of_runs.unmet()),
            ("from states, by a queue", queues_of_states.unmet()),
            ("along the runs, by a prediction", predictions_of_runs.unmet()),
            ("from states, by a prediction", predictions_of_states.unmet()),
            ("along the runs, of wafers", wafers_of_runs.unmet()),
            ("along the runs, by an alarm", alarms_of_runs.unmet_along_runs()),
            ("from states, by an alarm", alarms_of_states.unmet()),
            ("among the messages", self.messages.unmet()),
            ("among the messages that are answered", self.replies.unmet()),
            ("among the logs", self.logs.unmet()),
            ("often enough along the runs, of pods", self.counted.unmet()),
            ("often enough along the runs, row undone", undone_of_runs.unmet()),
            ("often enough from states, row undone", undone_of_states.unmet()),
        ];
        let parts = parts.iter().filter(|(_, unmet)| !unmet.is_empty());
        let mut lines: Vec<String> =
            parts.map(|(part, unmet)| format!("NOT MET {part}: {}", unmet.join(", "))).collect();
        if self.runs_accepted < LEAST_ACCEPTED {
            lines.push(format!("TOO FEW ACCEPTED along the runs: {:.1} %", self.runs_accepted));
        }
        for (what, counts) in
            [("SLOT MAP was OK at once", self.at_once), ("PADDED NAME was accepted", self.padded)]
        {
            if counts.contains(&0) {
                lines.push(format!("NO {what} along the runs, or none from states"));
            }
        }
        lines
    }

    /// What was compared besides inputs.
    fn counts(&self) {
        let [runs, states] = self.at_once;
        println!("{runs} slot maps were OK at once along the runs, {states} from random sound states");
        let [runs, states] = self.padded;
        println!("{runs} padded names were accepted along the runs, {states} from random sound states");
        let ([runs, states], all) = (self.befallen.map(|befallen| befallen.met()), BEFALLS.len());
        println!("of {all} things that may befall a queue {runs} did along the runs, {states} from random sound states");
        let ([runs, states], all) = (self.foretold.map(|foretold| foretold.met()), FORETELLS.len());
        let most = self.foretold.map(|foretold| foretold.most).into_iter().max().unwrap_or(0);
        println!("of {all} things that may befall a prediction {runs} did along the runs, {states} from random sound states");
        let ([runs, states], all) = (self.totalled.map(|totalled| totalled.met()), TOTALS.len());
        println!("of {all} things that wafers may be {runs} were met along the runs, {states} from random sound states");
        let ([runs, states], all) = (self.violated.map(|violated| violated.met()), VIOLATES.len());
        println!("of {all} things that may befall an alarm {runs} of {ALONG_RUNS} did along the runs, {states} from random sound states");
        println!("{}", self.counted);
        let [[runs, not], [states, not_from_states]] = self.undone.map(|undone| undone.counts());
        println!("{runs} inputs were undone along the runs, {not} left something behind; {states} and {not_from_states} from random sound states");
        println!("an input gave {most} reports at most");
        println!("{} inputs were given by a function that isn't theirs", self.by_others);
        let Texts { compared, names } = self.texts;
        println!("{compared} texts were given to the name check alone, {names} of them have a name");
        let Tables { compared, waiting } = self.tables;
        println!("{compared} tables were searched for a carrier that waits for the host, {waiting} of them have one");
        let (m, Messages { compared, ordered, .. }) = (&self.messages, self.messages);
        println!("{compared} messages were read and stepped, {ordered} of them from an input; answers {m}");
        let (r, Replies { texts, texts_too_long, messages, messages_too_long, .. }) =
            (&self.replies, self.replies);
        println!("{texts} answers were written to a room, {texts_too_long} of them too long for it");
        println!("{messages} messages were answered in a room, {messages_too_long} of them with 14; the others {r}");
        let (l, Logs { judged, .. }) = (&self.logs, self.logs);
        println!("{judged} logs were judged; {l}");
    }
}

#[cfg(test)]
mod tests {
    use super::*;

    #[test]
    fn what_is_not_met_is_told() {
        let lines = Table::default().unmet();
        assert_eq!(lines.len(), 17, "{lines:?}");
        assert!(lines[1].starts_with("NOT MET along the runs, by a queue: CancelCarrier of"), "{lines:?}");
        assert!(
            lines[3].starts_with("NOT MET along the runs, by a prediction: Tp at the setting"),
            "{lines:?}"
        );
        assert!(lines[5].starts_with("NOT MET along the runs, of wafers: no wafers, one wafer"), "{lines:?}");
        assert!(
            lines[6].starts_with("NOT MET along the runs, by an alarm: a manual load in AUTO"),
            "{lines:?}"
        );
        assert!(lines[7].ends_with("LoadDone that holds in MANUAL"), "{lines:?}");
        assert_eq!(lines[10], "NOT MET among the logs: agrees, disagrees, 27, 28, 29");
        assert!(
            lines[11].contains("along the runs, of pods: LoadDone by hand in MANUAL (0 times), "),
            "{lines:?}"
        );
        assert!(lines[11].ends_with("a pod at a port (0 times), a pod in the buffer (0 times)"), "{lines:?}");
        assert!(lines[12].contains("along the runs, row undone: 1 by 2 (0 times), 3 by 4"), "{lines:?}");
        assert_eq!(lines[15], "NO SLOT MAP was OK at once along the runs, or none from states");
    }
}
