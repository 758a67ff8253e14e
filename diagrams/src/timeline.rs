//! A line of time for field engineers: what the prediction of a carrier is when, second by second as the machine has it.
//!
//! Only what is sent in each run is written down here; where a state begins and ends is found by playing it.
use crate::layout::{Side, WIDTH};
use crate::svg::lines_text;
use crate::text::{width, wrapped, LINE, SIZE};
use hawsermole::{Input, Model, Tool};

pub const FILE: &str = "timeline.svg";

const NAME: &[u8] = b"A";
const MAP: &[u8] = &[3; hawsermole::SLOTS];

/// Document 000's own numbers: R3-4.
pub const SETTING: u32 = 60;
pub const TIMEOUT: u32 = 120;
/// Predicted is five past nine.
pub const TP: u32 = time(9, 5, 0);
/// The seconds that are drawn.
const FROM: u32 = TP - 130;
const TO: u32 = TP + 180;

const fn time(hours: u32, minutes: u32, seconds: u32) -> u32 {
    3600 * hours + 60 * minutes + seconds
}

/// What is sent besides clocks.
#[derive(Clone, Copy, Debug)]
enum Given {
    Predicted,
    Estimate(u32),
    /// The access ends, and the carrier is closed: its port is READY TO UNLOAD.
    Close,
}

struct Run {
    words: &'static str,
    given: &'static [(u32, Given)],
}

const SOON: (u32, Given) = (FROM, Given::Predicted);

const RUNS: [Run; 7] = [
    Run { words: "No estimate, and it doesn't get ready", given: &[SOON] },
    Run { words: "No estimate, and it gets ready after Tp", given: &[SOON, (time(9, 6, 0), Given::Close)] },
    Run {
        words: "An estimate at the timeout or beyond it",
        given: &[SOON, (time(9, 5, 20), Given::Estimate(TP + TIMEOUT)), (time(9, 6, 40), Given::Close)],
    },
    Run {
        words: "The same while Tp is far",
        given: &[SOON, (time(9, 3, 50), Given::Estimate(TP + TIMEOUT))],
    },
    Run {
        words: "An estimate within the timeout, and no other after it",
        given: &[SOON, (time(9, 5, 20), Given::Estimate(TP + TIMEOUT - 1))],
    },
    Run { words: "Tp comes late", given: &[(time(9, 4, 20), Given::Predicted)] },
    Run {
        words: "Ready while Tp is far, and 4 and 6 come at one clock",
        given: &[SOON, (time(9, 3, 20), Given::Close)],
    },
];

/// A state, and the seconds from which and until which it lasts.
#[derive(Clone, Copy, Debug, PartialEq, Eq)]
struct Span {
    state: u8,
    from: u32,
    until: u32,
}

/// The carrier is IN ACCESS at port 1, and WAITING FOR PREDICTION.
fn in_access() -> Result<Tool, String> {
    let mut tool =
        Tool::setup_with_times(1, 0, SETTING, TIMEOUT).map_err(|refusal| format!("{FILE}: {refusal}"))?;
    let visit = [
        Input::Bind { port: 1, name: NAME },
        Input::LoadStart { port: 1, start: 0 },
        Input::LoadDone { port: 1 },
        Input::IdRead { port: 1, name: NAME },
        Input::Open { name: NAME },
        Input::SlotMap { name: NAME, codes: MAP },
        Input::ProceedWithCarrier { name: NAME, port: 1 },
        Input::AccessStart { name: NAME },
    ];
    visit.iter().try_for_each(|input| give(&mut tool, input))?;
    Ok(tool)
}

fn give(tool: &mut Tool, input: &Input) -> Result<(), String> {
    tool.step(input).map(|_| ()).map_err(|refusal| format!("{FILE}: {input}: {refusal}"))
}

/// Sends the clock every second, and what is given at its second.
fn played(run: &Run) -> Result<Vec<Span>, String> {
    let mut tool = in_access()?;
    let mut spans: Vec<Span> = Vec::new();
    for clock in FROM..=TO {
        give(&mut tool, &Input::Clock { clock })?;
        for (_, given) in run.given.iter().filter(|(at, _)| *at == clock) {
            match *given {
                Given::Predicted => give(&mut tool, &Input::PredictedTime { clock, name: NAME, tp: TP })?,
                Given::Estimate(te) => give(&mut tool, &Input::Estimate { clock, name: NAME, te })?,
                Given::Close => {
                    give(&mut tool, &Input::AccessEnd { name: NAME, end: 0 })?;
                    give(&mut tool, &Input::Close { name: NAME })?;
                }
            }
        }
        let state = tool.prediction(NAME).map_or(0, |prediction| prediction.state);
        match spans.last_mut() {
            Some(last) if last.state == state => last.until = clock,
            Some(last) => {
                last.until = clock;
                spans.push(Span { state, from: clock, until: clock });
            }
            None => spans.push(Span { state, from: clock, until: clock }),
        }
    }
    Ok(spans)
}

const LEFT: i32 = 30;
/// Where the first run's words stand, and how far it is from one run to the next.
const TOP: i32 = 74;
const STEP: i32 = 68;
const BAR: i32 = 38;
const PER_SECOND: i32 = 2;

fn across(clock: u32) -> i32 {
    LEFT + PER_SECOND * (clock - FROM) as i32
}

fn hour(clock: u32) -> String {
    format!("{}:{:02}:{:02}", clock / 3600, clock / 60 % 60, clock % 60)
}

/// What is said of a run: its words, and each input with its second.
fn caption(run: &Run) -> String {
    let told = |&(at, given): &(u32, Given)| match given {
        Given::Predicted if at == FROM => None,
        Given::Predicted => Some(format!("PredictedTime at {}", hour(at))),
        Given::Estimate(te) => Some(format!("Estimate at {}, Te {}", hour(at), hour(te))),
        Given::Close => Some(format!("Close at {}", hour(at))),
    };
    let events: Vec<String> = run.given.iter().filter_map(told).collect();
    match events.is_empty() {
        true => run.words.into(),
        false => format!("{}: {}", run.words, events.join("; ")),
    }
}

/// The picture; `Err` where words don't fit, or the machine doesn't change at the seconds that are marked.
pub fn svg() -> Result<String, String> {
    let runs: Vec<Vec<Span>> = RUNS.iter().map(played).collect::<Result<_, _>>()?;
    check_marks(&runs[0])?;
    let bottom = TOP + STEP * RUNS.len() as i32;
    let total = bottom + 3 * LINE + 8;
    let mut out = format!(
        "<svg xmlns=\"http://www.w3.org/2000/svg\" \
         width=\"{WIDTH}\" height=\"{total}\" viewBox=\"0 0 {WIDTH} {total}\" \
         font-family=\"Helvetica, Arial, Liberation Sans, sans-serif\" font-size=\"{SIZE}\">\n\
         <title>When a carrier is PREDICTED and when ABORTED</title>\n\
         <rect width=\"{WIDTH}\" height=\"{total}\" fill=\"white\"/>\n"
    );
    out += &axis(bottom);
    for (place, (run, spans)) in RUNS.iter().zip(&runs).enumerate() {
        out += &lane(run, spans, TOP + STEP * place as i32)?;
    }
    let below = [
        format!(
            "Setting time {SETTING} s, timeout {TIMEOUT} s. Tp is told at {}, but where it comes late.",
            hour(FROM)
        ),
        "The clock is sent every second. Gray: PREDICTED. Triangle: an input.".into(),
        "Close, after AccessEnd, makes the port READY TO UNLOAD.".into(),
    ];
    for line in &below {
        fits(line, WIDTH - LEFT)?;
    }
    out += &lines_text(&below, (LEFT, bottom + LINE + LINE / 2), Side::Start, false);
    Ok(out + "</svg>\n")
}

/// The seconds that the axis marks are those at which the first run changes.
fn check_marks(spans: &[Span]) -> Result<(), String> {
    let changes: Vec<u32> = spans.iter().skip(1).map(|span| span.from).collect();
    let marked = [TP - SETTING, TP + TIMEOUT];
    match changes == marked {
        true => Ok(()),
        false => Err(format!("{FILE}: the first run changes at {changes:?}, and marked are {marked:?}")),
    }
}

fn fits(line: &str, room: i32) -> Result<(), String> {
    match width(line) <= room {
        true => Ok(()),
        false => Err(format!("{FILE}: no room for '{line}'")),
    }
}

/// The clock, with its marks, and a line down from each.
fn axis(bottom: i32) -> String {
    let marks = [(TP - SETTING, "Tp less setting time"), (TP, "Tp"), (TP + TIMEOUT, "Tp plus timeout")];
    let y = TOP - 22;
    let mut out = format!(
        "<path d=\"M{LEFT} {y}H{}\" fill=\"none\" stroke=\"black\" stroke-width=\"1.5\"/>\n\
         <path d=\"M{} {y}l-9 -4v8Z\"/>\n",
        across(TO) + 12,
        across(TO) + 20
    );
    out += &lines_text(&["clock".into()], (LEFT, y - 12), Side::Start, false);
    for (clock, words) in marks {
        let x = across(clock);
        out += &format!(
            "<path d=\"M{x} {}V{bottom}\" fill=\"none\" stroke=\"black\" stroke-width=\"0.8\" \
             stroke-dasharray=\"3 3\"/>\n",
            y - 5
        );
        out += &lines_text(&[words.into(), hour(clock)], (x, y - 24), Side::Middle, clock == TP);
    }
    out
}

/// A run's words, and its states in a bar.
fn lane(run: &Run, spans: &[Span], y: i32) -> Result<String, String> {
    let words = caption(run);
    fits(&words, WIDTH - LEFT)?;
    let mut out = format!(
        "<rect x=\"{LEFT}\" y=\"{}\" width=\"{}\" height=\"{LINE}\" fill=\"white\"/>\n",
        y - LINE / 2,
        width(&words)
    );
    out += &lines_text(&[words], (LEFT, y), Side::Start, false);
    let top = y + LINE / 2 + 4;
    for span in spans {
        let (left, right) = (across(span.from), across(span.until));
        let fill = if span.state == 4 { "#d4d4d4" } else { "white" };
        out += &format!(
            "<rect x=\"{left}\" y=\"{top}\" width=\"{}\" height=\"{BAR}\" fill=\"{fill}\" stroke=\"black\" \
             stroke-width=\"1.2\"/>\n",
            right - left
        );
        let lines =
            wrapped(&format!("{} {}", span.state, Model::Prediction.state(span.state)), right - left - 6);
        if lines.len() > 2 {
            return Err(format!("{FILE}: no room for state {} in '{}'", span.state, run.words));
        }
        for line in &lines {
            fits(line, right - left)?;
        }
        out += &lines_text(&lines, ((left + right) / 2, top + BAR / 2), Side::Middle, true);
    }
    for (at, _) in run.given.iter().filter(|(at, _)| *at != FROM) {
        out += &format!("<path d=\"M{} {}l-5 8h10Z\"/>\n", across(*at), top + BAR);
    }
    Ok(out)
}

#[cfg(test)]
mod tests {
    use super::*;

    fn states(run: usize) -> Vec<(u8, u32)> {
        played(&RUNS[run]).unwrap().iter().map(|span| (span.state, span.from)).collect()
    }

    /// Document 000, 10.7.8.4 and 10.7.8.5, to the second.
    #[test]
    fn runs_change_when_document_000_says() {
        assert_eq!(states(0), [(3, FROM), (4, TP - SETTING), (5, TP + TIMEOUT)]);
        assert_eq!(states(1), [(3, FROM), (4, TP - SETTING), (6, time(9, 6, 0))]);
        assert_eq!(states(2), [(3, FROM), (4, TP - SETTING), (5, time(9, 5, 20)), (6, time(9, 6, 40))]);
        assert_eq!(states(3), [(3, FROM), (5, time(9, 3, 50))]);
        assert_eq!(states(4), [(3, FROM), (4, TP - SETTING)]);
        assert_eq!(states(5), [(3, FROM), (4, time(9, 4, 20)), (5, TP + TIMEOUT)]);
        assert_eq!(states(6), [(3, FROM), (6, TP - SETTING)]);
    }

    #[test]
    fn marks_are_where_the_machine_changes() {
        let moved = Span { state: 4, from: TP, until: TO };
        assert!(check_marks(&[Span { state: 3, from: FROM, until: TP }, moved])
            .unwrap_err()
            .contains("marked"));
        assert!(fits("WAITING FOR PREDICTION", 40).is_err());
    }
}
