//! What an input, its answer and its reports mean, in E87's words: indented lines below the answer.
use crate::grounds;
use crate::hands;
use crate::predictions;
use crate::print::{self, Answer};
use crate::queue;
use crate::values::cut;
use hawsermole::{
    words, Argument, Model, Name, NameError, Parts, Refusal, Report, Row, Subject, Tool, Waiting,
    SECONDS_MOST, SLOTS,
};

/// A set-up's answer.
pub fn setup(tool: &Tool, refusal: Option<Refusal>) -> String {
    match refusal {
        Some(refusal) => {
            let number = refusal.number();
            format!(
                "  refused, {number}: ports are 1 to 4, buffer places 0 to 16, and setting time and timeout \
                 0 to {SECONDS_MOST} seconds; there is no tool\n"
            )
        }
        None => format!("  accepted: {}\n", tool_kind(tool)),
    }
}

/// `fixed buffer tool, 2 ports, setting time 60 s, timeout 120 s`, `internal buffer tool, 1 port, 4 buffer places`.
/// Times that are both 0 aren't told.
pub fn tool_kind(tool: &Tool) -> String {
    let ports = counted(tool.ports().len(), "port");
    let times = match (tool.setting(), tool.timeout()) {
        (0, 0) => String::new(),
        (setting, timeout) => format!(", setting time {setting} s, timeout {timeout} s"),
    };
    match tool.places() {
        0 => format!("fixed buffer tool, {ports}{times}"),
        places => format!("internal buffer tool, {ports}, {}{times}", counted(places.into(), "buffer place")),
    }
}

/// `1 port`, `2 ports`, `2 entries`.
pub fn counted(count: usize, what: &str) -> String {
    match (count, what.strip_suffix('y')) {
        (1, _) => format!("{count} {what}"),
        (_, Some(stem)) => format!("{count} {stem}ies"),
        _ => format!("{count} {what}s"),
    }
}

/// The number of WAITING FOR HOST, as ID status and as slot status.
const WAITING: u8 = 2;

/// Who waits for the host, and for what: `carrier AC: ID WAITING FOR HOST; 2 records read`.
pub fn waiting(tool: &Tool, Waiting { first, read }: Waiting) -> String {
    let read = counted(read, "record");
    let Some(carrier) = first.and_then(|position| tool.carriers().nth(position)) else {
        return format!("  no carrier waits for the host; {read} read\n");
    };
    let waits = match (carrier.id, carrier.slot) {
        (WAITING, WAITING) => format!("{}, {}", words::id(WAITING), words::slot(WAITING)),
        (WAITING, _) => words::id(WAITING).into(),
        _ => words::slot(WAITING).into(),
    };
    format!("  carrier {}: {waits}; {read} read\n", carrier.name)
}

/// A line for the input, one for the name that was used where another text was sent, one for the answer; for a refusal
/// its causes with what to do about each; one for each report, for what a slot map was compared with, for each
/// change of the queue and of the predictions' times, and for a hand on an AUTO port. The tools are those before and
/// after.
pub fn answer(before: &Tool, after: &Tool, parts: &Parts, given: &Answer) -> String {
    let row = Row::numbered(parts.number);
    let input = parts.to_string();
    let mut lines =
        vec![format!("{}: {}", cut(&input), row.map_or("no input has this number", |row| row.text))];
    let name = row.and_then(|row| name_in(row, parts.name));
    if let Some(Ok(name)) = name {
        lines.extend(shortened(name, parts.name));
    }
    match given {
        Ok(_) => lines.push("accepted".into()),
        Err(refusal) => lines.extend(refused(before, parts, *refusal, row)),
    }
    lines.extend(print::reports(given).map(of_report));
    if given.is_ok() && row.is_some_and(|row| row.arguments.contains(&Argument::Codes)) {
        let expected = name.and_then(Result::ok).and_then(|name| after.expected_map(name.as_bytes()));
        lines.push(compared(expected, parts.codes));
    }
    if given.is_ok() {
        lines.extend(queue::changes(before, after, parts));
        lines.extend(predictions::changes(before, after, parts, given));
        lines.extend(hands::changes(before, after, parts));
    }
    lines.into_iter().map(|line| format!("  {line}\n")).collect()
}

/// The refusal and what the row's conditions are, and each cause with what to do, by the tool that the input met.
fn refused(tool: &Tool, parts: &Parts, refusal: Refusal, row: Option<&Row>) -> Vec<String> {
    let mut lines = vec![format!("refused, {}: {refusal}", refusal.number())];
    let needed = row.and_then(|row| row.conditions).filter(|_| refusal == Refusal::Conditions);
    lines.extend(needed.map(|needed| format!("needed: {needed}")));
    for ground in grounds::lowest(tool, parts) {
        let detail = if ground.detail.is_empty() { String::new() } else { format!(": {}", ground.detail) };
        lines.push(format!("because {}{detail}", ground.cause.text()));
        lines.push(format!("next: {}", ground.cause.advice()));
    }
    lines
}

/// The name that a row uses, or why there is none; nothing where the row takes no name or it may be missing.
fn name_in(row: &Row, text: &[u8]) -> Option<Result<Name, NameError>> {
    let takes = |argument: &Argument| match argument {
        Argument::Name => true,
        Argument::NameOrNone => !text.is_empty(),
        _ => false,
    };
    row.arguments.iter().any(takes).then(|| Name::in_text(text))
}

/// The name that was used, where the text that was sent is longer.
fn shortened(name: Name, text: &[u8]) -> Option<String> {
    match text.len() - name.as_bytes().len() {
        0 => None,
        blanks => Some(format!("the name used is {name}, without {} at its end", counted(blanks, "blank"))),
    }
}

/// Whether the map is the expected one, and what follows from it.
fn compared(expected: Option<&[u8; SLOTS]>, codes: &[u8]) -> String {
    let Some(expected) = expected else { return "no map was expected: the host is asked".into() };
    let slots = (1..).zip(expected.iter().zip(codes)).filter(|(_, (one, other))| one != other);
    let slots: Vec<String> = slots.map(|(slot, _): (u32, _)| slot.to_string()).collect();
    let differs = "the map differs from the expected one at slot";
    match &slots[..] {
        [] => "the map is the expected one: the host isn't asked".into(),
        [slot] => format!("{differs} {slot}: the host is asked"),
        slots => format!("{differs}s {}: the host is asked", slots.join(", ")),
    }
}

/// `port 1: READY TO LOAD to TRANSFER BLOCKED`, `carrier AB: record made, ID NOT READ`.
fn of_report(Report { model, subject, old, new }: Report) -> String {
    let (was, is) = (model.state(old), model.state(new));
    match subject {
        Subject::Port(port) if model == Model::Tie && old == new => {
            format!("port {port}: {is}, now with another carrier")
        }
        Subject::Port(port) if model == Model::Alarm => format!("port {port}: {model} {was} to {is}"),
        Subject::Port(port) => format!("port {port}: {was} to {is}"),
        Subject::Carrier(name) if old == 0 => format!("carrier {name}: record made, {is}"),
        Subject::Carrier(name) if new == 0 => format!("carrier {name}: record gone, was {was}"),
        Subject::Carrier(name) => format!("carrier {name}: {was} to {is}"),
    }
}

#[cfg(test)]
mod tests {
    use super::*;
    use crate::print::tests::{accessed, stored, tool};
    use hawsermole::{ExpectedMap, Input, Wafer};

    fn explained(tool: &mut Tool, input: Input) -> String {
        let before = tool.clone();
        let given = tool.step(&input);
        answer(&before, tool, &input.parts(), &given)
    }

    #[test]
    fn tools_are_named_by_kind_and_size() {
        let kind = |ports, places| tool_kind(&Tool::setup(ports, places).unwrap());
        assert_eq!(kind(1, 0), "fixed buffer tool, 1 port");
        assert_eq!(kind(2, 0), "fixed buffer tool, 2 ports");
        assert_eq!(kind(4, 1), "internal buffer tool, 4 ports, 1 buffer place");
        assert_eq!(kind(1, 16), "internal buffer tool, 1 port, 16 buffer places");
        let timed = |setting, timeout| tool_kind(&Tool::setup_with_times(1, 0, setting, timeout).unwrap());
        assert_eq!(timed(60, 0), "fixed buffer tool, 1 port, setting time 60 s, timeout 0 s");
        assert_eq!(timed(0, 120), "fixed buffer tool, 1 port, setting time 0 s, timeout 120 s");
    }

    #[test]
    fn set_ups() {
        let tool = Tool::setup(2, 0).unwrap();
        assert_eq!(setup(&tool, None), "  accepted: fixed buffer tool, 2 ports\n");
        let refused = setup(&Tool::none(), Some(Refusal::OutOfRange));
        let ranges =
            "ports are 1 to 4, buffer places 0 to 16, and setting time and timeout 0 to 86400 seconds";
        assert_eq!(refused, format!("  refused, 1: {ranges}; there is no tool\n"));
    }

    #[test]
    fn records_that_are_made_and_go() {
        let mut tool = Tool::setup(1, 0).unwrap();
        let made = "  CarrierNotification(AB): announce a carrier\n  accepted\n\
                    \x20 carrier AB: record made, ID NOT READ\n\
                    \x20 carrier AB: record made, SLOT MAP NOT READ\n\
                    \x20 carrier AB: record made, NOT ACCESSED\n\
                    \x20 carrier AB: record made, WAITING FOR CARRIER\n";
        assert_eq!(explained(&mut tool, Input::CarrierNotification { name: b"AB" }), made);
        let gone = explained(&mut tool, Input::CancelCarrierNotification { name: b"AB" });
        assert!(gone.ends_with("  carrier AB: record gone, was WAITING FOR CARRIER\n"), "{gone}");
    }

    #[test]
    fn states_of_ports_and_carriers() {
        let mut tool = Tool::setup(1, 0).unwrap();
        tool.step(&Input::Bind { port: 1, name: b"AB" }).unwrap();
        let started = "  LoadStart(1, manual): a pod starts to arrive\n  accepted\n\
                       \x20 port 1: READY TO LOAD to TRANSFER BLOCKED\n\
                       \x20 port 1: RESERVED to NOT RESERVED\n";
        assert_eq!(explained(&mut tool, Input::LoadStart { port: 1, start: 0 }), started);
        tool.step(&Input::LoadDone { port: 1 }).unwrap();
        let read = explained(&mut tool, Input::IdRead { port: 1, name: b"AC" });
        assert!(read.contains("  port 1: ASSOCIATED, now with another carrier\n"), "{read}");
        let accepted = explained(&mut tool, Input::ProceedWithCarrier { name: b"AC", port: 0 });
        assert!(
            accepted.ends_with("  carrier AC: ID WAITING FOR HOST to ID VERIFICATION OK\n"),
            "{accepted}"
        );
    }

    #[test]
    fn who_waits_and_for_what() {
        let mut tool = tool(1, 0, &[Input::CarrierNotification { name: b"AB" }]);
        let told = |tool: &Tool| waiting(tool, tool.waiting());
        assert_eq!(told(&tool), "  no carrier waits for the host; 1 record read\n");
        assert_eq!(told(&Tool::none()), "  no carrier waits for the host; 0 records read\n");
        let (start, done) = (Input::LoadStart { port: 1, start: 0 }, Input::LoadDone { port: 1 });
        for input in [start, done, Input::IdRead { port: 1, name: b"AC" }] {
            tool.step(&input).unwrap();
        }
        assert_eq!(told(&tool), "  carrier AC: ID WAITING FOR HOST; 2 records read\n");
        // A sound tool may have both at once.
        let mut bytes = *tool.as_bytes();
        bytes[91 + 50 + 48] = WAITING;
        let both = Tool::from_bytes(&bytes);
        assert!(both.is_sound());
        let expected = "  carrier AC: ID WAITING FOR HOST, SLOT MAP WAITING FOR HOST; 2 records read\n";
        assert_eq!(told(&both), expected);
    }

    const NAME: &[u8] = b"AB";

    /// The last line for a slot map of a carrier that was announced so.
    fn judged(announced: Input, codes: &[u8]) -> String {
        let read = Input::IdRead { port: 1, name: NAME };
        let (start, done) = (Input::LoadStart { port: 1, start: 0 }, Input::LoadDone { port: 1 });
        let mut tool = tool(1, 0, &[announced, start, done, read, Input::Open { name: NAME }]);
        let lines = explained(&mut tool, Input::SlotMap { name: NAME, codes });
        lines.lines().last().unwrap().into()
    }

    #[test]
    fn slot_maps_and_what_was_expected() {
        let expected = [3; SLOTS];
        let announced = Input::BindWithMap { port: 1, name: NAME, map: ExpectedMap::new(&expected).unwrap() };
        assert_eq!(judged(announced, &expected), "  the map is the expected one: the host isn't asked");
        let mut codes = expected;
        codes[24] = 1;
        let differs = "  the map differs from the expected one at slot";
        assert_eq!(judged(announced, &codes), format!("{differs} 25: the host is asked"));
        (codes[0], codes[3]) = (5, 0);
        assert_eq!(judged(announced, &codes), format!("{differs}s 1, 4, 25: the host is asked"));
        let without = Input::Bind { port: 1, name: NAME };
        assert_eq!(judged(without, &expected), "  no map was expected: the host is asked");
    }

    #[test]
    fn maps_that_cannot_be_expected() {
        let mut tool = tool(1, 0, &[]);
        let mut told = |codes: &[u8]| {
            let parts = Parts { number: 1, port: 1, name: NAME, codes, ..Parts::default() };
            let before = tool.clone();
            let given = tool.step_parts(&parts);
            answer(&before, &tool, &parts, &given)
        };
        let short = told(&[3; 2]);
        assert!(short.starts_with("  Bind(1, AB, 2 codes): associate"), "{short}");
        let because =
            "\n  because the codes are no expected map: an expected map has 25 codes, not 2\n  next: send";
        assert!(short.contains(because), "{short}");
        assert!(told(&[5; SLOTS]).contains("alone, not 5 as at slot 1\n"));
        assert!(!told(&[3; SLOTS]).contains("because"));
    }

    /// The lines of an input by its parts, without the first two spaces of each.
    fn lines(tool: &mut Tool, number: u32, name: &[u8], codes: &[u8]) -> Vec<String> {
        let parts = Parts { number, port: 1, name, codes, ..Parts::default() };
        let before = tool.clone();
        let given = tool.step_parts(&parts);
        answer(&before, tool, &parts, &given).lines().map(|line| line.trim_start().into()).collect()
    }

    #[test]
    fn padded_names_and_the_name_used() {
        let mut tool = tool(1, 0, &[]);
        let bound = lines(&mut tool, 1, b"AB  ", &[]);
        assert!(bound[0].starts_with("Bind(1, AB\\x20\\x20): associate"), "{bound:?}");
        assert_eq!(bound[1..3], ["the name used is AB, without 2 blanks at its end", "accepted"]);
        assert_eq!(bound[5], "carrier AB: record made, ID NOT READ");
        let unknown = lines(&mut tool, 19, b"X ", &[]);
        let used = "the name used is X, without 1 blank at its end";
        let because = "because the name has no record: X";
        assert_eq!(unknown[1..4], [used, "refused, 2: the name has no record", because]);
        assert_eq!(lines(&mut tool, 19, b"X", &[])[1], "refused, 2: the name has no record");
        assert_eq!(lines(&mut tool, 13, b"X ", &[])[1], "accepted");
        assert_eq!(lines(&mut Tool::none(), 19, b"X ", &[])[3], "because there is no tool");
    }

    #[test]
    fn padded_names_have_their_expected_map() {
        let map = ExpectedMap::new(&[3; SLOTS]).unwrap();
        let announced = Input::BindWithMap { port: 1, name: NAME, map };
        let (start, done) = (Input::LoadStart { port: 1, start: 0 }, Input::LoadDone { port: 1 });
        let (read, open) = (Input::IdRead { port: 1, name: NAME }, Input::Open { name: NAME });
        let mut tool = tool(1, 0, &[announced, start, done, read, open]);
        let last = lines(&mut tool, 20, b"AB   ", &[3; SLOTS]).pop().unwrap();
        assert_eq!(last, "the map is the expected one: the host isn't asked");
    }

    #[test]
    fn texts_that_are_no_name() {
        let mut tool = tool(1, 0, &[]);
        let mut told = |number, name: &[u8]| lines(&mut tool, number, name, &[])[2].clone();
        let blank = "because the text is no name: the text has a blank elsewhere than at the end, as byte 2";
        assert_eq!(told(19, b"A B"), blank);
        let nothing = "because the text is no name: nothing is left without the blanks at the end";
        assert_eq!(told(2, b"  "), nothing);
        assert_eq!(told(19, b""), "because no name is given");
        assert!(told(2, b"").starts_with("needed: what is given means one tied pair"));
        assert_eq!(told(24, b"A B"), "needed: the port READY TO UNLOAD");
        let both = lines(&mut tool, 1, b" A", &[5]);
        assert!(
            both[2].starts_with("because the text is no name: ") && both[3].starts_with("next: send 1 to 16")
        );
        assert!(both[4].starts_with("because the codes are no expected map: "), "{both:?}");
    }

    #[test]
    fn refusals() {
        let mut tool = Tool::setup(1, 0).unwrap();
        let unknown = explained(&mut tool, Input::Open { name: b"AB" });
        let no_record =
            "refused, 2: the name has no record\n  because the name has no record: AB\n  next: host: check";
        assert!(unknown.starts_with(&format!("  Open(AB): open a carrier\n  {no_record}")), "{unknown}");
        let early = explained(&mut tool, Input::LoadDone { port: 1 });
        let conditions = "refused, 5: the row's conditions on state don't hold\n  \
                          needed: the port loading, and no pod held there\n";
        let because =
            "because no pod is being loaded: port 1 is READY TO LOAD, idle\n  next: LoadStart comes first.";
        assert!(
            early.starts_with(&format!("  LoadDone(1): the pod has arrived\n  {conditions}  {because}")),
            "{early}"
        );
        let odd = lines(&mut tool, 37, b"", &[]);
        assert_eq!(odd[0], "37: no input has this number");
        assert!(odd[1].starts_with("refused, 1: a port, place,"), "{odd:?}");
        assert_eq!(odd[2], "because no input has this number: 37; inputs are 1 to 36");
        let none = explained(&mut Tool::none(), Input::LoadDone { port: 1 });
        assert!(none.contains("\n  because there is no tool\n  next: set one up, of 1 to 4 ports"), "{none}");
    }

    #[test]
    fn carriers_that_are_queued() {
        let mut tool = stored(2, &[b"A", b"B"]);
        let queued = explained(&mut tool, Input::CarrierOut { name: b"A", port: 1 });
        let expected = "  CarrierOut(A, 1): queue a carrier's way from the buffer to a port\n  accepted\n\
                        \x20 carrier A is queued for port 1; ahead of it there: nothing\n";
        assert_eq!(queued, expected);
        let started = explained(&mut tool, Input::OutStart { port: 1 });
        let expected = "  port 1: NOT RESERVED to RESERVED\n\
                        \x20 the CarrierOut of A is started: port 1 is kept for it until OutDone\n";
        assert!(started.ends_with(expected), "{started}");
        let kept = explained(&mut tool, Input::LoadStart { port: 1, start: 0 });
        let because = "\n  because a CarrierOut is started to the port: \
                       port 1 is kept for carrier A, whose CarrierOut was started\n  next: OutDone comes first";
        assert!(kept.contains(because), "{kept}");
        let all = explained(&mut tool, Input::CancelAllCarrierOut);
        let expected = "  CancelAllCarrierOut: take back every CarrierOut that isn't started\n  accepted\n\
                        \x20 no CarrierOut was queued that isn't started\n";
        assert_eq!(all, expected);
    }

    #[test]
    fn predictions_that_are_given_judged_and_refused() {
        let mut tool = accessed(60, 120);
        let predicted = explained(&mut tool, Input::PredictedTime { clock: 1000, name: b"A", tp: 1100 });
        let expected = "  PredictedTime(1000, A, 1100): predict when the carrier will be ready to unload\n\
                        \x20 accepted\n\
                        \x20 carrier A: ready to unload at 1100, 100 seconds from now; PREDICTED at 1040\n";
        assert_eq!(predicted, expected);
        let judged = explained(&mut tool, Input::Clock { clock: 1040 });
        assert!(
            judged.ends_with("  accepted\n  carrier A: WAITING FOR PREDICTION to PREDICTED\n"),
            "{judged}"
        );
        let second = explained(&mut tool, Input::PredictedTime { clock: 1040, name: b"A", tp: 1100 });
        let because = "\n  because the carrier has a predicted time already: A is PREDICTED, ready at 1100\n";
        assert!(second.contains(because), "{second}");
        let early = explained(&mut tool, Input::Clock { clock: 1039 });
        let because = "  refused, 11: the clock is earlier than the last accepted\n  because the clock is earlier \
                       than the last accepted: clock 1039, and the last accepted is 1040\n  next: send the time";
        assert!(early.contains(because), "{early}");
    }

    #[test]
    fn wafers_that_are_totalled_and_refused() {
        let mut tool = accessed(60, 120);
        let mut sent =
            |wafers: &[Wafer]| explained(&mut tool, Input::Wafers { clock: 9, name: b"A", wafers });
        let odd = sent(&[Wafer { process: 0.1, handling: 0.0 }]);
        let because = "  refused, 12: a wafer's time or the predicted time is out of range\n  \
                       because a time of a wafer is out of range: process time of wafer 1 is \
                       0.1, between the good ones 0.099609375 and 0.1005859375\n  next: send whole 1/1024ths";
        assert!(odd.contains(because), "{odd}");
        let expected =
            "  Wafers(9, A, 1 wafer): predict ready to unload by the times of the carrier's wafers\n\
             \x20 accepted\n\
             \x20 carrier A: WAITING FOR PREDICTION to PREDICTED\n\
             \x20 1 wafer takes 30.5 seconds, rounded up 31\n\
             \x20 carrier A: ready to unload at 40, 31 seconds from now\n";
        assert_eq!(sent(&[Wafer { process: 30.0, handling: 0.5 }]), expected);
    }

    #[test]
    fn hands_on_an_auto_port() {
        let mut tool = Tool::setup(1, 0).unwrap();
        let vehicle = explained(&mut tool, Input::LoadStart { port: 1, start: 1 });
        let because = "  refused, 13: an automatic start in MANUAL\n  \
                       because the port is MANUAL, and the start automatic: port 1\n  next: keep the vehicle away";
        assert!(vehicle.contains(because), "{vehicle}");
        tool.step(&Input::ChangeAccess { port: 1, access: 1 }).unwrap();
        let hand = explained(&mut tool, Input::LoadStart { port: 1, start: 0 });
        let raised = "  LoadStart(1, manual): a pod starts to arrive\n  accepted\n\
                      \x20 port 1: READY TO LOAD to TRANSFER BLOCKED\n\
                      \x20 port 1: AccessModeViolation alarm off to on\n\
                      \x20 port 1 is for vehicles, and a hand loads it: LoadDone will hold the pod, ";
        assert!(hand.starts_with(raised), "{hand}");
        let early = explained(&mut tool, Input::Continue { port: 1 });
        let because = "\n  needed: a pod held at the port\n  because no pod is held at the port: \
                       port 1 is TRANSFER BLOCKED, loading, its alarm on\n  next: nothing to continue";
        assert!(early.contains(because), "{early}");
        tool.step(&Input::LoadDone { port: 1 }).unwrap();
        let again = explained(&mut tool, Input::LoadDone { port: 1 });
        assert!(
            again.contains("\n  because a pod is held at the port: port 1\n  next: Continue lets it stay"),
            "{again}"
        );
        let stays = explained(&mut tool, Input::Continue { port: 1 });
        let cleared = "  accepted\n  port 1: AccessModeViolation alarm on to off\n\
                       \x20 port 1: the pod that was held stays, loaded as by LoadDone\n";
        assert!(stays.ends_with(cleared), "{stays}");
    }

    /// A name of any length is sent; of a long one the beginning is told.
    #[test]
    fn long_names_are_cut_where_they_are_told() {
        let mut tool = Tool::setup(1, 0).unwrap();
        let told = lines(&mut tool, 19, &[b'A'; 3_000_000], &[]);
        assert_eq!(told[0], format!("Open({}..: open a carrier", "A".repeat(175)));
        assert!(told[2].ends_with("the text has 3000000 bytes, more than 32"), "{told:?}");
    }
}
